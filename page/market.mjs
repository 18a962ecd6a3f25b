#!/usr/bin/env node
// The program by the module of the page, under node 18 or later: its words, standard input, standard output and exit status are those
// of the program. Where no answer comes, it ends with status 70, and a sentence on standard error says why.
//   node page/market.mjs solve < FILE
//   node page/market.mjs --serve          many runs over a pipe, as serve.mjs has it
import {readFileSync} from "node:fs";
import {sinkOf, sourceOf} from "./ends.mjs";
import {hintOf} from "./hint.mjs";
import {compiledOf, NoAnswer, programOf} from "./module.mjs";
import {ReadFailed, run, WriteFailed} from "./run.mjs";
import {NoRequest, serve} from "./serve.mjs";

const USAGE = 2, READ_FAILED = 3, WRITE_FAILED = 4, NO_WORDS = 7, NONE = 70;

function say(sentence) {
    process.stderr.write(`market: ${sentence}\n`);
}

/** Whether each word is UTF-8. Node puts a mark in place of what isn't, so only where there is one are the bytes looked at. */
function areText(words) {
    if (!words.some((word) => word.includes("\ufffd"))) return true;
    try {
        new TextDecoder("utf-8", {fatal: true}).decode(readFileSync("/proc/self/cmdline"));
        return true;
    } catch (error) {
        return error.code === "ENOENT"; // (a system without /proc)
    }
}

function main(words) {
    if (!areText(words)) return NO_WORDS;
    const program = programOf(compiledOf()), source = sourceOf(0), sink = sinkOf(1);
    if (words.length !== 1 || words[0] !== "--serve") return runAtTerminal(program, words, source, sink);
    serve(program, source, sink, say);
    return 0;
}

/** Runs the program once; of words that are no command it says on standard error where they stop being one. */
function runAtTerminal(program, words, source, sink) {
    const status = run(program, words, source, sink);
    if (status === USAGE) process.stderr.write(hintOf(words));
    return status;
}

/** The status of a run that broke off. */
function statusOf(error) {
    if (error instanceof ReadFailed) return READ_FAILED;
    if (error instanceof WriteFailed) return WRITE_FAILED;
    say(error instanceof NoAnswer || error instanceof NoRequest ? error.message : `the module of the page can't be run: ${error.message}`);
    return NONE;
}

try {
    process.exitCode = main(process.argv.slice(2));
} catch (error) {
    process.exitCode = statusOf(error);
}
