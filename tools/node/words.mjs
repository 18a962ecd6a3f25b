// What the tools that run the modules of page/ share: their words, their streams and their exit status.
import {readFileSync} from "node:fs";
import {parseArgs} from "node:util";
import {belongs, isSo, NoAnswer, readAnswer} from "../../page/read/answer.js";
import {NotJson, readable, textOf} from "../../page/read/json.js";
import {Network} from "../../page/read/network.js";
import {askOf} from "./ask.mjs";
import {speakOf} from "../../page/words/say.js";

/** The built program, or null. */
export const ask = askOf();

class Usage extends Error {}

/** The words of a call as `{words, ..}`, with the options that there may be. One document is wanted, unless `isOptional`. */
export function optionsOf(kinds, usage, isOptional = false) {
    try {
        const options = Object.fromEntries(Object.entries(kinds).map(([name, type]) => [name, {type}]));
        const {values, positionals} = parseArgs({options, allowPositionals: true});
        if (positionals.length === 1 || (isOptional && positionals.length === 0)) return {words: positionals, ...values};
    } catch (error) {
        if (!(error.code ?? "").startsWith("ERR_PARSE_ARGS")) throw error;
    }
    throw new Usage(`usage: ${usage}`);
}

/** The document in a file. */
export function documentAt(file) {
    const bytes = readFileSync(file);
    try {
        return new Network(textOf(bytes));
    } catch (error) {
        if (error instanceof NotJson) return new Network(readable(bytes), error);
        throw error;
    }
}

/** The answer that was read, which has to be one to a document; by its labels firms and trades are called from now on. */
export async function answerTo(network, said) {
    speakOf(network);
    belongs(network, said);
    await isSo(network, said, ask);
    return said;
}

/** The earlier answer in a file. Its document may have had other numbers. */
export function earlierAt(network, file) {
    const said = readAnswer(readFileSync(file, "utf8"));
    belongs(network, said);
    return said;
}

/** The whole standard input, or nothing where it is a terminal. */
export async function standardInput() {
    const chunks = [];
    if (!process.stdin.isTTY) for await (const chunk of process.stdin) chunks.push(chunk);
    return Buffer.concat(chunks).toString("utf8");
}

/** Writes what a tool makes. Its status is 0, 1 where the answer or a file isn't what is wanted, and 2 where the words aren't. */
export async function finish(make) {
    try {
        process.stdout.write(await make());
    } catch (error) {
        if (!(error instanceof Usage || error instanceof NoAnswer || error.syscall)) throw error;
        process.stderr.write(`${error.message}\n`);
        process.exitCode = error instanceof Usage ? 2 : 1;
    }
}
