// What is said on standard error of words that are no command, as the native program says it (crates/market/src/hint.rt): at which
// word they stop being one, and what may have been meant.
import {isNear} from "./read/near.js";

const COMMANDS = ["check", "firms", "test", "support", "solve", "range", "session", "judge", "replay", "drill", "cases", "help", "--help",
    "--version"];
const ALONE = ["cases", "-h", "--help", "--version"];
const OPTIONS = ["--csv", "--csv=wide", "--lines", "--help"];
const NOTHING = "a command is wanted, as in: market solve < file.json";

/** The lines about words that are no command. */
export function hintOf(words) {
    return `market: ${stopOf(words)}\nmarket: all commands stand in market --help\n`;
}

/** Where words that are no command stop being one. */
function stopOf([word, ...rest]) {
    if (word === undefined) return NOTHING;
    if (word === "help") return stopOfHelp(rest);
    if (word === "drill") return "drill wants a size from 1 to 64 and a start from 0 to 2147483647: market drill 64 7";
    if (ALONE.includes(word)) return rest.length === 0 ? NOTHING : tooMany(word, rest[0]);
    return COMMANDS.includes(word) ? stopOfCommand(word, rest) : stopAt(word);
}

/** Where the first word is no command. */
function stopAt(word) {
    if (isFile(word)) return fileNamed("solve", word);
    if (COMMANDS.some((command) => word.startsWith(`${command} `))) return `'${word}' came as one word: write it without quotes`;
    return `'${word}' is no command${meant(word, COMMANDS)}`;
}

function stopOfHelp([word, next]) {
    if (word === undefined) return NOTHING;
    return next === undefined ? `no page is about '${word}'${meant(word, COMMANDS)}` : tooMany(word, next);
}

/** Where the words behind a command that reads a document go wrong. */
function stopOfCommand(command, rest) {
    const file = rest.find(isFile), [word, next] = rest;
    if (file !== undefined) return fileNamed(command, file);
    if (word === undefined) return NOTHING;
    if (next !== undefined) return tooMany(word, next);
    if (word === "--csv" || word === "--csv=wide") {
        return `${command} has no ${word}: firms, support, solve and range have --csv, and solve --csv=wide`;
    }
    return `'${word}' can't stand behind ${command}${meant(word, OPTIONS)}`;
}

function fileNamed(command, file) {
    return `the document is read from standard input: market ${command} < ${file}`;
}

function tooMany(before, word) {
    return `'${word}' is one word too many behind ${before}`;
}

/** Whether a word is the name of a file, most likely. */
function isFile(word) {
    return word.includes(".") || word.includes("/");
}

/** What may have been meant: the first of some words that is written nearly so. */
function meant(word, known) {
    const like = known.find((it) => isNear(word, it));
    return like === undefined ? "" : `: did you mean ${like}?`;
}
