// The program as a function: what the modules of page/ ask runs it with a document as its input.
import {spawnSync} from "node:child_process";
import {existsSync} from "node:fs";
import {fileURLToPath} from "node:url";
import {compiledOf, programOf} from "../../page/module.mjs";

const [LAUNCHER, BUILT_OF, MODULE] = ["market", "BUILT-OF", "page/market.mjs"].map((name) => fileURLToPath(new URL(`../../${name}`, import.meta.url)));

/**
 * The path of the program that is asked: the one that MARKET names, or what the launcher runs; "" where it would have to build. What
 * is handed on has the program in place of the launcher, and the module for where that doesn't run.
 */
function found() {
    if (process.env.MARKET) return process.env.MARKET;
    if (existsSync(BUILT_OF)) return spawnSync(LAUNCHER, ["--version"]).status === 0 ? LAUNCHER : MODULE;
    return (spawnSync(LAUNCHER, ["--which"], {encoding: "utf8"}).stdout ?? "").trim();
}

/**
 * `answer(words, document)` of a program, as text; null where there is no program. The module of the page answers in this process,
 * and any other program in one of its own.
 */
export function answersOf(program = found()) {
    if (!existsSync(program)) return null;
    return program.endsWith(".mjs") ? byModule() : (words, document) => {
        const {stdout, error} = spawnSync(program, words, {input: document, encoding: "utf8", maxBuffer: 1 << 26});
        if (error && error.code !== "EPIPE") throw error;
        return stdout;
    };
}

function byModule() {
    let answer = null; // (the module is compiled for the first question)
    return (words, document) => {
        answer ??= programOf(compiledOf());
        return Buffer.from(answer(words, Buffer.from(document)).bytes).toString();
    };
}

/** `ask(words, document)` as the modules of page/ take it: a promise of a text. Without a program it is null: then nothing is asked. */
export function askOf(program) {
    const answer = answersOf(program);
    return answer && (async (words, document) => answer(words, document));
}
