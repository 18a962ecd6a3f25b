// The program under node: the module that lies packed in the page, and its answers.
import {readFileSync} from "node:fs";
import {setFlagsFromString} from "node:v8";
import {gunzipSync} from "node:zlib";
import {answer, troubleOf} from "./answer.js";

const PAGE = new URL("market.html", import.meta.url);
const TROUBLES = {stack: "the stack of node ran out", memory: "node was refused memory", trap: "the module stopped the program"};

/** There is no answer; the message says why. */
export class NoAnswer extends Error {}

/** The module of a page, compiled by V8's quick compiler alone: its other one takes longer than nearly every answer. */
export function compiledOf(page = PAGE) {
    setFlagsFromString("--liftoff-only");
    const packed = /<script type="text\/plain" id="program">([^<]*)</.exec(readFileSync(page, "latin1"));
    if (packed === null) throw new NoAnswer("the page has no module in it");
    return new WebAssembly.Module(gunzipSync(Buffer.from(packed[1], "base64")));
}

/** The program of a compiled module as a function of words and a document's bytes: `{status, bytes}`. Where none comes it throws NoAnswer. */
export function programOf(compiled) {
    return (words, bytes) => {
        if (words.some((word) => word.includes("\0"))) throw new NoAnswer("a word has a zero byte in it, which none can have");
        try {
            return answer(compiled, words, bytes);
        } catch (error) {
            throw new NoAnswer(`${TROUBLES[troubleOf(error)]} at: ${words.join(" ")}`);
        }
    };
}
