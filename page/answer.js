// An answer of the program as a module: words and a document in, the exit status and the bytes that it writes out.

/** What the program answers is at most this long, in most cases; where it is longer it says so, and is asked again. */
const ROOM = 1 << 16;

/** What stands in place of the exit status where the answer is longer than the room for it. */
const LONGER = 8;

/** Memory was refused. */
class Refused extends Error {}

/** Runs a compiled module in a new instance, so that no answer finds what another left: `{status, bytes}`. */
export function answer(compiled, words, bytes) {
    return answerWithin(compiled, new TextEncoder().encode(words.join("\0")), bytes, ROOM);
}

function answerWithin(compiled, words, bytes, room) {
    const {memory, page_answer: run} = instanceOf(compiled);
    const parts = [words, bytes, {length: room}];
    const size = parts.reduce((sum, part) => sum + part.length, 0);
    let at = grown(memory, Math.ceil(size / 65536)) * 65536;
    const places = parts.map(({length}) => [(at += length) - length, length]);
    new Uint8Array(memory.buffer).set(words, places[0][0]);
    new Uint8Array(memory.buffer).set(bytes, places[1][0]);
    const told = BigInt.asUintN(64, run(...places.flat().map(BigInt))), status = Number(told & 255n), length = Number(told >> 8n);
    if (status === LONGER) return answerWithin(compiled, words, bytes, length);
    return {status, bytes: new Uint8Array(memory.buffer, places[2][0], length).slice()};
}

function instanceOf(compiled) {
    try {
        return new WebAssembly.Instance(compiled).exports;
    } catch (error) {
        throw error instanceof RangeError ? new Refused() : error;
    }
}

/** Grows a memory by some pages, and answers how many it had. */
function grown(memory, pages) {
    try {
        return memory.grow(pages);
    } catch {
        throw new Refused();
    }
}

/** What kept the program from answering: "memory", "stack" or "trap". Engines say in their own ways that a stack ran out. */
export function troubleOf(error) {
    if (error instanceof Refused) return "memory";
    return error instanceof RangeError || error.name === "InternalError" ? "stack" : "trap";
}
