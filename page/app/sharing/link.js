// What stands in the fragment of an address: a document as "1." and its bytes, made smaller by deflate, in letters of
// base64url, a result of an exercise as "2." and the same of its file, a language as "lang=" and its name, and "easy" for an easy page.
// Between two stands &.
import {resultIn} from "../exercise/exercise.js";

const HEAD = "1.", RESULT = "2.", LANGUAGE = "lang=", EASY = "easy", MOST_BYTES = (1 << 22) + 1;

/** Up to how many letters a fragment is offered. */
export const MOST_LETTERS = 8000;

/** The fragment of a document. */
export function fragmentOf(bytes) {
    return packed(HEAD, bytes);
}

/** The fragment of a result, by the text of its file. */
export function resultFragment(text) {
    return packed(RESULT, new TextEncoder().encode(text));
}

async function packed(head, bytes) {
    const smaller = new Blob([bytes]).stream().pipeThrough(new CompressionStream("deflate-raw"));
    const small = new Uint8Array(await new Response(smaller).arrayBuffer());
    let letters = "";
    for (let at = 0; at < small.length; at += 8192) letters += String.fromCharCode(...small.subarray(at, at + 8192));
    return `#${head}` + btoa(letters).replaceAll("+", "-").replaceAll("/", "_").replaceAll("=", "");
}

/** What a part of a fragment has behind its head, or null where there is no such part. */
function behind(fragment, head) {
    return fragment.slice(1).split("&").find((part) => part.startsWith(head))?.slice(head.length) ?? null;
}

/** Whether an address has a document. */
export function isDocument(fragment) {
    return behind(fragment, HEAD) !== null;
}

/** The name of the language in an address, or null. */
export function languageIn(fragment) {
    return behind(fragment, LANGUAGE);
}

/** Whether an address wants an easy page. */
export function isEasyIn(fragment) {
    return behind(fragment, EASY) === "";
}

/** The end of a link that wants one. */
export const EASY_END = `&${EASY}`;

/** The bytes of a fragment, of which there are at most 4 MiB and one; throws where it holds none. */
export function bytesIn(fragment) {
    return unpacked(behind(fragment, HEAD));
}

/** The results in a text with addresses, between which are blanks, as `Open` takes them from files; what is none is left out. */
export async function resultsIn(text) {
    const parts = text.split(/\s+/).map((word) => (word.includes("#") ? behind(word.slice(word.indexOf("#")), RESULT) : null)).filter((part) => part !== null);
    const texts = await Promise.all(parts.map((part) => unpacked(part).then((bytes) => new TextDecoder().decode(bytes), () => "")));
    return texts.map((each) => resultIn(each)).filter((result) => result !== null).map((result) => ({file: result.name, ...result}));
}

async function unpacked(packedLetters) {
    const letters = atob(packedLetters.replaceAll("-", "+").replaceAll("_", "/"));
    const small = Uint8Array.from(letters, (letter) => letter.charCodeAt(0));
    const reader = new Blob([small]).stream().pipeThrough(new DecompressionStream("deflate-raw")).getReader();
    const parts = [];
    let length = 0;
    for (let {done, value} = await reader.read(); !done; {done, value} = await reader.read()) {
        parts.push(value.subarray(0, MOST_BYTES - length));
        length += parts[parts.length - 1].length;
        if (length === MOST_BYTES) break;
    }
    reader.cancel().catch(() => undefined);
    return new Uint8Array(await new Blob(parts).arrayBuffer());
}
