// Runs of the program over a pipe, one after another in one process:
//   LENGTH WORDS\n     a request: how many bytes its document has, and the words, as a JSON array of texts; then these bytes
//   STATUS LENGTH\n    its answer: the exit status, and how many bytes the program writes; then these bytes
// Where no answer comes, that is `70 0`, and a sentence on standard error says why.
import {NoAnswer} from "./module.mjs";
import {run} from "./run.mjs";

const NONE = 70;
const LINE_FEED = 10;

/** The input isn't requests. */
export class NoRequest extends Error {}

/** Answers the requests of a source until it ends; `say` tells why one has no answer. */
export function serve(program, source, sink, say) {
    const input = new Input(source);
    for (let head = input.line(); head !== null; head = input.line()) {
        const {length, words} = requestOf(head);
        const {status, bytes} = answered(program, words, input.bytes(length), say);
        sink(Buffer.concat([Buffer.from(`${status} ${bytes.length}\n`), bytes]));
    }
}

function requestOf(head) {
    const [, length, said] = /^(\d{1,10}) (\[.*\])$/.exec(head) ?? [];
    const words = parsed(said);
    if (!Array.isArray(words) || words.some((word) => typeof word !== "string")) throw new NoRequest(`this is no request: ${head.slice(0, 80)}`);
    return {length: Number(length), words};
}

function parsed(text) {
    try {
        return JSON.parse(text);
    } catch {
        return null;
    }
}

/** A run of the program over a document at hand. */
function answered(program, words, document, say) {
    const parts = [];
    let left = document;
    const source = (most) => {
        const piece = left.subarray(0, most);
        left = left.subarray(piece.length);
        return piece;
    };
    try {
        const status = run(program, words, source, (bytes) => parts.push(bytes));
        return {status, bytes: Buffer.concat(parts)};
    } catch (error) {
        if (!(error instanceof NoAnswer)) throw error;
        say(error.message);
        return {status: NONE, bytes: Buffer.alloc(0)};
    }
}

/** A source by lines and by numbers of bytes. */
class Input {
    constructor(source) {
        this.source = source;
        this.rest = Buffer.alloc(0);
    }

    /** The next line without its end; null where the input has ended. */
    line() {
        let end;
        while ((end = this.rest.indexOf(LINE_FEED)) < 0 && this.more());
        if (end < 0 && this.rest.length === 0) return null;
        if (end < 0) throw new NoRequest("the input ends within a request");
        const line = this.rest.toString("utf8", 0, end);
        this.rest = this.rest.subarray(end + 1);
        return line;
    }

    bytes(count) {
        const parts = [];
        let size = 0;
        while (size < count && (this.rest.length > 0 || this.more())) {
            const part = this.rest.subarray(0, count - size);
            parts.push(part);
            size += part.length;
            this.rest = this.rest.subarray(part.length);
        }
        if (size < count) throw new NoRequest("the input ends within a request");
        return Buffer.concat(parts);
    }

    /** Reads on; whether anything came. */
    more() {
        const piece = this.source(65536);
        this.rest = Buffer.concat([this.rest, piece]);
        return piece.length > 0;
    }
}
