// A run of the program: its words, a source of bytes and a sink for them, and its exit status. The program itself answers; here is
// only what stands about a call: how much is read, how lines part, and what ends a run where reading or writing fails.
//   program(words, bytes)  {status, bytes}
//   source(most)           the next bytes, `most` at the most, which stand there until it is called again; none at the end; throws ReadFailed
//   sink(bytes)            writes all of them; throws WriteFailed

/** The most bytes of a document; one more is read, so that the program sees that there are more. */
const LIMIT = 4194304;
const PIECE = 65536;
const LINE_FEED = 10;
const NOTHING = new Uint8Array(0);

const FAULT = 1, READ_FAILED = 3, WRITE_FAILED = 4, NO_MEMORY = 5;
const READ_FAULT = new TextEncoder().encode('{"answer":"read_fault"}\n');

export class ReadFailed extends Error {}
export class WriteFailed extends Error {}

/** Runs the program, and answers its exit status. */
export function run(program, words, source, sink) {
    try {
        return goesByLine(program, words) ? runLines(program, words[0], source, sink) : runOnce(program, words, source, sink);
    } catch (error) {
        if (error instanceof WriteFailed) return WRITE_FAILED;
        if (!(error instanceof ReadFailed)) throw error;
        return written(sink, READ_FAULT) ? READ_FAILED : WRITE_FAILED;
    }
}

/** Whether the words read a document: an empty one has a fault, and words that read none have none. */
function reads(said) {
    return said.status === FAULT;
}

function goesByLine(program, words) {
    return words.length === 2 && words[1] === "--lines" && reads(program([words[0]], NOTHING));
}

function runOnce(program, words, source, sink) {
    let said = program(words, NOTHING);
    if (reads(said)) said = program(words, documentOf(source));
    sink(said.bytes);
    return said.status;
}

function documentOf(source) {
    const line = new Line();
    for (let piece = source(PIECE); piece.length > 0; piece = source(Math.min(PIECE, line.room()))) line.add(piece);
    return line.take();
}

function runLines(program, command, source, sink) {
    let status = 0;
    for (const line of linesOf(source)) {
        const said = program([command], line);
        sink(said.bytes);
        status = worse(status, said.status);
    }
    return status;
}

/** The status of a run after one more answer: want of memory goes before a fault, and a fault before all else. */
function worse(status, answer) {
    return [NO_MEMORY, FAULT].find((one) => one === status || one === answer) ?? 0;
}

/** The lines of a source, each as soon as it has come. */
function* linesOf(source) {
    const line = new Line();
    for (let piece = source(PIECE); piece.length > 0; piece = source(PIECE)) yield* line.ended(piece);
    if (line.size > 0) yield line.take();
}

/** What has come of a document, at most LIMIT bytes and one. */
class Line {
    constructor() {
        this.bytes = new Uint8Array(PIECE);
        this.size = 0;
    }

    room() {
        return LIMIT + 1 - this.size;
    }

    add(piece) {
        const part = piece.subarray(0, this.room()), size = this.size + part.length;
        if (size > this.bytes.length) this.grow(size);
        this.bytes.set(part, this.size);
        this.size = size;
    }

    grow(size) {
        const bytes = new Uint8Array(Math.max(size, 2 * this.bytes.length));
        bytes.set(this.bytes);
        this.bytes = bytes;
    }

    take() {
        const whole = this.bytes.slice(0, this.size);
        this.size = 0;
        return whole;
    }

    /** The lines that end in a piece; what follows the last of them is the begin of the next. */
    *ended(piece) {
        let from = 0;
        for (let end = piece.indexOf(LINE_FEED); end >= 0; end = piece.indexOf(LINE_FEED, from)) {
            this.add(piece.subarray(from, end));
            from = end + 1;
            yield this.take();
        }
        this.add(piece.subarray(from));
    }
}

function written(sink, bytes) {
    try {
        sink(bytes);
        return true;
    } catch (error) {
        if (error instanceof WriteFailed) return false;
        throw error;
    }
}
