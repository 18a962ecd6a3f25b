// JSON text into values that know where they stand. It takes exactly what `market` takes: of equal members the last counts, a
// value nests at most 127 deep, and a number too large for a float is none. Numbers stay text, so none is rounded.
import {say} from "../words/say.js";

/** How deep lists and objects may stand in each other. */
const DEEPEST = 127;

/** What isn't JSON: `offset` is where it ends being so. The message is all that is said where it `isWhole`, and else what stands there is wrong. */
export class NotJson extends Error {
    constructor(message, offset, isWhole = false) {
        super(message);
        this.offset = offset;
        this.isWhole = isWhole;
    }
}

/** A number as it is written. */
export class Numeral {
    constructor(text) {
        this.text = text;
    }
    toString() {
        return this.text;
    }
}

/**
 * The value of a text, as a node: `kind`, `start` and `end` in the text, and `value`. That is a list of nodes, a Map from names to
 * nodes, a text, a Numeral, a truth value or null. Throws NotJson.
 */
export function parse(text) {
    if (text.startsWith("\ufeff")) throw new NotJson(say("json.mark"), 0, true);
    const reader = new Reader(text);
    const value = reader.value(0);
    reader.skip();
    if (reader.at < text.length) throw new NotJson(say("json.more"), reader.at);
    return value;
}

/** A node as plain data: whole numbers as BigInt, other numbers as Numeral, objects without a prototype. */
export function plain(node) {
    if (node.kind === "list") return node.value.map(plain);
    if (node.kind === "number") return /^(0|-?[1-9]\d*)$/.test(node.value.text) ? BigInt(node.value.text) : node.value;
    if (node.kind !== "object") return node.value;
    const made = Object.create(null);
    for (const [name, member] of node.value) made[name] = plain(member);
    return made;
}

/** Plain data as text. */
export function written(value) {
    if (Array.isArray(value)) return `[${value.map(written).join(",")}]`;
    if (typeof value === "bigint" || value instanceof Numeral) return String(value);
    if (typeof value !== "object" || value === null) return JSON.stringify(value);
    return `{${Object.entries(value).map(([name, member]) => `${JSON.stringify(name)}:${written(member)}`).join(",")}}`;
}

/**
 * The node that a place leads to, as `{node, whole}`. Where the last step is a member that isn't there, it is the object that lacks
 * it, and `whole` is false.
 */
export function find(node, place) {
    for (const step of place) {
        const next = node.kind === "list" || node.kind === "object" ? childAt(node, step) : undefined;
        if (next === undefined) return {node, whole: false};
        node = next;
    }
    return {node, whole: true};
}

function childAt(node, step) {
    return node.kind === "list" ? (typeof step === "string" ? undefined : node.value[Number(step)]) : node.value.get(String(step));
}

/** The line and the column of an offset, both counted from 1. */
export function lineAndColumn(text, offset) {
    const before = text.slice(0, offset).split("\n");
    return {line: before.length, column: [...before[before.length - 1]].length + 1};
}

/** The text of bytes. Throws NotJson, with the offset in what could be read, where they aren't UTF-8. */
export function textOf(bytes) {
    try {
        return new TextDecoder("utf-8", {fatal: true, ignoreBOM: true}).decode(bytes);
    } catch {
        const {length} = readable(bytes), byte = bytes[new TextEncoder().encode(readable(bytes)).length];
        if (length === 0 && (byte === 0xff || byte === 0xfe)) throw new NotJson(say("json.utf16"), 0, true);
        throw new NotJson(say("json.no_utf8", {byte: byte.toString(16).toUpperCase()}), length, true);
    }
}

/** The longest beginning of bytes that aren't UTF-8 which is, as text. */
export function readable(bytes) {
    let good = 0, bad = bytes.length + 1, text = "";
    while (bad - good > 1) {
        const middle = (good + bad) >> 1;
        try {
            text = new TextDecoder("utf-8", {fatal: true, ignoreBOM: true}).decode(bytes.subarray(0, middle), {stream: true});
            good = middle;
        } catch {
            bad = middle;
        }
    }
    return text;
}

const ESCAPES = {'"': '"', "\\": "\\", "/": "/", b: "\b", f: "\f", n: "\n", r: "\r", t: "\t"};
const WORDS = [["true", "truth", true], ["false", "truth", false], ["null", "null", null]];
const NUMBER = /-?(?:0|[1-9]\d*)(?:\.\d+)?(?:[eE][+-]?\d+)?/y;

class Reader {
    constructor(text) {
        this.text = text;
        this.at = 0;
    }

    fail(message, at = this.at) {
        throw new NotJson(message, at);
    }

    skip() {
        while (" \t\n\r".includes(this.text[this.at] ?? "end")) this.at += 1;
    }

    /** Whether the next sign is this one, which is then passed. */
    takes(sign) {
        this.skip();
        if (this.text[this.at] !== sign) return false;
        this.at += 1;
        return true;
    }

    value(depth) {
        this.skip();
        const start = this.at;
        const [kind, value] = this.content(depth, this.text[start]);
        return {kind, start, end: this.at, value};
    }

    content(depth, first) {
        if (first === undefined) this.fail(say("json.ends"));
        if ((first === "{" || first === "[") && depth === DEEPEST) this.fail(say("json.deep", {most: DEEPEST}));
        if (first === "{") return ["object", this.object(depth + 1)];
        if (first === "[") return ["list", this.list(depth + 1)];
        if (first === '"') return ["text", this.string()];
        if (first === "-" || (first >= "0" && first <= "9")) return ["number", this.number()];
        for (const [word, kind, value] of WORDS) {
            if (!this.text.startsWith(word, this.at)) continue;
            this.at += word.length;
            return [kind, value];
        }
        return this.fail(say("json.no_value"));
    }

    list(depth) {
        const items = [];
        this.at += 1;
        if (this.takes("]")) return items;
        do items.push(this.value(depth)); while (this.takes(","));
        if (!this.takes("]")) this.fail(say("json.list"));
        return items;
    }

    object(depth) {
        const members = new Map();
        this.at += 1;
        if (this.takes("}")) return members;
        do {
            this.skip();
            if (this.text[this.at] !== '"') this.fail(say("json.member"));
            const name = this.string();
            if (!this.takes(":")) this.fail(say("json.colon"));
            members.set(name, this.value(depth));
        } while (this.takes(","));
        if (!this.takes("}")) this.fail(say("json.object"));
        return members;
    }

    number() {
        NUMBER.lastIndex = this.at;
        const found = NUMBER.exec(this.text);
        if (found === null) this.fail(say("json.digits"));
        const start = this.at;
        this.at += found[0].length;
        if ("0123456789.eE".includes(this.text[this.at] ?? "end")) this.fail(say("json.number"));
        if (!Number.isFinite(Number(found[0]))) this.fail(say("json.too_large"), start);
        return new Numeral(found[0]);
    }

    string() {
        const opened = this.at;
        let text = "";
        for (this.at += 1; ; ) {
            const sign = this.text[this.at];
            if (sign === undefined) this.fail(say("json.open"), opened);
            if (sign < " ") this.fail(say("json.control"));
            this.at += 1;
            if (sign === '"') return text;
            text += sign === "\\" ? this.escape() : sign;
        }
    }

    escape() {
        const sign = this.text[this.at];
        if (sign === "u") return this.character();
        if (ESCAPES[sign] === undefined) this.fail(say("json.escape"));
        this.at += 1;
        return ESCAPES[sign];
    }

    /** The character of an escape by its number; beyond 16 bits it takes two of them. */
    character() {
        const start = this.at - 1, first = this.unit();
        if (first < 0xd800 || first > 0xdfff) return String.fromCharCode(first);
        if (first > 0xdbff || !this.text.startsWith("\\u", this.at)) this.fail(say("json.half"), start);
        this.at += 1;
        const second = this.unit();
        if (second < 0xdc00 || second > 0xdfff) this.fail(say("json.half"), start);
        return String.fromCharCode(first, second);
    }

    unit() {
        const digits = this.text.slice(this.at + 1, this.at + 5);
        if (!/^[0-9a-fA-F]{4}$/.test(digits)) this.fail(say("json.four_digits"));
        this.at += 5;
        return parseInt(digits, 16);
    }
}
