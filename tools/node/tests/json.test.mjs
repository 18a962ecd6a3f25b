// Whether page/read/json.js takes what the program takes as JSON, and says where what it takes stands.
//   MARKET=PROGRAM node --test tools/node/tests          (BROKEN=10000 for more broken documents)
import assert from "node:assert/strict";
import {test} from "node:test";
import {find, lineAndColumn, NotJson, Numeral, parse, plain, textOf} from "../../../page/read/json.js";
import {askOf} from "../ask.mjs";
import {draws, examples} from "./support.mjs";

const ask = askOf();

/** Why bytes aren't JSON, or null where they are. */
function refusal(bytes) {
    try {
        parse(textOf(bytes));
        return null;
    } catch (error) {
        if (error instanceof NotJson) return error.message;
        throw error;
    }
}

async function isRefused(bytes) {
    return (await ask(["test"], bytes)).includes('"fault":1,');
}

/** A copy of bytes with one to three edits: a byte gone, put in, or another, a piece doubled, or the end cut off. */
function broken(bytes, draw) {
    let made = [...bytes];
    const signs = [...new TextEncoder().encode('{}[]",:\\0123456789-+.eEtfnu \n\t\u0000\u00e9\u{1f600}')];
    const byte = () => draw(3) === 0 ? draw(256) : signs[draw(signs.length)];
    for (let edits = 1 + draw(3); edits > 0; edits -= 1) {
        const at = draw(made.length + 1);
        const way = draw(5);
        if (way === 0) made.splice(at, 1);
        if (way === 1) made.splice(at, 0, byte());
        if (way === 2) made[Math.min(at, made.length - 1)] = byte();
        if (way === 3) made.splice(at, 0, ...made.slice(at, at + 1 + draw(20)));
        if (way === 4 && draw(4) === 0) made = made.slice(0, at);
    }
    return Uint8Array.from(made);
}

const EDGES = ["1e308", "1.7976931348623158e308", "1.7976931348623159e308", "17976931348623159e292", "0e999", "1e-999", "1e309", "-0", "01", "1.",
    ".5", "1e+", "+1", "NaN", "\"\\ud800\"", "\"\\udc00\"", "\"\\ud83d\\ude00\"", "\"\\ud800\\ud800\"", "\"\\u00g0\"", "\"\t\"", "\"\u2028\"", "[1,]", "{}x",
    "\v1", "\ufeff1", "\u00a01", "truex", "{\"a\":1,}", "{a:1}", "", " ", `1${"0".repeat(400)}e-92`, "9".repeat(309),
    ...[127, 128].flatMap((depth) => ["[".repeat(depth) + "]".repeat(depth), "{\"a\":".repeat(depth) + "1" + "}".repeat(depth)])];

test("it refuses exactly what the program calls no JSON", {skip: ask === null && "there is no program"}, async () => {
    const draw = draws(20261128);
    const documents = examples().map(({bytes}) => bytes).filter((bytes) => bytes.length < 8000);
    const tried = [...examples().map(({bytes}) => bytes), ...EDGES.map((text) => new TextEncoder().encode(text)),
        ...Array.from({length: Number(process.env.BROKEN ?? 1000)}, () => broken(documents[draw(documents.length)], draw))];
    let refused = 0;
    for (const bytes of tried) {
        const why = refusal(bytes);
        assert.equal(why !== null, await isRefused(bytes), `${why ?? "taken"}: ${new TextDecoder().decode(bytes)}`);
        refused += why === null ? 0 : 1;
    }
    assert.ok(refused > tried.length / 4 && refused < tried.length);
});

test("numbers stay text, and of equal members the last counts", () => {
    const value = plain(parse('{"a":1,"a":9007199254740993,"b":[1.50,-0],"__proto__":true}'));
    assert.equal(value.a, 9007199254740993n);
    assert.deepEqual(value.b, [new Numeral("1.50"), new Numeral("-0")]);
    assert.equal(value.__proto__, true);
});

test("a place is found, and that of a missing member is its object", () => {
    const text = '{"firms":[{"name":"A"}],\n "trades":[]}';
    const at = (place) => {
        const {node, whole} = find(parse(text), place);
        return [text.slice(node.start, node.end), whole];
    };
    assert.deepEqual(at(["firms", 0, "name"]), ['"A"', true]);
    assert.deepEqual(at(["firms", 0, "kind"]), ['{"name":"A"}', false]);
    assert.deepEqual(at(["trades", "b"]), ["[]", false]);
    assert.deepEqual(at([]), [text, true]);
    assert.deepEqual(lineAndColumn(text, text.indexOf('"trades"')), {line: 2, column: 2});
});

test("what isn't JSON is told with where it ends being so", () => {
    const where = (text) => {
        try {
            parse(text);
        } catch (error) {
            return lineAndColumn(text, error.offset);
        }
    };
    assert.deepEqual(where('{"version":1,\n "firms":[],}\n'), {line: 2, column: 13});
    assert.deepEqual(where('{"a":\n"b'), {line: 2, column: 1});
    assert.throws(() => textOf(Uint8Array.of(34, 195, 169, 255, 34)), (error) => error instanceof NotJson && error.offset === 2);
});
