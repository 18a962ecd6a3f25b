// What the tests share: the examples, numbers that are drawn, and entries in the form.
import assert from "node:assert/strict";
import {readdirSync, readFileSync} from "node:fs";
import {applied} from "../../../page/app/document/edits.js";
import {formOf} from "../../../page/app/form/fields.js";
import {Network} from "../../../page/read/network.js";

const FOLDER = new URL("../../../examples/", import.meta.url);

/** Every example, as `{name, bytes}`, but for large ones, which would take too long to be tried in every way. */
export function examples() {
    const all = readdirSync(FOLDER).filter((name) => name.endsWith(".json")).map((name) => ({name, bytes: readFileSync(new URL(name, FOLDER))}));
    return all.filter(({bytes}) => bytes.length <= 20000);
}

/** The large example, of which most firms have more trades than those of the others may have. */
export function largeExample() {
    return readFileSync(new URL("supply-chain.json", FOLDER));
}

/** A function that draws a whole number below its argument; the same start draws the same numbers. */
export function draws(start) {
    let state = start >>> 0;
    return (below) => {
        state = (Math.imul(state, 1664525) + 1013904223) >>> 0;
        return Math.floor(state / 4294967296 * below);
    };
}

/** Whether the program has a command. */
export async function has(ask, command) {
    return ask !== null && (await ask(["help"], "")).includes(` ${command} `);
}

/** A document of lanes from firms on the left over firms in the middle to firms on the right, with up to two trades each. */
export function lanesOf(lanes, trades) {
    const draw = draws(63), pairs = [];
    for (let from = 0; from < 27; from += 1) for (let to = 9; to < 27; to += 1) if (from < 17 && (from < 9 ? to < 17 : to >= 17)) pairs.push([from, to]);
    while (pairs.length > lanes) pairs.splice(draw(pairs.length), 1);
    const made = Array.from({length: trades}, (_, k) => ({name: `lot${k}`, seller: `F${pairs[k % lanes][0]}`, buyer: `F${pairs[k % lanes][1]}`}));
    const firms = Array.from({length: 27}, (_, k) => ({name: `F${k}`, kind: "laminar", ...numbersOf(`F${k}`, made, draw)}));
    return JSON.stringify({version: 2, firms, trades: made});
}

function numbersOf(firm, trades, draw) {
    const sales = trades.filter(({seller}) => seller === firm), purchases = trades.filter(({buyer}) => buyer === firm);
    const amounts = [...sales.map(({name}) => [name, -draw(40)]), ...purchases.map(({name}) => [name, sales.length > 0 ? 0 : 30 + draw(60)])];
    const all = [...sales, ...purchases].map(({name}) => name);
    if (sales.length > 0 && purchases.length > 0) return {amounts, sets: [{trades: all, from: 0, values: [0]}]};
    return {amounts, sets: [{trades: all, from: sales.length > 0 ? -4 : 0, values: sales.length > 0 ? [-12, -6, -2, 0, 0] : [0, 0, -3, -9]}]};
}

/** The controls of the form of a text, by their keys. */
export function controlsOf(text, view = {built: 0, ends: {}}) {
    const lines = formOf(new Network(text), view).flatMap((group) => group.lines);
    return new Map(lines.flatMap(({controls}) => controls.map((control) => [control.key, control])));
}

/** A text after some entries, each a key with what is put in; `firm` shows another one. */
export function entered(text, ...entries) {
    const view = {built: 0, ends: {}};
    for (const [key, content] of entries) {
        const control = controlsOf(text, view).get(key);
        assert.ok(control, `${key} is in the form of ${text}`);
        if (control.read) assert.equal(control.read(content), content, `${key} takes ${content}`);
        const seen = control.look?.(content) ?? null;
        if (seen === null) text = applied(text, control.put(content));
        Object.assign(view, seen ?? control.then ?? {});
    }
    return text;
}
