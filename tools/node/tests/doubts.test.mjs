// Whether what is likely not meant is doubted, and mended by its button, and what is meant isn't.
import assert from "node:assert/strict";
import {readFileSync} from "node:fs";
import {test} from "node:test";
import {EMPTY} from "../../../page/app/document/building.js";
import {doubtsOf} from "../../../page/read/doubts.js";
import {Network} from "../../../page/read/network.js";
import {controlsOf, entered} from "./support.mjs";

const kindsIn = (text) => doubtsOf(new Network(text)).map(({kind}) => kind);

/** The text after the first button that mends something. */
function mended(text) {
    assert.ok(controlsOf(text).has("mend 0"), "something is doubted");
    return entered(text, ["mend 0"]);
}

const HOUSE = JSON.stringify({version: 1, firms: [{name: "H", kind: "laminar", amounts: [["a", -18], ["b", -18], ["c", -18]]}, ..."ABC".split("").map((name) => ({name, kind: "laminar", amounts: [[name.toLowerCase(), 20]]}))],
    trades: "ABC".split("").map((buyer) => ({name: buyer.toLowerCase(), seller: "H", buyer}))});

test("a firm that may sell the same house three times sells one then", () => {
    assert.deepEqual(doubtsOf(new Network(HOUSE)), [{kind: "sells_often", firm: "H", count: 3, template: "seller-one"}]);
    const text = mended(HOUSE);
    assert.deepEqual(JSON.parse(text).firms[0], {name: "H", kind: "laminar", amounts: [["a", -18], ["b", -18], ["c", -18]], sets: [{trades: ["a", "b", "c"], from: -1, values: [0, 0]}]});
    assert.deepEqual(kindsIn(text), []);
    assert.deepEqual(kindsIn(entered(HOUSE, ["firm kind", "seller-many"], ["most", "3"])), [], "who says three means three");
});

test("a firm with no trade goes, and so does a trade that nobody would want", () => {
    const begun = entered(EMPTY, ["seller-one add"], ["first", "30"], ["buyer-one add"], ["first", "20"], ["firm", "0"], ["trade add"], ["buyer-one add"]);
    assert.deepEqual(kindsIn(begun), ["idle", "unwanted"]);
    const text = mended(begun);
    assert.deepEqual(JSON.parse(text).firms.map(({name}) => name), ["S1", "B1"]);
    assert.deepEqual(JSON.parse(mended(text)).trades, []);
    assert.deepEqual(kindsIn(entered(text, ["firm", "1"], ["first", "31"])), []);
});

test("a middleman without a sale becomes a buyer, and a dealer's trade gets its pairs", () => {
    const chain = entered(EMPTY, ["seller-one add"], ["middleman add"], ["buyer-one add"], ["first", "9"], ["new seller", "S1"], ["new buyer", "M1"], ["trade add"]);
    assert.deepEqual(kindsIn(chain), ["one_sided", "idle"]);
    assert.equal(JSON.parse(mended(chain)).firms[1].sets[0].from, 0);
    const dealt = entered(chain, ["firm", "1"], ["firm kind", "dealer"], ["new seller", "M1"], ["new buyer", "B1"], ["trade add"]), text = mended(dealt);
    assert.deepEqual(kindsIn(dealt), ["never", "never"]);
    assert.deepEqual(JSON.parse(text).firms[1].pairs, [["s1-m1", "m1-b1", 0]]);
    assert.deepEqual(kindsIn(text), []);
});

test("markets of the gallery are what they mean", () => {
    const read = (name) => readFileSync(new URL(`../../../examples/${name}.json`, import.meta.url), "utf8");
    for (const name of ["used-cars", "widgets", "licences", "plant", "supply-chain", "group-discount", "keeps-a-car", "lesson/3-middleman", "lesson/5-complements", "lesson/7-dealer", "lesson/8-ranges"]) assert.deepEqual(kindsIn(read(name)), [], name);
    const horses = controlsOf(read("horses"));
    assert.deepEqual([...horses.keys()].filter((key) => key.startsWith("mend")), ["mend 0"], "several trades that nobody wants are one doubt");
});
