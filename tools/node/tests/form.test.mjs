// Whether the form changes firms and trades of a text as it says, and nothing else.
import assert from "node:assert/strict";
import {test} from "node:test";
import {EMPTY, objectsIn, renamed, tradesRemoved} from "../../../page/app/document/building.js";
import {applied} from "../../../page/app/document/edits.js";
import {parse, plain, written} from "../../../page/read/json.js";
import {Network} from "../../../page/read/network.js";
import {answersOf} from "../ask.mjs";
import {controlsOf, entered, examples} from "./support.mjs";

const texts = () => examples().map(({bytes}) => bytes.toString()).filter((text) => {
    const {problem, root} = new Network(text);
    return problem === null && root.kind === "object";
});

const market = answersOf();

function answerTo(words, text) {
    return JSON.parse(market(words, text));
}

test("firms of all four kinds are made by the form, entry by entry", () => {
    const text = entered(EMPTY, ["seller-one add"], ["firm name", "S"], ["firm kind", "table"], ["middleman add"], ["firm name", "M"], ["seller-one add"], ["firm name", "D"],
        ["firm kind", "dealer"], ["buyer-one add"], ["firm name", "B"], ["new seller", "S"], ["new buyer", "M"], ["trade add"], ["new seller", "M"], ["new buyer", "D"],
        ["trade add"], ["new seller", "D"], ["new buyer", "B"], ["trade add"], ["trade 2 name", "last"], ["firm", "0"], ["row add"], ["row 0 worth", "-3"],
        ["firm", "1"], ["costs s-m", "1"], ["gains m-d", "2"], ["keeps", true], ["keep", "4"], ["firm", "2"],
        ["pair m-d as last", true], ["cost m-d as last", "5"], ["firm", "3"], ["firm kind", "laminar"], ["amounts last", "20"], ["set 0 greatest", "2"], ["set 0 number 1", "7"]);
    assert.deepEqual(JSON.parse(text), {
        version: 1,
        firms: [{name: "S", kind: "table", rows: [[["s-m"], -3]]}, {name: "M", kind: "middleman", costs: [["s-m", 1]], gains: [["m-d", 2]], keep: 4},
            {name: "D", kind: "dealer", pairs: [["m-d", "last", 5]]},
            {name: "B", kind: "laminar", amounts: [["last", 20]], sets: [{trades: ["last"], from: 0, values: [0, 7, 0]}]}],
        trades: [{name: "s-m", seller: "S", buyer: "M"}, {name: "m-d", seller: "M", buyer: "D"}, {name: "last", seller: "D", buyer: "B"}]});
    assert.equal(answerTo(["solve"], text).surplus, 27 - 5 + 2 - 1 - 3);
});

test("each entry in the form of an example leaves a document, and what it is about has changed", () => {
    const put = {name: "another", number: "0", box: null, choice: null, button: undefined};
    for (const text of texts().filter((each) => each.length < 3000)) {
        for (let built = 0; built < new Network(text).firms.length; built += 1) {
            for (const [key, control] of controlsOf(text, {built, ends: {}})) {
                if (control.look && !control.put) continue;
                const content = control.kind === "box" ? !control.value : control.kind === "choice" ? control.options.at(-1).value : put[control.kind];
                if (control.read && control.read(content) === null) continue;
                const next = applied(text, control.put(content)), same = control.kind === "number" || control.kind === "choice";
                assert.ok(same || written(plain(parse(next))) !== written(plain(parse(text))), key);
                const now = controlsOf(next, {built, ends: {}}).get(key);
                // (a number may make the firm one of another kind, which has it elsewhere)
                if (control.kind === "name" || (control.kind === "number" && now)) assert.equal(now.value, content, `${key} of ${text}`);
            }
        }
    }
});

test("a firm or trade is renamed wherever it is named, and back to the same text", () => {
    for (const text of texts()) {
        for (const list of ["firms", "trades"]) {
            objectsIn(new Network(text), list).slice(0, 2).forEach(({name}, k) => {
                const at = (whole) => objectsIn(new Network(whole), list)[k].node;
                const next = applied(text, renamed(new Network(text), list, at(text), "of-another-name"));
                assert.equal(applied(next, renamed(new Network(next), list, at(next), name)), text);
                assert.equal(market(["firms"], next).replaceAll('"of-another-name"', `"${name}"`), market(["firms"], text));
            });
        }
    }
});

test("a trade or firm that is removed leaves nothing of which there is none", () => {
    const isSmall = (text) => new Network(text).trades.length < 11;
    for (const text of texts().filter((each) => isSmall(each) && answerTo(["firms"], each).answer === "firms")) {
        const network = new Network(text);
        for (const {node} of objectsIn(network, "trades")) assert.equal(answerTo(["firms"], applied(text, tradesRemoved(network, [node]))).answer, "firms");
        network.firms.forEach((_, built) => {
            const next = applied(text, controlsOf(text, {built, ends: {}}).get("firm out").put());
            assert.equal(answerTo(["firms"], next).answer, "firms", next);
        });
    }
});
