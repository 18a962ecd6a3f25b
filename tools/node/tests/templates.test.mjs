// Whether firms are made and known again by kinds as people know them, and the markets of the lesson come out of them.
import assert from "node:assert/strict";
import {readdirSync, readFileSync} from "node:fs";
import {test} from "node:test";
import {EMPTY} from "../../../page/app/document/building.js";
import {formOf} from "../../../page/app/form/fields.js";
import {parse, plain, written} from "../../../page/read/json.js";
import {isObject, Network} from "../../../page/read/network.js";
import {membersOf, ofTrade, templateOf, withStep} from "../../../page/read/templates.js";
import {answersOf} from "../ask.mjs";
import {entered} from "./support.mjs";

const read = (path) => readFileSync(new URL(`../../../${path}`, import.meta.url), "utf8");
const cases = plain(parse(read("tools/cases/templates.json"))), LESSON = new URL("../../../examples/lesson/", import.meta.url);
const market = answersOf(), skip = market === null && "there is no program";

const ownOf = ({sales, purchases}) => [...sales.map((name) => ({name, isSale: true})), ...purchases.map((name) => ({name, isSale: false}))];

test("each template makes its text, and is known again by it", () => {
    for (const {template, own, numbers, members} of cases) {
        const trades = ownOf(own), given = numbers && {...numbers, each: new Map(numbers.each)};
        assert.equal(written(membersOf(template, given, trades)), written(members), template);
        const found = templateOf(members, trades);
        assert.equal(found.template, template);
        assert.deepEqual(found.numbers, given, template);
    }
});

test("a firm that no template makes is known as none", () => {
    const own = ownOf({sales: ["a", "b"], purchases: []}), set = (from, values, trades = ["a", "b"]) => ({trades, from, values});
    const firms = [[set(-1n, [0n, 0n], ["a"])], [set(-1n, [0n, 1n])], [set(-1n, [0n, 0n, 0n])], [set(-2n, [0n, -3n, 0n])], [], [set(-1n, [0n, 0n]), set(-1n, [0n, 0n])], [set(0n, [0n])]];
    for (const sets of firms) assert.equal(templateOf({kind: "laminar", sets}, own).template, "laminar", written(sets));
    assert.equal(templateOf({kind: "laminar", sets: [set(-1n, ["x", 0n])]}, own).template, "laminar");
    assert.equal(templateOf({}, own).template, "");
});

test("further units stay in order, whichever is changed", () => {
    assert.deepEqual(withStep([1n, 4n, 4n], 0, 5n), [5n, 5n, 5n]);
    assert.deepEqual(withStep([1n, 4n, 6n], 1, 0n), [0n, 0n, 6n]);
});

/** The entries that make a document by the form from nothing, firm by firm and trade by trade. */
function entriesFor(network) {
    const firms = network.data.firms.filter(isObject), ownBy = (name) => network.ownTrades(name);
    const begun = firms.flatMap((firm) => [["seller-one add"], ["firm name", firm.name], ["firm kind", templateOf(asBuyer(firm), ownBy(firm.name)).template]]);
    const trades = network.trades.flatMap(({name, seller, buyer}, k) => [["new seller", seller], ["new buyer", buyer], ["trade add"], [`trade ${k} name`, name]]);
    return [...begun, ...trades, ...firms.flatMap((firm, k) => [["firm", `${k}`], ...numbersFor(asBuyer(firm), ownBy(firm.name))])];
}

/** A table that has a number for each single trade alone says no more than a buyer of one. */
function asBuyer(firm) {
    const isSingle = firm.kind === "table" && firm.rows.every(([bundle]) => bundle.length === 1);
    const amounts = () => firm.rows.map(([[name], worth]) => [name, worth]), sets = () => [{trades: firm.rows.map(([[name]]) => name), from: 0n, values: [0n, 0n]}];
    return isSingle ? plain(parse(written({kind: "laminar", amounts: amounts(), sets: sets()}))) : firm;
}

function numbersFor(firm, own) {
    const {template, numbers} = templateOf(firm, own);
    if (firm.kind === "table") return firm.rows.flatMap(([bundle, worth], k) => [["row add"], ...bundle.length > 1 && k < 2 ? [] : [[`row ${k} worth`, String(worth)]]]);
    if (firm.kind === "middleman") return firm.costs.map(([name, cost]) => [`costs ${name}`, String(cost)]);
    if (firm.kind === "dealer") return firm.pairs.flatMap(([purchase, sale, cost]) => [[`pair ${purchase} as ${sale}`, true], [`cost ${purchase} as ${sale}`, String(cost)]]);
    assert.ok(numbers, `${firm.name} is of a template`);
    const each = [...new Set(own.map(({name}) => ofTrade(template, numbers, name)))];
    const worths = each.length === 1 ? [["first", String(each[0])]] : own.map(({name}) => [`each ${name}`, String(ofTrade(template, numbers, name))]);
    return [...worths, ...numbers.further.length > 0 ? [["most", String(numbers.further.length + 1)]] : [], ...numbers.further.map((step, k) => [`further ${k}`, String(step)])];
}

test("the examples of the lesson made from nothing give the same solve", {skip}, () => {
    for (const name of readdirSync(LESSON)) {
        const text = readFileSync(new URL(name, LESSON), "utf8"), made = entered(EMPTY, ...entriesFor(new Network(text)));
        assert.equal(market(["solve"], made), market(["solve"], text), name);
    }
});

test("firms take in new trades, and are known again after each", () => {
    const text = entered(EMPTY, ["seller-one add"], ["first", "30"], ["buyer-one add"], ["first", "90"], ["trade add"], ["buyer-one add"], ["first", "50"], ["trade add"]);
    const {firms, trades} = JSON.parse(text);
    assert.deepEqual(trades.map(({name}) => name), ["s1-b1", "s1-b2"]);
    assert.deepEqual(firms[0], {name: "S1", kind: "laminar", amounts: [], sets: [{trades: ["s1-b1", "s1-b2"], from: -1, values: [-30, 0]}]});
    const moved = entered(text, ["seller-one add"], ["first", "40"], ["trade 1 seller", "S2"]);
    assert.deepEqual(JSON.parse(moved).firms.map(({sets: [{trades: names}]}) => names), [["s1-b1"], ["s1-b1"], ["s1-b2"], ["s1-b2"]]);
    const chained = entered(EMPTY, ["seller-one add"], ["first", "4"], ["middleman add"], ["buyer-one add"], ["first", "12"], ["firm", "1"], ["trade add"], ["firm", "0"], ["trade add"]);
    assert.deepEqual(JSON.parse(chained).trades.map(({seller, buyer}) => [seller, buyer]), [["M1", "B1"], ["S1", "M1"]]);
});

test("another kind keeps what goes along, and is asked about where it doesn't", () => {
    const text = entered(EMPTY, ["seller-one add"], ["first", "30"], ["buyer-one add"], ["firm", "0"], ["trade add"], ["firm kind", "seller-many"], ["further 0", "5"]);
    assert.deepEqual(JSON.parse(text).firms[0].sets, [{trades: ["s1-b1"], from: -2, values: [-65, -30, 0]}]);
    assert.deepEqual(JSON.parse(entered(text, ["firm kind", "seller-one"])).firms[0].sets, [{trades: ["s1-b1"], from: -1, values: [-30, 0]}]);
    const controls = formOf(new Network(text), {built: 0, ends: {}}).flatMap(({lines}) => lines).flatMap((line) => line.controls);
    const kind = controls.find(({key}) => key === "firm kind");
    assert.ok(!kind.options.some(({value}) => value.startsWith("buyer")), "it sells already");
    assert.equal(kind.look("seller-one"), null);
    assert.equal(kind.look("dealer").asked.kind, "dealer");
    const free = '{"version":1,"firms":[{"name":"H","kind":"laminar","amounts":[["a",-18],["b",-18]]},{"name":"B","kind":"laminar"}],"trades":[{"name":"a","seller":"H","buyer":"B"},{"name":"b","seller":"H","buyer":"B"}]}';
    assert.deepEqual(JSON.parse(entered(free, ["firm kind", "seller-one"])).firms[0], {name: "H", kind: "laminar", amounts: [["a", -18], ["b", -18]], sets: [{trades: ["a", "b"], from: -1, values: [0, 0]}]});
});
