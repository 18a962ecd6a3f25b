// Whether every answer to an example has sentences, with the numbers that `firms` says, and none is said of another document.
import assert from "node:assert/strict";
import {readFileSync} from "node:fs";
import {test} from "node:test";
import {belongs, isSo, NoAnswer, readAnswer} from "../../../page/read/answer.js";
import {costs, gains, worths} from "../../../page/read/firms.js";
import {limitsOf} from "../../../page/read/limits.js";
import {Network} from "../../../page/read/network.js";
import {mostOf, sharesOf, worthOf} from "../../../page/read/plan.js";
import {explain} from "../../../page/say/explain.js";
import {storyOf} from "../../../page/say/story.js";
import {askOf} from "../ask.mjs";
import {examples, has} from "./support.mjs";

const ask = askOf(), skip = ask === null && "there is no program";
const COMMANDS = ["check", "test", "support", "solve", "range", "session", "judge", "replay"];

test("every answer to an example is told in sentences", {skip}, async () => {
    const hasFirms = await has(ask, "firms");
    for (const {name, bytes} of examples()) {
        const network = new Network(bytes.toString());
        for (const command of hasFirms ? [...COMMANDS, "firms"] : COMMANDS) {
            const said = readAnswer(await ask([command], bytes));
            belongs(network, said);
            await isSo(network, said, ask);
            const lines = await explain(network, said, hasFirms ? ask : null);
            for (const line of lines) assert.match(line, /^(  )?\S.*[.:?]$/, `${name} ${command}`);
            assert.doesNotMatch(lines.join(" "), /undefined|\[object|NaN|(^| )\?/, `${name} ${command}`);
        }
    }
});

test("an answer that tells units is said with them, and only of a document with its trades", async () => {
    const trades = [["a-n", "a", "n"], ["a-s", "a", "s"], ["b-n", "b", "n"]].map(([name, seller, buyer]) => ({name, seller, buyer}));
    const network = new Network(JSON.stringify({version: 4, firms: ["a", "b", "n", "s"].map((name) => ({name, kind: "laminar"})), trades}));
    const said = readAnswer('{"answer":"solved","on":[["a-n",300],["a-s",1]],"prices":[["a-n",58],["a-s",57],["b-n",58]],"surplus":44300}');
    belongs(network, said);
    await isSo(network, said, () => assert.fail("it can be no claim"));
    assert.deepEqual((await explain(network, said, null)).slice(1), ["a sells 300 units of a-n to n at 58 each.", "a sells 1 unit of a-s to s at 57.",
        "Their prices keep the other trades off: b-n at 58.", "The worths of the firms sum to 44300, and no other numbers of units have more."]);
    assert.throws(() => belongs(network, {...said, on: [["a-m", 2n]]}), NoAnswer);
});

/** A program for the network of one trade that is worth -3 to S and 5 to B, of which it knows `firms` alone. */
async function small(words, document) {
    assert.deepEqual(words, ["firms"]);
    const {arrangement: {on}} = JSON.parse(document);
    const line = (firm, worth) => ({best: on, best_utility: 9, firm, gain: 0, has: on, utility: 9, worth});
    return JSON.stringify({answer: "firms", content: 2, firms: [line("S", on.length * -3), line("B", on.length * 5)], surplus: 2});
}

test("what a change costs, and what bundles are worth, is asked of the program", async () => {
    const network = new Network(examples().find(({name}) => name === "one-trade-off.json").bytes.toString());
    const changes = ["S", "B"].map((firm) => ({firm, toggled: ["a"], acts: [{trade: "a"}]}));
    assert.deepEqual(await costs(small, network, [], changes), [3n, -5n]);
    assert.deepEqual(await costs(null, network, [], changes), [null, null]);
    assert.deepEqual(await worths(small, network, "B", [["a"], []]), [5n, 0n]);
    const lines = await explain(network, readAnswer('{"answer":"cycle","cost":-2,"nodes":[null,"a"]}'), small);
    assert.deepEqual(lines.slice(1, 3), ["S would sell a to B at a cost of 3 in worth.", "B would buy a from S and gain 5 in worth."]);
});

test("what firms have before and after contracts that block", {skip}, async (context) => {
    if (!await has(ask, "firms")) return context.skip("the program has no firms");
    const {bytes} = examples().find(({name}) => name === "used-cars-bypassed.json"), network = new Network(bytes.toString());
    const found = await gains(ask, network, readAnswer(await ask(["judge"], bytes)));
    assert.deepEqual(found.get("O1"), {now: 51n, then: 52n, over: 17n, keeps: []});
    return undefined;
});

test("limits that are told are those of FORMAT, for each version", () => {
    const format = readFileSync(new URL("../../../docs/FORMAT.md", import.meta.url), "utf8");
    const rows = {most: "The most firms", own: "The most own trades of a firm of another kind", values: "The most numbers of a set", edits: "The most edits",
        farthest: "The farthest net count from 0 that the first number of a set may be for", amount: "The largest number of a firm", price: "The largest price of an arrangement", over: "The largest denominator of a claim"};
    const cells = (head) => format.split("\n").find((line) => line.startsWith(`| ${head} |`)).split("|").slice(2, -1).map((cell) => Number(cell.replaceAll(",", "")));
    for (const version of [1, 2, 3]) {
        const limits = limitsOf(new Network(JSON.stringify({version, firms: [], trades: []})));
        for (const [name, head] of Object.entries(rows)) assert.equal(Number(limits[name]), cells(head)[version - 1], `${name} of version ${version}`);
    }
    assert.deepEqual(cells("The most trades"), cells("The most firms"));
});

test("a fault is told with its limit and its place in the text", async () => {
    const trades = JSON.stringify({version: 2, firms: [], trades: Array(246).fill({})}).replace('"trades"', '\n"trades"');
    const lines = await explain(new Network(trades), readAnswer('{"answer":"fault","fault":9,"name":"Limit","place":["trades"]}'), null);
    assert.deepEqual(lines.slice(1), ["It is found at trades: line 2, column 10.", "246 trades; a document of version 2 has at most 128. Version 3 has room for 1,024."]);
    const {trades: pairs, ...rest} = {version: 3, firms: [{name: "S", kind: "laminar", sets: [{trades: [], from: 61, values: Array(122).fill(0)}]}, {name: "B", kind: "dealer"}],
        trades: Array.from({length: 61}, (_, k) => ({name: `t${k}`, seller: "S", buyer: "B"})), edits: Array(2049).fill(["bar", "*"])};
    const large = new Network(JSON.stringify({...rest, trades: pairs})), place = (...steps) => JSON.stringify(steps);
    for (const [at, wanted] of [[place("firms", 1), "61 trades; a dealer in a document of version 3 has at most 60."],
        [place("firms", 0, "sets", 0, "from"), "61; a set in a document of version 3 begins from -60 to 60."],
        [place("firms", 0, "sets", 0, "values"), "122 values; a set in a document of version 3 has at most 121."],
        [place("edits"), "2049 edits; a document of version 3 has at most 2,048."]]) {
        const told = await explain(large, readAnswer(`{"answer":"fault","fault":9,"name":"Limit","place":${at}}`), null);
        assert.equal(told.at(-1), wanted);
    }
    const amount = '{"version":3,"firms":[{"name":"S","kind":"middleman","keep":10000001}],"trades":[]}';
    const range = await explain(new Network(amount), readAnswer('{"answer":"fault","fault":10,"name":"AmountRange","place":["firms",0,"keep"]}'), null);
    assert.equal(range.at(-1), "10000001 is out of range; a number of a firm in a document of version 3 is at most 10,000,000 in size.");
    const broken = await explain(new Network('{"a":1,}'), readAnswer('{"answer":"fault","fault":1,"name":"NotJson","place":[]}'), null);
    assert.equal(broken[1], "Line 1, column 8: a member begins with its name in double quotes; here stands `}`.");
});

test("an answer to another document is told", () => {
    const network = new Network(examples().find(({name}) => name === "one-trade.json").bytes.toString());
    const others = ['{"answer":"better","bundle":["o2d"],"firm":"S","gain":1}', '{"answer":"impossible","firm":"D"}', '{"answer":"prices","prices":[["a",1],["a",2]]}',
        '{"answer":"fault","fault":1,"name":"NotJson","place":[]}', '{"answer":"fault","fault":8,"name":"UnknownTrade","place":["edits",3,0]}'];
    for (const text of others) assert.throws(() => belongs(network, readAnswer(text)), NoAnswer, text);
    for (const text of ["", "[]", "{}", "trade,on,price", '{"answer":"solved"}']) assert.throws(() => readAnswer(text), NoAnswer);
});

test("every reason of an example is told step by step, with trades and firms of its own", {skip}, async (context) => {
    if (!await has(ask, "firms")) return context.skip("the program has no firms");
    for (const {name, bytes} of examples()) {
        const network = new Network(bytes.toString()), firms = new Set(network.firms.map((firm) => firm.name));
        for (const command of ["support", "judge", "test"]) {
            const said = readAnswer(await ask([command], bytes)), story = await storyOf(network, said, ask);
            assert.equal(story !== null, ["cycle", "impossible", "exchange_fails", "drops", "blocks"].includes(said.answer), `${name} ${command}`);
            for (const {says, firms: named, trades, below} of story?.steps ?? []) {
                assert.match(says, /^\S.*\.$/, `${name} ${command}`);
                assert.doesNotMatch(`${says} ${[...below.values()]}`, /undefined|\[object|NaN|unknown|null/, `${name} ${command}`);
                assert.ok([...named, ...below.keys()].every((firm) => firms.has(firm)), `${name} ${command}`);
                assert.ok([...trades.keys()].every((trade) => network.byName.has(trade)), `${name} ${command}`);
            }
        }
    }
});

/** The story of an answer to an example. */
async function storyIn(name, command) {
    const {bytes} = examples().find((each) => each.name === name);
    return storyOf(new Network(bytes.toString()), readAnswer(await ask([command], bytes)), ask);
}

test("what firms of a chain and of contracts that are dropped have and would have is what the pages say by hand", {skip}, async (context) => {
    if (!await has(ask, "firms")) return context.skip("the program has no firms");
    const below = async (name) => Object.fromEntries((await storyIn(name, "judge")).steps.at(-1).below);
    assert.deepEqual(await below("used-cars-bypassed.json"), {O1: ["has 3", "then 52/17"], D: ["has 0", "then 2/17"], B3: ["has 0", "then 48/17"]});
    assert.deepEqual(await below("two-middlemen.json"),
        {S: ["has 0", "then 1/7"], M1: ["has 0", "then 2/7"], M2: ["has 0", "then 2/7"], B: ["has 0", "then 37/7"]});
    assert.deepEqual(await below("signed-too-low.json"), {S: ["has -1", "then 0"]});
    assert.deepEqual(await below("signed-undeliverable.json"), {S: ["impossible", "then 0"]});
});

/** The sentences of what `replay` says of a document. */
async function replayLines(bytes) {
    return explain(new Network(bytes.toString()), readAnswer(await ask(["replay"], bytes)), ask);
}

const CANCEL = "At prices that clear the market each firm would have at least as much as from its shares. In the sum over all firms the prices cancel, ";

test("a plan in parts is told with what its shares come to, and with the most that a set of trades does", {skip}, async () => {
    const bytesOf = (wanted) => examples().find(({name}) => name === wanted).bytes;
    assert.deepEqual((await replayLines(bytesOf("no-prices.json"))).slice(1), [
        "Seller1 has half of {pair1} (worth 0) and half of {any1} (worth 0).", "Seller2 has half of {pair2} (worth 0) and half of {any2} (worth 0).",
        "Pair has half of {pair1, pair2} (worth 10).", "Any has half of {any1} (worth 6) and half of {any2} (worth 6).",
        "These shares come to 11, and no set of trades is worth more than 10, as pair1 and pair2 are.",
        `${CANCEL}so 11 would be at most 10. So there are no such prices.`]);
    assert.match((await replayLines(bytesOf("three-pairs.json"))).at(-1), /so 6 would be at most 4\./);
    assert.deepEqual((await replayLines(bytesOf("claim-whole.json"))).slice(1), ["S has half of {a, b} (worth -2).", "B has half of {a, b} (worth 10).",
        "These shares come to 4.", "With a and b the worths sum to 8, and the plan is worth no more."]);
});

test("the most that a set of trades is worth is found from far, and is left out where weights are too few for it", {skip}, async () => {
    const plan = JSON.parse(examples().find(({name}) => name === "no-prices.json").bytes.toString());
    for (const [pair, any, most] of [[10, 6, 10n], [7, 100, 100n], [30000, 20000, 30000n], [-5, 1, null], [1000000000, 600000000, null]]) {
        plan.firms[2].rows[2][1] = pair;
        plan.firms[3].amounts = [["any1", any], ["any2", any]];
        const network = new Network(JSON.stringify(plan)), {answer} = readAnswer(await ask(["replay"], network.text));
        const found = answer === "valid" ? await mostOf(network, network.claim, worthOf(await sharesOf(network, network.claim, ask)), ask) : null;
        assert.equal(found === null ? null : found.surplus, most, `${pair} and ${any}`);
    }
});
