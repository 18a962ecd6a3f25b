// Whether all whom contracts that block are about are told, with what they have and would have.
import assert from "node:assert/strict";
import {test} from "node:test";
import {gains} from "../../../page/read/firms.js";
import {readAnswer} from "../../../page/read/answer.js";
import {fraction, Network} from "../../../page/read/network.js";
import {storyOf} from "../../../page/say/story.js";
import {askOf} from "../ask.mjs";
import {choices, drawnMarket, endsOf, together} from "./markets.mjs";
import {draws} from "./support.mjs";

const ask = askOf(), skip = ask === null && "there is no program";

async function judged(market) {
    const network = new Network(JSON.stringify(market));
    return {network, said: readAnswer(await ask(["judge"], network.text))};
}

/** What the test goes through of an outcome that is blocked: the trades of the chain, and all contracts counted alike. */
function counted(market, {contracts, over}) {
    const numbers = contracts.map(([name, price]) => [name, Number(price)]);
    return {names: contracts.map(([name]) => name), ...together(market, numbers, Number(over))};
}

/** Holds what is told of a firm to all its bundles, by what is signed and with the contracts of the chain. */
function holdFirm(market, {names, signed, all, over}, [firm, {now, then, over: parts, keeps}], told) {
    const before = choices(market, firm, signed, over).at(-1).utility, after = choices(market, firm, all, over);
    const kept = new Set([...keeps, ...names.filter((name) => endsOf(market, name).includes(firm))]);
    const its = after.find(({bundle}) => bundle.length === kept.size && bundle.every((name) => kept.has(name)));
    const most = Math.max(...after.map(({utility}) => utility)), texts = [before, most].map((number) => fraction(BigInt(number), BigInt(over)));
    assert.deepEqual([fraction(now, parts), fraction(then, parts), its.utility], [...texts, most]);
    for (const text of [`${firm} has a utility of ${texts[0]};`, `have ${texts[1]}`]) assert.ok(told.includes(text), `${text} in ${told}`);
}

/** Whether it is told who loses a contract, where one of its firms would leave it and the other isn't asked. */
function isLossTold(market, found, name, told) {
    const leaves = endsOf(market, name).filter((firm) => found.has(firm) && !found.get(firm).keeps.includes(name));
    const other = endsOf(market, name).find((firm) => !leaves.includes(firm));
    return leaves.length !== 1 || told.includes(`${other} loses ${name}, and isn't asked.`);
}

test("every firm that signs a contract that blocks, or loses one, is told with what it has and would have", {skip}, async () => {
    const draw = draws(500);
    let blocked = 0;
    for (let k = 0; k < 500; k += 1) {
        const market = drawnMarket(draw, 100), {network, said} = await judged(market);
        if (said.answer !== "blocks") continue;
        blocked += 1;
        const found = await gains(ask, network, said), {steps} = await storyOf(network, said, ask), told = steps.map(({says}) => says).join(" ");
        const all = counted(market, said), ends = new Set(all.names.flatMap((name) => endsOf(market, name)));
        assert.deepEqual([new Set(found.keys()), new Set(steps.at(-1).below.keys())], [ends, ends]);
        [...found].forEach((entry) => holdFirm(market, all, entry, told));
        assert.ok(market.outcome.contracts.every(([name]) => isLossTold(market, found, name, told)), told);
    }
    assert.ok(blocked > 200, `${blocked} are blocked`);
});

test("a firm whose numbers are too large to be counted in parts is told without any", {skip}, async () => {
    const large = [["a", -900000000]], firms = [{name: "S", kind: "laminar", amounts: large}, {name: "B", kind: "table", rows: [[["a"], 900000001]]}];
    const {network, said} = await judged({version: 1, firms, trades: [{name: "a", seller: "S", buyer: "B"}], outcome: {over: 1, contracts: []}});
    const {steps} = await storyOf(network, said, ask);
    assert.match(steps[0].says, /What S has and would have, .* 1\/3 its numbers are larger .* What B has/);
    assert.deepEqual([...steps.at(-1).below], [["S", ["unknown"]], ["B", ["unknown"]]]);
});

test("and the numbers of another firm of the chain are told", {skip}, async () => {
    const firms = [{name: "S", kind: "laminar", amounts: [["a", -900000000]]}, {name: "M", kind: "middleman", costs: [["a", 1]], gains: [["b", 899999990]]},
        {name: "B", kind: "laminar", amounts: [["b", 20]]}];
    const trades = [{name: "a", seller: "S", buyer: "M"}, {name: "b", seller: "M", buyer: "B"}];
    const {network, said} = await judged({version: 1, firms, trades, outcome: {over: 1, contracts: []}});
    const below = new Map((await storyOf(network, said, ask)).steps.at(-1).below);
    assert.deepEqual([below.get("S"), below.get("M"), below.get("B")[0]], [["unknown"], ["unknown"], "has 0"]);
});
