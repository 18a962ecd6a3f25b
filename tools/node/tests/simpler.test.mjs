// Whether contracts that block are told at the simplest prices at which they do.
import assert from "node:assert/strict";
import {test} from "node:test";
import {readAnswer} from "../../../page/read/answer.js";
import {fraction, Network} from "../../../page/read/network.js";
import {simplest} from "../../../page/read/simpler.js";
import {explain} from "../../../page/say/explain.js";
import {askOf} from "../ask.mjs";
import {drawnMarket, isBlocked, leastOver} from "./markets.mjs";
import {draws, examples} from "./support.mjs";

const ask = askOf(), skip = ask === null && "there is no program";

async function judged(text) {
    const network = new Network(text);
    return {network, said: readAnswer(await ask(["judge"], text))};
}

const exampleOf = (name) => examples().find((each) => each.name === name).bytes.toString();

const pricesOf = ({contracts, over}) => contracts.map(([, price]) => fraction(price, over)).join(" ");

// O1 has 3 with what is signed at 7, so it wants more than 7, D wants more than 1 above that, and B3 less than 11; and so on.
test("contracts of the pages block at the prices that are the simplest by hand", {skip}, async () => {
    for (const [name, own, simple] of [["used-cars-bypassed.json", "120/17 139/17", "8 10"], ["two-middlemen.json", "15/7 24/7 33/7", "3 5 7"],
        ["used-cars-cheap-car.json", "151/15", "21/2"], ["one-trade-off.json", "10/3", "4"], ["seller-leaves.json", "4/3", "2"]]) {
        const {network, said} = await judged(exampleOf(name));
        assert.deepEqual([pricesOf(said), pricesOf(await simplest(ask, network, said))], [own, simple]);
        const line = (await explain(network, said, ask)).find((each) => each.startsWith("So they would at"));
        assert.ok(line.endsWith(`for instance ${simple.replace(/ (\S+)$/, " and $1").replace(/ (?=\S+ and)/g, ", ")}.`), line);
    }
});

test("prices of an answer are told in their lowest terms", () => {
    assert.deepEqual([[16n, 2n], [6n, 4n], [-6n, 4n], [0n, 17n], [120n, 17n]].map(([price, over]) => fraction(price, over)), ["8", "3/2", "-3/2", "0", "120/17"]);
});

// S has 484/97 with x, and B2 would pay 485/97 at most, which is 5: between them is no price over 1 to 12 or 97, and over 194 only 969.
// With another trade that nobody wants the program's own denominator is 485.
test("beyond small denominators multiples of the outcome's are tried", {skip}, async () => {
    const firm = (name, amounts, from) => ({name, kind: "laminar", amounts, sets: [{trades: amounts.map(([trade]) => trade), from, values: [0, 0]}]});
    const firms = [firm("S", [["x", 0], ["y", 0], ["z", 0]], -1), firm("B1", [["x", 10]], 0), firm("B2", [["y", 5]], 0), firm("B3", [["z", 0]], 0)];
    const trades = ["x", "y", "z"].map((name, k) => ({name, seller: "S", buyer: `B${k + 1}`}));
    const {network, said} = await judged(JSON.stringify({version: 1, firms, trades, outcome: {over: 97, contracts: [["x", 484]]}}));
    assert.deepEqual([said.over, said.contracts.map(([name]) => name)], [485n, ["y"]]);
    assert.equal(pricesOf(await simplest(ask, network, said)), "969/194");
});

/** A program that counts how often it is asked to replay, by the denominator of the claim. */
function counting(counts) {
    return async (words, text) => {
        if (words[0] === "replay") {
            const {claim: {over}} = JSON.parse(text);
            counts.set(over, (counts.get(over) ?? 0) + 1);
        }
        return ask(words, text);
    };
}

test("the prices of the used cars are found by the ten questions of the page", {skip}, async () => {
    const {network, said} = await judged(exampleOf("used-cars-bypassed.json")), counts = new Map();
    await simplest(counting(counts), network, said);
    assert.deepEqual([...counts], [[1, 10]]);
});

test("the denominator that is found is the least at which the same trades block, with no more questions than there may be", {skip}, async () => {
    const draw = draws(77);
    let tried = 0;
    while (tried < 90) {
        const market = drawnMarket(draw, 4), {network, said} = await judged(JSON.stringify(market));
        if (said.answer !== "blocks" || said.contracts.length > 2) continue;
        const counts = new Map(), {contracts, over} = await simplest(counting(counts), network, said);
        const names = said.contracts.map(([name]) => name), numbers = contracts.map(([name, price]) => [name, Number(price)]);
        assert.deepEqual([contracts.map(([name]) => name), isBlocked(market, numbers, Number(over)), Number(over)], [names, true, leastOver(market, names)]);
        assert.ok([...counts.values()].every((count) => count <= 20 * names.length));
        tried += 1;
    }
});
