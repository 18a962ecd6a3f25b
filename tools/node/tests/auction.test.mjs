// Whether auctions end as their sources promise.
import assert from "node:assert/strict";
import {readFileSync} from "node:fs";
import {test} from "node:test";
import {auctionOf, endOf, guessOf, stepped} from "../../../page/read/auction.js";
import {Network} from "../../../page/read/network.js";
import {askOf} from "../ask.mjs";
import {draws} from "./support.mjs";

const ask = askOf(), skip = ask === null && "there is no program";

function example(name) {
    return new Network(readFileSync(new URL(`../../../examples/${name}`, import.meta.url), "utf8"));
}

async function ended(network) {
    let auction = await auctionOf(network, ask);
    assert.equal(auction.refused, undefined);
    for (let next = await stepped(network, auction, ask); next !== auction; next = await stepped(network, auction, ask)) auction = next;
    return {auction, ...await endOf(network, auction, ask)};
}

/** A market of sellers and buyers of one, in which not every buyer looks at every item. */
function drawnMarket(draw) {
    const items = 1 + draw(5), buyers = 1 + draw(5), trades = [];
    for (let k = 0; k < items; k += 1) for (let b = 0; b < buyers; b += 1) if (draw(4) > 0) trades.push({name: `i${k}b${b}`, seller: `I${k}`, buyer: `B${b}`});
    const firms = [];
    for (let k = 0; k < items; k += 1) {
        const own = trades.filter(({seller}) => seller === `I${k}`).map(({name}) => name), cost = draw(20);
        firms.push({name: `I${k}`, kind: "laminar", amounts: own.map((name) => [name, -cost]), sets: [{trades: own, from: -1, values: [0, 0]}]});
    }
    for (let b = 0; b < buyers; b += 1) {
        const own = trades.filter(({buyer}) => buyer === `B${b}`).map(({name}) => name);
        firms.push({name: `B${b}`, kind: "laminar", amounts: own.map((name) => [name, draw(40)]), sets: [{trades: own, from: 0, values: [0, 0]}]});
    }
    return new Network(JSON.stringify({version: 1, firms, trades}));
}

test("of 200 markets of sellers and buyers of one nobody gains more than one step, and prices are at most as many steps too high as there are items or buyers", {skip}, async () => {
    const draw = draws(107);
    let count = 0;
    while (count < 200) {
        const network = drawnMarket(draw);
        if (network.trades.length === 0) continue;
        count += 1;
        const {gain, above, most} = await ended(network);
        assert.ok(gain <= 1n && above !== null && above <= BigInt(most), `${gain} ${above} ${most} ${network.text}`);
    }
});

test("the helpers of exercise 4 get 3, 3 and 2, which are the lowest wages", {skip}, async () => {
    const {auction, isEquilibrium, above} = await ended(example("lesson/4-substitutes.json"));
    assert.deepEqual([auction.prices, isEquilibrium, above], [[3n, 3n, 2n], true, 0n]);
    assert.equal(guessOf(auction).prices.length, 6);
});

test("where there is no auction the reason is said", {skip}, async () => {
    const reasons = {"lesson/3-middleman.json": "auction.both_sides", "lesson/5-complements.json": "auction.complements", "cannery.json": "auction.parallel"};
    for (const [name, reason] of Object.entries(reasons)) assert.equal((await auctionOf(example(name), ask)).refused, reason, name);
    const firms = [{name: "S", kind: "laminar"}, {name: "B", kind: "laminar"}, {name: "C", kind: "laminar"}];
    const trades = ["B", "C"].map((buyer) => ({name: buyer, seller: "S", buyer}));
    assert.equal((await auctionOf(new Network(JSON.stringify({version: 1, firms, trades})), ask)).refused, "auction.several");
});
