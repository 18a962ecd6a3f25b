// Why an answer is so, told one step after another: the changes of a cycle, the contracts of a chain, the bundles of a table that
// fails.
import {changesAlong} from "../read/changes.js";
import {costs, gains, haves, keeping, worths} from "../read/firms.js";
import {entriesOf, fraction, itemsOf} from "../read/network.js";
import {say} from "../words/say.js";
import {changeWith} from "./changes.js";
import {failingLines} from "./exchange.js";
import {Deals, listed, set} from "./words.js";

/** A contract as a sentence. */
export function contractOf(network, [name, price], over) {
    const {seller, buyer} = network.trade(name);
    return say("story.contract", {seller, buyer, trade: name, price: fraction(price, over)});
}

/**
 * The story of an answer, as `{head, steps}`, or null where there is none. A step is `{says, firms, trades, below}`: its sentence, the
 * firms that it is about, the part that each trade plays in it, by name, and what is said below the names of firms, as lines. Where
 * trades have units the steps of a cycle have `units`, a Map from the trades that change to 1 or -1. `ask` runs the program, which is
 * asked for all numbers that the answer hasn't.
 */
export async function storyOf(network, said, ask) {
    return STORIES[said.answer]?.(network, said, ask) ?? null;
}

const STORIES = {cycle: cycleStory, impossible: impossibleStory, exchange_fails: failingStory, drops: dropsStory, blocks: chainStory};

async function cycleStory(network, {nodes, cost}, ask) {
    const on = itemsOf(network.arrangement.on), changes = changesAlong(network, on, [...nodes, nodes[0]]);
    const known = await costs(ask, network, on, changes), below = new Map(), before = new Map(), units = unitsIn(changes);
    const steps = changes.map((change, k) => {
        below.set(change.firm, known[k] === null ? [] : [costWord(known[k])]);
        const trades = new Map([...before, ...change.toggled.map((name) => [name, "change"])]);
        for (const name of change.toggled) before.set(name, "changed");
        return {says: `${changeWith(change, known[k])}.`, firms: [change.firm], trades, below: new Map(below), units};
    });
    const all = new Map([...before.keys()].map((name) => [name, "round"]));
    const end = {says: say("story.round", {cost}), firms: changes.map(({firm}) => firm), trades: all, below, units};
    return {head: say("story.no_prices"), steps: [...steps, end]};
}

/** By how many units each trade of some changes changes, where trades have units. */
function unitsIn(changes) {
    return new Map(changes.flatMap(({acts}) => acts).filter(({by}) => by !== undefined).map(({trade, by}) => [trade, by]));
}

/** A cost in a word or two. */
function costWord(cost) {
    if (cost === 0n) return say("story.free");
    return cost > 0n ? say("story.costs", {cost}) : say("story.gains", {gain: -cost});
}

async function impossibleStory(network, {firm}) {
    const deals = new Deals(network, {}), own = network.own(firm, deals.on);
    const says = say("story.no_worth", {firm, does: deals.does(firm, own)});
    const trades = new Map(own.map((name) => [name, "impossible"]));
    return {head: say("story.impossible", {firm}),
        steps: [{says, firms: [firm], trades, below: new Map([[firm, [say("word.impossible")]]])}]};
}

async function failingStory(network, said, ask) {
    const {firm, x, y, at} = said, moved = [x, y].map((bundle) => toggled(network, firm, bundle, at));
    const [ofX, ofY, thenX, thenY] = await worths(ask, network, firm, [x, y, ...moved]);
    const step = (says, trades, worth, other = null) => {
        const lines = [`x: ${worth ?? say("word.none")}`,
            ...(other === null ? [] : [`y: ${other.worth ?? say("word.none")}`])];
        return {says, firms: [firm], trades: new Map(trades), below: new Map([[firm, lines]])};
    };
    const both = [...x.map((name) => [name, "x"]), ...y.map((name) => [name, x.includes(name) ? "x and y" : "y"])];
    const left = {trade: at, x: worthOf(moved[0], thenX), y: worthOf(moved[1], thenY)};
    const [, fails] = await failingLines(network, said, ask);
    return {head: say("exchange.fails", {firm}), steps: [
        step(say("story.first_bundle", {firm, x: worthOf(x, ofX)}), x.map((name) => [name, "x"]), ofX),
        step(say("story.other_bundle", {y: worthOf(y, ofY)}), y.map((name) => [name, "y"]), ofX, {worth: ofY}),
        ...(at === null ? [] : [step(say(x.includes(at) ? "story.out_of_x" : "story.out_of_y", left),
            [...both, [at, "moved"]], thenX, {worth: thenY})]),
        step(fails, both, ofX, {worth: ofY})]};
}

/** A bundle of a firm with a trade put into it, or taken out. */
function toggled(network, firm, bundle, at) {
    return network.own(firm, bundle.includes(at) ? bundle.filter((name) => name !== at) : [...bundle, at]);
}

function worthOf(bundle, worth) {
    return worth === null ? say("story.bundle_impossible", {bundle: set(bundle)})
        : say("story.bundle_worth", {bundle: set(bundle), worth});
}

async function dropsStory(network, said, ask) {
    const {firm, keeps, gain, over} = said, deals = new Deals(network, said), own = network.own(firm, deals.on);
    const has = numberOf((await haves(ask, network)).get(firm), over), could = numberOf(await keeping(ask, network, said), over);
    const trades = new Map(own.map((name) => [name, keeps.includes(name) ? "keeps" : "drops"]));
    const now = gain === null ? say("word.impossible") : say("word.has", {number: has});
    const below = new Map([[firm, [now, say("word.then", {number: could})]]]),
        values = {firm, keeps: listed(keeps), could};
    const says = gain === null ? say("story.cannot", values)
        : say("story.rather_keep", {...values, has, gain: fraction(gain, over)});
    return {head: say("answer.by_signed", {firm, does: deals.does(firm, own)}),
        steps: [{says, firms: [firm], trades, below}]};
}

function numberOf(numerator, over) {
    return numerator === null || numerator === undefined ? say("word.unknown") : fraction(numerator, over);
}

async function chainStory(network, said, ask) {
    const {contracts, over} = said, found = await gains(ask, network, said), left = leftBy(network, found);
    const below = new Map(), before = new Map();
    const steps = contracts.map((contract) => {
        const [name] = contract, {seller, buyer} = network.trade(name);
        const met = [seller, buyer].filter((firm) => found.has(firm) && !below.has(firm));
        for (const firm of met) below.set(firm, hasThen(found.get(firm)));
        const trades = new Map([...before, [name, "contract"]]);
        before.set(name, "signed before");
        const says = [contractOf(network, contract, over), ...met.map((firm) => gainOf(firm, found.get(firm), left))];
        return {says: says.join(" "), firms: [seller, buyer], trades, below: new Map(below)};
    });
    const trades = new Map([...contracts.map(([name]) => [name, "chain"]), ...left.map(({name}) => [name, "left"])]);
    const lost = left.filter(({partner}) => partner !== null)
        .map(({name, partner}) => say("story.loses", {firm: partner, trade: name}));
    return {head: say("story.chain"),
        steps: [...steps, {says: [say("story.signs_others"), ...lost].join(" "), firms: [...found.keys()], trades,
            below}]};
}

function hasThen({now, then, over}) {
    if (now === null) return [say("word.unknown")];
    return [say("word.has", {number: fraction(now, over)}), say("word.then", {number: fraction(then, over)})];
}

function gainOf(firm, {now, then, over}, left) {
    if (now === null) return say("story.passes_limit", {firm, over});
    const leaves = left.filter(({by}) => by.includes(firm)).map(({name}) => name);
    const values = {firm, now: fraction(now, over), then: fraction(then, over)};
    return leaves.length === 0 ? say("story.would_have", values)
        : say("story.would_leave", {...values, trades: listed(leaves)});
}

/** The signed trades that firms of a chain would leave, as `{name, by, partner}`; `partner` is null where both would. */
function leftBy(network, found) {
    const signed = [...entriesOf(itemsOf(network.outcome.contracts)).keys()];
    return signed.map((name) => {
        const {seller, buyer} = network.trade(name), ends = [seller, buyer];
        const by = ends.filter((firm) => found.has(firm) && !found.get(firm).keeps.includes(name));
        return {name, by, partner: by.length === 1 ? ends.find((firm) => firm !== by[0]) : null};
    }).filter(({by}) => by.length > 0);
}
