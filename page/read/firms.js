// What bundles are worth, asked of the program: all numbers that no answer has come from its command `firms`, which is asked
// about the document with another arrangement.
import {countedBy} from "./counted.js";
import {plain, parse, written} from "./json.js";
import {hasUnits} from "./limits.js";
import {gcd, objectOf, withMember} from "./network.js";
import {unitsOf} from "./standing.js";

/** Where trades have units, changes in larger networks have no costs: to ask for them all would take too long. */
const MOST_TRADES = 200;

/** What `firms` says of an arrangement: a Map from each firm to its line, or null where there is no program or a fault. */
export async function linesAt(ask, network, on, prices = new Map()) {
    if (ask === null || network.root.kind !== "object") return null;
    const entries = network.trades.map(({name}) => `[${JSON.stringify(name)},${prices.get(name) ?? 0}]`);
    const asked = withMember(network, "arrangement", `{"on":${written(on)},"prices":[${entries}]}`);
    const said = objectOf(plain(parse(await ask(["firms"], asked))));
    return said.answer === "firms" ? new Map(said.firms.map((line) => [line.firm, line])) : null;
}

/** What each of some bundles is worth to a firm, in their order; null where it is impossible, or nobody can be asked. */
export async function worths(ask, network, firm, bundles) {
    const found = [];
    for (const bundle of bundles) found.push((await linesAt(ask, network, bundle))?.get(firm)?.worth ?? null);
    return found;
}

/**
 * What each change costs its firm in worth, by what is on; null where that isn't known. A change is one of read/changes.js. Changes
 * that leave each other's firms alone are asked for together.
 */
export async function costs(ask, network, on, changes) {
    const isLarge = hasUnits(network.data) && network.trades.length > MOST_TRADES, now = isLarge ? null : await linesAt(ask, network, on);
    const known = new Map();
    for (const together of now === null ? [] : apart(network, changes)) {
        const then = await linesAt(ask, network, changed(on, together));
        for (const change of together) {
            const worth = then?.get(change.firm)?.worth ?? null, before = now.get(change.firm)?.worth ?? null;
            if (worth !== null && before !== null) known.set(keyOf(change), before - worth);
        }
    }
    return changes.map((change) => known.get(keyOf(change)) ?? null);
}

/** What is on after some changes, by trades or by their units. */
function changed(on, changes) {
    const acts = changes.flatMap((change) => change.acts), isByUnits = acts.some(({by}) => by !== undefined);
    if (isByUnits) return [...acts.reduce((units, {trade, by}) => units.set(trade, (units.get(trade) ?? 0n) + by), unitsOf(on))];
    const toggled = new Set(acts.map(({trade}) => trade));
    return [...on.filter((name) => !toggled.has(name)), ...[...toggled].filter((name) => !on.includes(name))];
}

function keyOf({firm, acts}) {
    return JSON.stringify([firm, ...acts.map(({trade, by = ""}) => `${trade} ${by}`).sort()]);
}

/** Changes in groups, each of which toggles at a firm that changes what this firm changes alone. Equal changes are taken once. */
function apart(network, changes) {
    const groups = [];
    for (const change of new Map(changes.map((each) => [keyOf(each), each])).values()) {
        const meets = (one, other) => other.toggled.some((name) => network.isOf(name, one.firm));
        const group = groups.find((others) => others.every((other) => !meets(change, other) && !meets(other, change)));
        if (group) group.push(change);
        else groups.push([change]);
    }
    return groups;
}

/** The utility of each firm by what is signed, as a Map to numerators over the outcome's denominator; null where that is impossible. */
export async function haves(ask, network) {
    const {over, contracts} = network.outcome, signed = new Map(contracts);
    const lines = await linesAt(ask, network, [...signed.keys()]);
    const utility = (firm, {has, worth}) => (worth === null ? null : worth * over + paid(network, firm, has, signed));
    return new Map([...lines ?? []].map(([firm, line]) => [firm, utility(firm, line)]));
}

/**
 * What a firm that would drop contracts could have by those that it keeps, as a numerator over the outcome's denominator; null where
 * nobody can be asked.
 */
export async function keeping(ask, network, {firm, keeps}) {
    const {over, contracts} = network.outcome, [worth] = await worths(ask, network, firm, [keeps]);
    return worth === null ? null : worth * over + paid(network, firm, keeps, new Map(contracts));
}

/**
 * What the firms of contracts that block have by what is signed, and could have with the new ones, as a Map from each to
 * `{now, then, over, keeps}`: utilities as numerators over the denominator of all prices together, and the signed trades that
 * go on. Each firm is asked for a best bundle in a document in which it counts over that denominator, with no trade wanted that
 * has no contract. Where its numbers pass a limit then, there are none, but null, and nothing is known to be left.
 */
export async function gains(ask, network, said) {
    const over = common(network.outcome.over, said.over);
    const signed = timesOf(network.outcome.contracts, over / network.outcome.over);
    const all = new Map([...signed, ...timesOf(said.contracts, over / said.over)]);
    const firms = new Set(said.contracts.flatMap(([name]) => [network.trade(name).seller, network.trade(name).buyer]));
    const found = new Map();
    for (const firm of ask === null ? [] : firms) {
        const lines = await linesAt(ask, countedBy(network, firm, over), [...signed.keys()], offered(network, firm, all));
        const line = lines?.get(firm);
        const isKnown = line !== undefined && line.worth !== null, best = isKnown ? line.best : network.own(firm, [...signed.keys()]);
        const [now, then] = isKnown ? [line.worth + paid(network, firm, line.has, signed), line.best_utility] : [null, null];
        found.set(firm, {now, then, over, keeps: best.filter((name) => signed.has(name))});
    }
    return found;
}

/** The numerators of contracts, some times as large. */
function timesOf(contracts, times) {
    return new Map(contracts.map(([name, price]) => [name, price * times]));
}

/** The least common multiple of two denominators. */
function common(one, other) {
    return one / gcd(one, other) * other;
}

/** What a firm gets less what it pays by some trades. */
function paid(network, firm, names, prices) {
    return names.reduce((sum, name) => sum + signOf(network, firm, name) * prices.get(name), 0n);
}

function signOf(network, firm, name) {
    return network.trade(name).seller === firm ? 1n : -1n;
}

/** The prices at which one firm is asked: those of contracts, and of all else one that it doesn't want. */
function offered(network, firm, contracts) {
    const unwanted = 100000000000000n;
    return new Map(network.trades.map(({name}) => [name, contracts.get(name) ?? -signOf(network, firm, name) * unwanted]));
}
