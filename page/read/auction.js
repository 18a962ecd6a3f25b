// An ascending auction, in which each item has one price and every step is asked of the program.
// Where each buyer takes one item, the first buyer that would rather have something else, where what another one holds costs one more,
// bids for that and holds it, and who held it is out (Demange, Gale and Sotomayor, 1986). Where a buyer takes several, the first one that
// would rather have others at the present prices offers one more for those that are held, and whoever holds one and still wants it offers
// as much (Kelso and Crawford, 1982, whose firms bid so for workers).
import {readAnswer} from "./answer.js";
import {linesAt} from "./firms.js";
import {entriesOf} from "./network.js";
import {scaledText} from "./scaled.js";

/** By how much numbers are multiplied, so that a buyer keeps what it holds rather than as good a bundle without it. */
const PARTS = 128n;

/** After how many steps an auction is given up. */
const MOST_STEPS = 20_000;

/** The items: each seller, with its trades by the buyers. */
function itemsOf({firms, trades}) {
    const items = firms.map(({name}) => ({seller: name, trades: new Map(trades.filter(({seller}) => seller === name).map((trade) => [trade.buyer, trade.name]))}));
    return items.filter((item) => item.trades.size > 0);
}

/** Why a network has no auction, as a key of a text, or null as far as its ends tell. */
function endsSay({trades}) {
    const sellers = new Set(trades.map(({seller}) => seller)), pairs = new Set(trades.map(({seller, buyer}) => JSON.stringify([seller, buyer])));
    if (trades.length === 0) return "auction.no_trades";
    if (trades.some(({buyer}) => sellers.has(buyer))) return "auction.both_sides";
    return pairs.size < trades.length ? "auction.parallel" : null;
}

/**
 * The begin of an auction, as `{items, prices, holders, isOfOne, contest, steps}`: each item costs what its seller wants for it, by place,
 * and nobody holds it; `isOfOne` says whether each buyer takes one. Where the network has none, `{refused}` is the key of the reason.
 */
export async function auctionOf(network, ask) {
    const refused = endsSay(network);
    if (refused !== null) return {refused};
    const tested = readAnswer(await ask(["test"], network.text));
    if (tested.answer !== "accepted") return {refused: tested.answer === "exchange_fails" ? "auction.complements" : "auction.fault"};
    const items = itemsOf(network), sold = items.map(({seller, trades}) => ({firm: seller, names: [...trades.values()]}));
    const buyers = [...new Set(network.trades.map(({buyer}) => buyer))].map((firm) => ({firm, names: network.own(firm, [...network.byName.keys()])}));
    const costs = await costsOf(network, sold, ask);
    if (costs === null || !await areOfOne(network, sold, ask)) return {refused: "auction.several"};
    return {items, prices: costs, holders: items.map(() => null), isOfOne: await areOfOne(network, buyers, ask), contest: null, steps: []};
}

/** What each seller wants for its item, which is the same from every buyer; null where one sells none, or not at one cost. */
async function costsOf(network, owners, ask) {
    const found = owners.map(() => new Set()), most = Math.max(...owners.map(({names}) => names.length));
    for (let k = 0; k < most; k += 1) {
        const lines = await linesAt(ask, network, owners.flatMap(({names}) => names.slice(k, k + 1)));
        owners.forEach(({firm, names}, at) => k < names.length && found[at].add(lines.get(firm).worth));
    }
    const worths = found.map((each) => [...each]);
    return worths.some((each) => each.length !== 1 || each[0] === null) ? null : worths.map(([worth]) => -worth);
}

/** Whether no two trades together are possible for any of some firms, of which no two have a trade in common. */
async function areOfOne(network, owners, ask) {
    const most = Math.max(...owners.map(({names}) => names.length));
    for (let k = 1; k < most; k += 1) {
        for (let j = 0; j < k; j += 1) {
            const lines = await linesAt(ask, network, owners.flatMap(({names}) => (k < names.length ? [names[j], names[k]] : [])));
            if (owners.some(({firm, names}) => k < names.length && lines.get(firm).worth !== null)) return false;
        }
    }
    return true;
}

/** What each buyer would pay for each item now: what another one holds costs one more, where each takes one. */
function arrangementOf({items, prices, holders, isOfOne}) {
    const entries = items.flatMap(({trades}, k) => [...trades].map(([buyer, name]) => {
        const isHeld = holders[k] === buyer, isOthers = holders[k] !== null && !isHeld, price = PARTS * (isOthers && isOfOne ? prices[k] + 1n : prices[k]);
        return [name, isHeld ? price - 1n : price];
    }));
    return {on: heldIn({items, holders}), prices: entries};
}

/** The trades by which items are held. */
function heldIn({items, holders}) {
    return items.flatMap(({trades}, k) => (holders[k] === null ? [] : [trades.get(holders[k])]));
}

/** The guess that an auction stands at: each item has its price for all buyers. */
export function guessOf(auction) {
    const {items, prices} = auction;
    return {on: heldIn(auction), prices: items.flatMap(({trades}, k) => [...trades.values()].map((name) => [name, prices[k]]))};
}

/**
 * The auction after one more step; itself where nobody bids. Its last step is `{kind, buyer, items, out}`: a "bid" of a buyer for items by
 * place, with those who are out; or an offer that is a "match", or a "loss" to another buyer. Null where the program doesn't answer, since
 * numbers are too large, or where there is no end.
 */
export async function stepped(network, auction, ask) {
    const text = scaledText(network, {arrangement: arrangementOf(auction)}, PARTS), said = readAnswer(await ask(["firms"], text));
    if (said.answer !== "firms" || auction.steps.length >= MOST_STEPS) return null;
    const lines = new Map(said.firms.map((line) => [line.firm, line]));
    if (auction.contest !== null) return contested(auction, lines);
    const sellers = new Set(auction.items.map(({seller}) => seller)), line = said.firms.find(({firm, gain}) => !sellers.has(firm) && gain !== 0n);
    if (line === undefined) return auction;
    return auction.isOfOne ? taken(auction, line.firm, line.best) : offered(auction, line.firm, line.best);
}

/** The auction after a buyer's bid for a bundle: it holds that, and lets go of all else. */
function taken(auction, buyer, best) {
    const {items, prices, holders, steps} = auction, wanted = new Set(best), isWanted = ({trades}) => wanted.has(trades.get(buyer));
    const bids = items.flatMap((item, k) => (isWanted(item) && holders[k] !== buyer ? [k] : []));
    const out = [...new Set(bids.map((k) => holders[k]).filter((name) => name !== null))];
    return {
        ...auction,
        prices: prices.map((price, k) => (bids.includes(k) && holders[k] !== null ? price + 1n : price)),
        holders: holders.map((holder, k) => (bids.includes(k) ? buyer : holder === buyer && !isWanted(items[k]) ? null : holder)),
        steps: [...steps, {kind: "bid", buyer, items: bids, out}],
    };
}

/** The auction after a buyer's offer: it holds what nobody held, and offers one more for what others hold. */
function offered(auction, buyer, best) {
    const {items, prices, holders, steps} = auction, wanted = new Set(best), isWanted = ({trades}) => wanted.has(trades.get(buyer));
    const bids = items.flatMap((item, k) => (isWanted(item) && holders[k] !== buyer ? [k] : [])), open = bids.filter((k) => holders[k] !== null);
    return {
        ...auction,
        prices: prices.map((price, k) => (open.includes(k) ? price + 1n : price)),
        holders: holders.map((holder, k) => (holder === null && bids.includes(k) ? buyer : holder === buyer && !isWanted(items[k]) ? null : holder)),
        contest: open.length === 0 ? null : {buyer, items: open},
        steps: [...steps, {kind: "bid", buyer, items: bids, out: []}],
    };
}

/** The auction after those who hold what is contested offered as much, or let it go to the other buyer. */
function contested(auction, lines) {
    const {items, holders, contest, steps} = auction, keeps = (k) => lines.get(holders[k]).best.includes(items[k].trades.get(holders[k]));
    const lost = contest.items.filter((k) => !keeps(k)), kept = contest.items.filter(keeps);
    const told = [...steps];
    if (kept.length > 0) told.push({kind: "match", buyer: holders[kept[0]], items: kept, out: []});
    if (lost.length > 0) told.push({kind: "loss", buyer: contest.buyer, items: lost, out: [...new Set(lost.map((k) => holders[k]))]});
    return {...auction, holders: holders.map((holder, k) => (lost.includes(k) ? contest.buyer : holder)), contest: null, steps: told};
}

/**
 * What the program says at the end, as `{gain, isEquilibrium, above, most}`: the most that a firm would gain by something else; whether
 * nobody would; by how much a price of an item that is held is above the lowest of all equilibria at most, null where that isn't known;
 * and the lesser number of items and buyers.
 */
export async function endOf(network, auction, ask) {
    const arrangement = guessOf(auction), text = scaledText(network, {arrangement});
    const said = readAnswer(await ask(["firms"], text)), ranges = readAnswer(await ask(["range"], network.text));
    const gain = said.firms.reduce((most, each) => (each.gain > most ? each.gain : most), 0n);
    const isEquilibrium = gain === 0n && readAnswer(await ask(["check"], text)).answer === "equilibrium";
    const lows = new Map(ranges.answer === "ranges" ? ranges.ranges.map(({trade, low}) => [trade, low]) : []), at = entriesOf(arrangement.prices);
    const above = arrangement.on.map((name) => (typeof lows.get(name) === "bigint" ? at.get(name) - lows.get(name) : null));
    const buyers = new Set(auction.items.flatMap(({trades}) => [...trades.keys()]));
    return {gain, isEquilibrium, above: above.includes(null) ? null : above.reduce((most, each) => (each > most ? each : most), 0n),
        most: Math.min(auction.items.length, buyers.size)};
}
