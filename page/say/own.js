// What the document says of a firm by itself, in a few words: from what a seller sells, up to what a buyer pays, at what cost something is
// made. The numbers are those of the document, or sums and differences of them.
import {hasUnits} from "../read/limits.js";
import {itemsOf, isObject} from "../read/network.js";
import {say} from "../words/say.js";
import {ownByUnits} from "./own_units.js";
import {extentOf, listed} from "./words.js";

/** What is said of a firm: `{lines, whole}`, lines for its box, and a text; null where the document says nothing of it that could be told so. */
export function ownOf(network, name) {
    const firm = firmAt(network, name), sides = sidesOf(network, name), tell = firm ? KINDS[firm.kind] : undefined;
    if (tell && hasUnits(network.data)) return sides.all.length > 0 && firm.kind === "laminar" ? ownByUnits(network, firm, sides) : null;
    const parts = tell && sides.all.length > 0 ? tell(firm, sides) : [];
    return parts.length === 0 ? null : {lines: parts.slice(0, 1), whole: parts.join(", ")};
}

/** What is said of each trade of a firm alone, by its name: from what it is sold, up to what is paid for it, or at which cost it is passed on; nothing where trades have units. */
export function eachOf(network, name) {
    if (hasUnits(network.data)) return new Map();
    const firm = firmAt(network, name), sides = sidesOf(network, name), told = new Map();
    for (const [trade, worth] of aloneAt(firm, sides)) {
        told.set(trade, sides.sales.includes(trade) ? say("own.sells", {price: -worth}) : say("own.pays", {price: worth}));
    }
    for (const [purchase, sale, price] of firm?.kind === "dealer" ? pairsOf(firm) : []) {
        told.set(purchase, [...(told.has(purchase) ? [told.get(purchase)] : []), say("own.passed", {sale, price})].join(", "));
    }
    return told;
}

const KINDS = {table: ofTable, laminar: ofLaminar, middleman: ofMiddleman, dealer: ofDealer};

function firmAt(network, name) {
    return itemsOf(network.data.firms).find((each) => isObject(each) && each.name === name);
}

/** The names of what a firm may sell, and buy, and of all its trades. */
function sidesOf(network, name) {
    const named = (side) => network.trades.filter((trade) => trade[side] === name).map((trade) => trade.name);
    const sales = named("seller"), purchases = named("buyer");
    return {sales, purchases, all: [...sales, ...purchases]};
}

/** Whether a firm makes something of what it buys, so that none of its trades is worth anything alone. */
function isMaker({sales, purchases}) {
    return sales.length > 0 && purchases.length > 0;
}

/** The entries of a list of `[trade, number]`. */
function numbersOf(list) {
    return new Map(itemsOf(list).filter((entry) => Array.isArray(entry) && typeof entry[1] === "bigint").map(([trade, number]) => [trade, number]));
}

/** From what is sold, and up to what is paid for, each trade by itself; `worths` has those that are known. */
function singly(worths, {sales, purchases}) {
    const of = (trades) => trades.filter((trade) => worths.has(trade)).map((trade) => worths.get(trade));
    const sold = of(sales).map((worth) => -worth), bought = of(purchases);
    return [...(sold.length > 0 ? [say("own.sells", {price: extentOf(sold)})] : []), ...(bought.length > 0 ? [say("own.pays", {price: extentOf(bought)})] : [])];
}

/** What each trade of a firm is worth to it alone, where that can be told. */
function aloneAt(firm, sides) {
    if (firm?.kind === "table") return singleRows(firm);
    return firm?.kind === "laminar" && !isMaker(sides) ? aloneOf(firm, sides) : new Map();
}

function rowsOf({rows}) {
    return itemsOf(rows).filter((row) => Array.isArray(row) && Array.isArray(row[0]) && typeof row[1] === "bigint");
}

/** The worths of single trades in a table. */
function singleRows(firm) {
    return new Map(rowsOf(firm).filter(([bundle]) => bundle.length === 1).map(([[trade], worth]) => [trade, worth]));
}

function ofTable(firm, sides) {
    const larger = rowsOf(firm).filter(([bundle]) => bundle.length > 1);
    return [...singly(singleRows(firm), sides), ...larger.map(([bundle, worth]) => say("own.worth", {bundle: listed(bundle), worth}))];
}

/** The sets of a laminar firm that can be told. */
function setsOf({sets}) {
    return itemsOf(sets).filter((set) => isObject(set) && typeof (set.from ?? 0n) === "bigint");
}

const isWithin = (set, trade) => itemsOf(set.trades).includes(trade);

/** What one unit more of a trade adds to a set's number, from the count 0; null where that can't be. */
function stepOf({from, values}, by) {
    const at = (count) => itemsOf(values)[Number(-BigInt(from ?? 0) + count)], [here, there] = [at(0n), at(by)];
    return typeof here === "bigint" && typeof there === "bigint" ? there - here : null;
}

/** A sum, which is null where one of its numbers is. */
function sumOf(numbers) {
    return numbers.reduce((sum, each) => (sum === null || each === null ? null : sum + each), 0n);
}

/** What each trade of a laminar firm is worth to it alone, where it is possible. */
function aloneOf(firm, {sales, purchases}) {
    const own = numbersOf(firm.amounts), sets = setsOf(firm);
    const worthOf = (trade, by) => sumOf([own.get(trade) ?? 0n, ...sets.filter((set) => isWithin(set, trade)).map((set) => stepOf(set, by))]);
    const worths = [...sales.map((trade) => [trade, worthOf(trade, -1n)]), ...purchases.map((trade) => [trade, worthOf(trade, 1n)])];
    return new Map(worths.filter(([, worth]) => worth !== null));
}

function ofLaminar(firm, sides) {
    const sets = setsOf(firm), made = isMaker(sides) ? madeFor(firm, sets, sides) : [];
    const together = isMaker(sides) ? [] : sets.flatMap((set) => togetherIn(set, sides));
    return [...(made.length > 0 ? made : [...singly(aloneOf(firm, sides), sides), ...together]), ...mostOf(sets, sides)];
}

/** How much more or less several trades of a set are worth together than each of them alone. */
function togetherIn(set, {sales, all}) {
    const sign = sales.length > 0 ? -1n : 1n, one = stepOf(set, sign), trades = itemsOf(set.trades), told = [];
    for (let count = 2n; count <= BigInt(trades.length); count += 1n) {
        const whole = stepOf(set, sign * count), more = whole === null || one === null ? 0n : whole - count * one;
        const values = {count, number: more > 0n ? `+${more}` : String(more), trades: listed(trades)};
        if (more !== 0n) told.push(say(trades.length === all.length ? "own.together" : "own.together_of", values));
    }
    return told;
}

/** What it costs to make one unit of a purchase into a sale. */
function madeFor(firm, sets, {sales, purchases}) {
    const own = numbersOf(firm.amounts), costs = [];
    for (const purchase of purchases) for (const sale of sales) {
        const steps = sets.filter((set) => isWithin(set, purchase) !== isWithin(set, sale)).map((set) => stepOf(set, isWithin(set, purchase) ? 1n : -1n));
        const worth = sumOf([own.get(purchase) ?? 0n, own.get(sale) ?? 0n, ...steps]);
        if (worth !== null) costs.push(-worth);
    }
    return costs.length === 0 ? [] : [say("own.makes", {price: extentOf(costs)})];
}

/** How many it sells, or buys, at most: by a set that has all its trades. */
function mostOf(sets, {all}) {
    const whole = sets.find((set) => all.every((trade) => isWithin(set, trade)));
    if (!whole) return [];
    const from = BigInt(whole.from ?? 0), to = from + BigInt(itemsOf(whole.values).length) - 1n, most = -from > to ? -from : to;
    return most > 0n && most < BigInt(all.length) ? [say("own.most", {count: most})] : [];
}

function ofMiddleman({costs, gains, keep}) {
    const told = (list, key) => {
        const numbers = [...numbersOf(list).values()];
        return numbers.some((number) => number !== 0n) ? [say(key, {price: extentOf(numbers)})] : [];
    };
    const kept = typeof keep === "bigint" ? [say("own.keeps", {price: keep})] : [];
    return [say("own.passes"), ...told(costs, "own.costs"), ...told(gains, "own.gains"), ...kept];
}

/** Which purchase a dealer may sell on as which sale, at which cost. */
function pairsOf({pairs}) {
    return itemsOf(pairs).filter((pair) => Array.isArray(pair) && typeof pair[2] === "bigint");
}

function ofDealer(firm) {
    const costs = pairsOf(firm).map(([, , cost]) => cost);
    return costs.length === 0 ? [] : [say("own.matches", {price: extentOf(costs)})];
}
