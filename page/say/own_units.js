// What the document says of a firm whose trades have units, in a few words: how many it sells from which price on, buys up to which one, or
// makes at which cost, step by step.
import {hasAll, isEven, readSets, stepsOf} from "../read/steps.js";
import {entriesOf, itemsOf} from "../read/network.js";
import {say} from "../words/say.js";
import {extentOf, listed} from "./words.js";

/** How many lines of it a box has. */
const MOST_LINES = 2;

/** By which words the first step of a firm is told, and each further one. */
const SELLS = ["own.sells_units", "own.sells_more"], BUYS = ["own.buys_units", "own.buys_more"], MAKES = ["own.makes_units", "own.makes_more"];

/**
 * What is said of a firm as `{lines, whole}`: a few lines for its box, and all of it; null where the document says nothing of it that
 * could be told so. `sides` are the names of its `sales` and `purchases`, and of `all` its trades.
 */
export function ownByUnits(network, firm, sides) {
    const amounts = entriesOf(firm.amounts), sets = readSets(firm), isMaker = sides.sales.length > 0 && sides.purchases.length > 0;
    const of = {amounts, sets, sides, capacity: (name) => network.capacity(name)};
    const told = (isMaker ? madeBySteps(of) : soldOrBought(of)) ?? [...firstUnits(of, isMaker), ...sets.map(setLine)];
    if (told.length === 0) return null;
    const few = told.slice(0, MOST_LINES), more = told.length > MOST_LINES ? ", \u2026" : "";
    return {lines: few.map((line, k) => (k === MOST_LINES - 1 ? line + more : line)), whole: told.join(", ")};
}

/** Steps as lines, the first with the word for what is done; a step is `{count, price}`, where the price is a text. */
function linesOf(steps, [first, further]) {
    return steps.map(({count, price}, k) => say(k === 0 ? first : further, {count, price}));
}

/** What a seller or a buyer does by steps; null where a trade is in several sets. */
function soldOrBought({amounts, sets, sides: {sales, all}, capacity}) {
    const isSeller = sales.length > 0, side = isSeller ? "sold" : "bought", sign = isSeller ? -1n : 1n;
    const own = (name) => amounts.get(name) ?? 0n, named = sets.flatMap(({trades}) => trades);
    if (new Set(named).size < named.length) return null;
    const ofSet = (names, steps) => names.length === 0 ? [] : steps.map(([count, adds]) => ({count, price: extentOf(names.map((name) => sign * (own(name) + adds)))}));
    const ofSets = sets.flatMap((set) => ofSet(set.trades.filter((name) => all.includes(name)), stepsOf(set, side)));
    const free = all.filter((name) => !named.includes(name)).map((name) => ({count: capacity(name), price: String(sign * own(name))}));
    return linesOf([...ofSets, ...free], isSeller ? SELLS : BUYS);
}

/** What a maker does by the steps of its purchases, or of its sales; null where its sets say something else. */
function madeBySteps({amounts, sets, sides: {sales, purchases, all}}) {
    const objects = (names) => names.map((name) => ({name})), whole = sets.find((set) => isEven(set) && hasAll(set, objects(all)));
    const others = sets.filter((set) => set !== whole), [within] = others;
    if (whole === undefined || others.length > 1) return null;
    const side = within && (hasAll(within, objects(purchases)) ? "bought" : hasAll(within, objects(sales)) ? "sold" : null);
    if (within && side === null) return null;
    const pairs = purchases.flatMap((purchase) => sales.map((sale) => (amounts.get(purchase) ?? 0n) + (amounts.get(sale) ?? 0n)));
    const costOf = (adds) => extentOf(pairs.map((own) => -(own + adds)));
    if (!within) return [say("own.makes", {price: costOf(0n)})];
    return linesOf(stepsOf(within, side).map(([count, adds]) => ({count, price: costOf(adds)})), MAKES);
}

/** From what a first unit is sold, or up to what it is paid for, where sets lie within each other. */
function firstUnits({amounts, sets, sides: {sales, purchases}}, isMaker) {
    if (isMaker) return [];
    const worth = (name, side) => [amounts.get(name) ?? 0n, ...sets.filter(({trades}) => trades.includes(name)).map((set) => stepsOf(set, side)[0]?.[1] ?? null)]
        .reduce((sum, each) => (sum === null || each === null ? null : sum + each), 0n);
    const of = (names, side) => names.map((name) => worth(name, side)).filter((each) => each !== null);
    const sold = of(sales, "sold").map((each) => -each), bought = of(purchases, "bought");
    return [...(sold.length > 0 ? [say("own.sells", {price: extentOf(sold)})] : []), ...(bought.length > 0 ? [say("own.pays", {price: extentOf(bought)})] : [])];
}

/** The steps of a set, each with what a unit adds. */
function setLine(set) {
    const told = (side, key) => stepsOf(set, side).map(([count, adds]) => say(key, {count, adds}));
    const steps = [...told("bought", "own.step_bought"), ...told("sold", "own.step_sold")];
    return say("own.set", {trades: listed(itemsOf(set.trades)), steps: steps.length > 0 ? steps.join(", ") : say("own.even")});
}
