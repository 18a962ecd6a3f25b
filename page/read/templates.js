// Kinds of firms as people know them, each a template: the members of a firm that it makes, and by what a firm is known again that
// one made. Sellers, buyers and makers are laminar firms; the other templates are the format's own kinds.
import {entriesOf, isObject, itemsOf} from "./network.js";

/** The templates, as they are offered. */
export const TEMPLATES = ["seller-one", "seller-many", "buyer-one", "buyer-many", "maker", "middleman", "dealer", "laminar", "table"];

/** Whose sides there are: what a seller, a buyer and a maker count in their set, and whether a unit costs something there. */
const SIDES = {
    seller: {counts: ({isSale}) => isSale, sign: -1n}, buyer: {counts: ({isSale}) => !isSale, sign: 1n},
    maker: {counts: ({isSale}) => !isSale, sign: -1n},
};

/** The side of a template that is a laminar firm: seller, buyer or maker; null of any other. */
export function sideOf(template) {
    const side = template.split("-")[0];
    return side in SIDES ? side : null;
}

/** How many units a template begins with: one for sellers and buyers of one. */
export function leastOf(template) {
    return template.endsWith("-many") ? 2 : 1;
}

/** The trades that the set of a side counts. */
export function countedBy(side, own) {
    return own.filter(SIDES[side].counts).map(({name}) => name);
}

/**
 * What a firm is, as `{template, numbers}`. `own` are its trades, each with its name and `isSale`. Of sellers, buyers and makers
 * the numbers are the `first`, what the first unit costs or is worth; `further`, how much more each further one costs, or how much less it is
 * worth, than the first; and `each`, a Map of what each trade adds by itself, in the sign of the document. Of others they are null.
 */
export function templateOf(firm, own) {
    if (firm.kind !== "laminar") return {template: String(firm.kind ?? ""), numbers: null};
    const sets = itemsOf(firm.sets), each = entriesOf(firm.amounts);
    const isPlain = sets.every(isSetOfNumbers) && [...each.values()].every((number) => typeof number === "bigint");
    const found = isPlain ? oneSided(firm.sets === undefined ? null : sets, own) ?? madeOf(sets, own) : null;
    return found === null ? {template: "laminar", numbers: null} : {template: found.template, numbers: {...found.numbers, each}};
}

function isSetOfNumbers(set) {
    return isObject(set) && typeof set.from === "bigint" && Array.isArray(set.values) && set.values.every((value) => typeof value === "bigint")
        && Array.isArray(set.trades);
}

/** A seller or a buyer: one set over all of its trades; of a single trade none need be said. */
function oneSided(sets, own) {
    const sides = new Set(own.map(({isSale}) => (isSale ? "seller" : "buyer")));
    if (sets === null && own.length === 1) return {template: `${[...sides][0]}-one`, numbers: {first: 0n, further: []}};
    if (sets?.length !== 1 || sides.size > 1) return null;
    const side = sides.size === 1 ? [...sides][0] : sets[0].from < 0n ? "seller" : "buyer";
    const further = hasAll(sets[0], own) ? stepsOf(side, sets[0]) : null;
    return further === null ? null : {template: `${side}-${further.length > 1 ? "many" : "one"}`, numbers: numbersOf(further)};
}

/** A maker: a set over all of its trades, in which as much goes out as comes in, and one over its purchases. */
function madeOf(sets, own) {
    const isWhole = (set) => set.from === 0n && set.values.length === 1 && set.values[0] === 0n && hasAll(set, own);
    const whole = sets.find(isWhole), within = sets.find((set) => set !== whole);
    if (sets.length !== 2 || !whole || !hasAll(within, own.filter(SIDES.maker.counts))) return null;
    const steps = stepsOf("maker", within);
    return steps === null ? null : {template: "maker", numbers: numbersOf(steps)};
}

/** Whether a set has some trades, and no others. */
function hasAll({trades}, some) {
    const names = new Set(trades);
    return names.size === trades.length && some.length === trades.length && some.every(({name}) => names.has(name));
}

/** What each unit costs or is worth, by the numbers of a set that begins or ends with none; null where it is no such set. */
function stepsOf(side, {from, values}) {
    const counts = side === "seller" ? [...values].reverse() : values, isFrom = side === "seller" ? from === BigInt(1 - values.length) : from === 0n;
    if (!isFrom || counts.length < 2 || counts[0] !== 0n) return null;
    const {sign} = SIDES[side], steps = counts.slice(1).map((value, k) => sign * (value - counts[k]));
    return steps.every((step, k) => k === 0 || sign * (step - steps[k - 1]) <= 0n) ? steps : null;
}

/** Steps as the first, and by how much the further ones differ from it. */
function numbersOf([first, ...more]) {
    return {first, further: more.map((step) => (step > first ? step - first : first - step))};
}

/** The numbers of a set of a side, from its least count on, with that count. */
export function setOf(side, {first, further}) {
    const {sign} = SIDES[side], steps = [0n, ...further].map((more) => sign * first - more);
    const sums = steps.reduce((all, step) => [...all, all[all.length - 1] + step], [0n]);
    return side === "seller" ? {from: BigInt(-steps.length), values: sums.reverse()} : {from: 0n, values: sums};
}

/** The members that a template gives a firm beside its name and note, as plain data. */
export function membersOf(template, numbers, own) {
    const side = sideOf(template);
    if (side === null) return OTHERS[template];
    const {from, values} = setOf(side, numbers), set = {trades: countedBy(side, own), from, values};
    const whole = {trades: own.map(({name}) => name), from: 0n, values: [0n]};
    const amounts = own.filter(({name}) => numbers.each.has(name)).map(({name}) => [name, numbers.each.get(name)]);
    return {kind: "laminar", amounts, sets: side === "maker" ? [whole, set] : [set]};
}

const OTHERS = {
    middleman: {kind: "middleman", costs: [], gains: []}, dealer: {kind: "dealer", pairs: []}, laminar: {kind: "laminar", amounts: [], sets: []},
    table: {kind: "table", rows: []},
};

/** The numbers with which another template goes on: those of the same side, and of a firm that was none what each trade adds. */
export function goingOn(template, before, own) {
    const side = sideOf(template), isSame = side !== null && sideOf(before.template) === side, least = leastOf(template);
    const {first, further, each} = isSame ? before.numbers : {first: 0n, further: [], each: new Map()};
    const most = template.endsWith("-one") ? 1 : Math.max(least, further.length + 1);
    const mine = before.template === "laminar" && before.each ? before.each : each;
    return {first, further: withCount(further, most), each: new Map(own.filter(({name}) => mine.has(name)).map(({name}) => [name, mine.get(name)]))};
}

/** As many further units: those that come to it differ from the first as the last one does. */
export function withCount(further, most) {
    const last = further[further.length - 1] ?? 0n;
    return Array.from({length: most - 1}, (_, k) => further[k] ?? last);
}

/** The further units with another number at one of them; those before it differ no more from the first, those behind it no less. */
export function withStep(further, place, number) {
    return further.map((step, k) => (k === place || (k < place ? step > number : step < number) ? number : step));
}

/** What one trade costs, is worth, or adds for a maker, as the form has it: the first unit's and its own together. */
export function ofTrade(template, {first, each}, name) {
    const own = each.get(name) ?? 0n, side = sideOf(template);
    if (side === "maker") return -own;
    return side === "buyer" ? first + own : first - own;
}

/** The amount of a trade for which a number stands in the form. */
export function amountFor(template, {first}, number) {
    const side = sideOf(template);
    if (side === "maker") return -number;
    return side === "buyer" ? number - first : first - number;
}
