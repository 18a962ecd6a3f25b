// Sets by steps, as firms have them whose trades have units, and the kinds of such firms as people know them: sellers, buyers and makers
// by steps, and by what they are known again.
import {entriesOf, isObject, itemsOf} from "./network.js";

/** The kinds, as they are offered; all others are amounts and sets. */
export const UNIT_TEMPLATES = ["seller-many", "buyer-many", "maker", "laminar"];

const isWhole = (number) => typeof number === "bigint";

/** The sets of a firm, as far as they can be read. */
export function readSets({sets}) {
    return itemsOf(sets).filter((set) => isObject(set) && Array.isArray(set.trades));
}

/**
 * The steps of a set on a side, "bought" or "sold", as `[how many, what each adds]`. Those of a set by net counts are made of its numbers.
 */
export function stepsOf(set, side) {
    if (set.from === undefined) return itemsOf(set[side]).filter((step) => Array.isArray(step) && step.length === 2 && step.every(isWhole));
    const values = itemsOf(set.values), zero = isWhole(set.from) ? Number(-set.from) : -1;
    if (!values.every(isWhole) || zero < 0 || zero >= values.length) return [];
    const numbers = side === "bought" ? values.slice(zero) : values.slice(0, zero + 1).reverse(), steps = [];
    numbers.slice(1).map((number, k) => number - numbers[k]).forEach((adds) => {
        if (steps.at(-1)?.[1] === adds) steps.at(-1)[0] += 1n;
        else steps.push([1n, adds]);
    });
    return steps;
}

/** Whether not one unit more of a set may be bought than sold, nor sold than bought. */
export function isEven(set) {
    return stepsOf(set, "bought").length + stepsOf(set, "sold").length === 0;
}

/** Whether a set has some trades, and no others. */
export function hasAll({trades}, some) {
    const names = new Set(trades);
    return names.size === trades.length && some.length === trades.length && some.every(({name}) => names.has(name));
}

/** The side whose steps a kind has, and the sign of a cost or a worth there. */
const SIDES = {"seller-many": ["sold", -1n], "buyer-many": ["bought", 1n], maker: ["bought", -1n]};

/** The list of steps of a kind: "sold" or "bought". */
export function listOf(template) {
    return SIDES[template][0];
}

/** A number of a step or an amount of a kind as people say it, and back: what a unit costs, or is worth. */
export function asSaid(template, number) {
    return SIDES[template][1] * number;
}

/**
 * What a firm is, as `{template, numbers}`. `own` are its trades, each with its name and `isSale`. Of a seller, a buyer and a maker the
 * numbers are its `steps`, and `each`, a Map of the amounts; of others they are null.
 */
export function unitTemplateOf(firm, own) {
    const sets = readSets(firm), each = entriesOf(firm.amounts), isPlain = sets.length === itemsOf(firm.sets).length && sets.every(({from}) => from === undefined);
    const template = isPlain && firm.kind === "laminar" && [...each.values()].every(isWhole) ? oneSided(sets, own) ?? madeOf(sets, own) : null;
    if (template === null) return {template: firm.kind === "laminar" ? "laminar" : String(firm.kind ?? ""), numbers: null};
    const counting = sets.find((set) => !isEven(set));
    return {template, numbers: {steps: stepsOf(counting, listOf(template)), each}};
}

/** A seller or a buyer: one set over all of its trades, with steps on its side alone. */
function oneSided(sets, own) {
    if (sets.length !== 1 || !hasAll(sets[0], own)) return null;
    const isSeller = stepsOf(sets[0], "sold").length > 0, isBuyer = stepsOf(sets[0], "bought").length > 0;
    if (isSeller === isBuyer || own.some(({isSale}) => isSale !== isSeller)) return null;
    return isSeller ? "seller-many" : "buyer-many";
}

/** A maker: an even set over all of its trades, and one over its purchases with steps. */
function madeOf(sets, own) {
    const whole = sets.find(isEven), within = sets.find((set) => set !== whole);
    if (sets.length !== 2 || whole === undefined || !hasAll(whole, own) || !hasAll(within, own.filter(({isSale}) => !isSale))) return null;
    return stepsOf(within, "bought").length > 0 && stepsOf(within, "sold").length === 0 ? "maker" : null;
}

/** The members that a kind gives a firm beside its name and note, as plain data. */
export function unitMembersOf(template, {steps, each}, own) {
    const amounts = own.filter(({name}) => each.has(name)).map(({name}) => [name, each.get(name)]), named = (some) => some.map(({name}) => name);
    if (template === "laminar") return {kind: "laminar", amounts, sets: []};
    const list = listOf(template), counted = template === "maker" ? own.filter(({isSale}) => !isSale) : own, set = {trades: named(counted), [list]: steps};
    return {kind: "laminar", amounts, sets: template === "maker" ? [{trades: named(own)}, set] : [set]};
}

/** The numbers with which another kind goes on: of a seller and a maker, whose steps are costs, these stay, and of others there is one step. */
export function unitsGoingOn(template, {template: before, numbers}) {
    const isKept = numbers !== null && template in SIDES && SIDES[before]?.[1] === SIDES[template][1];
    return isKept ? numbers : {steps: [[1n, 0n]], each: new Map()};
}
