// Changes of the text in a firm by the template that it is of, and what templates do where a trade comes or goes.
import {plain, written} from "../../read/json.js";
import {hasUnits} from "../../read/limits.js";
import {Network} from "../../read/network.js";
import {unitMembersOf, unitsGoingOn, unitTemplateOf} from "../../read/steps.js";
import {amountFor, countedBy, goingOn, membersOf, setOf, sideOf, templateOf} from "../../read/templates.js";
import {itemsIn, numbered, objectsIn, textAt} from "./building.js";
import {added, applied, memberOf, put, replaced, without} from "./edits.js";

/** The trades of a firm. */
function ownOf(network, firm) {
    return network.ownTrades(textAt(firm, "name"));
}

/** The template of a firm, with its numbers. */
export function kindOf(network, firm) {
    const read = hasUnits(network.data) ? unitTemplateOf : templateOf;
    return read(plain(firm), ownOf(network, firm));
}

/** The members of a firm that becomes one of a template, with the numbers that go along. */
function membersFor(network, template, before, own) {
    if (hasUnits(network.data)) return unitMembersOf(template, unitsGoingOn(template, before), own);
    return membersOf(template, goingOn(template, before, own), own);
}

/** A new firm of a template, as text. */
export function textOfNew(network, name, template) {
    return written({name, ...membersFor(network, template, {template: "", numbers: null}, [])});
}

/** Whether something is said of a firm that another template wouldn't keep. */
export function wouldLose(network, firm, template) {
    const before = kindOf(network, firm), hasSets = memberOf(firm, "sets", "list")?.value.length > 0;
    if (hasUnits(network.data)) return unitsWouldGo(firm, before, template);
    const isKept = sideOf(template) !== null && (sideOf(before.template) === sideOf(template) || (before.template === "laminar" && !hasSets));
    const isListed = ["rows", "amounts", "costs", "gains", "pairs"].some((list) => memberOf(firm, list, "list")?.value.length > 0);
    const isSaid = isListed || firm.value.get("keep")?.kind === "number";
    return !isKept && (isSaid || (before.template === "laminar" ? hasSets : hasNumbers(before)));
}

/** The same where trades have units: a seller and a maker keep their steps as each other. */
function unitsWouldGo(firm, {template: before, numbers}, template) {
    const isAny = (list) => (memberOf(firm, list, "list")?.value.length ?? 0) > 0;
    if (numbers === null) return isAny("amounts") || isAny("sets");
    const isKept = unitsGoingOn(template, {template: before, numbers}) === numbers;
    return !isKept && (isAny("amounts") || numbers.steps.some(([count, adds]) => count !== 1n || adds !== 0n));
}

function hasNumbers({numbers}) {
    return numbers !== null && (numbers.first !== 0n || numbers.further.some((number) => number !== 0n));
}

/** The edits that make a firm one of another template: its name and note stay, and those of its numbers that the template has. */
export function asTemplate(network, firm, template) {
    const own = ownOf(network, firm), before = kindOf(network, firm);
    const each = new Map(itemsIn(firm, "amounts").map(({value: [name, number]}) => [name?.value, plain(number)]));
    const members = membersFor(network, template, {...before, each}, own);
    const kept = ["name", "note"].filter((name) => firm.value.has(name)).map((name) => {
        const {start, end} = firm.value.get(name);
        return `${JSON.stringify(name)}:${network.text.slice(start, end)}`;
    });
    return replaced(firm, `{${[...kept, written(members).slice(1, -1)].join(",")}}`);
}

/** The edits that give a firm of a template other numbers in its set. */
function setPut(network, firm, {template, numbers}) {
    const side = sideOf(template), set = countingSet(firm, template), {from, values} = setOf(side, numbers);
    if (set === null) return put(firm, "sets", written(membersOf(template, numbers, ownOf(network, firm)).sets));
    return [...put(set, "from", `${from}`), ...put(set, "values", written(values))];
}

/** The set whose numbers, or steps, a template has: of a maker the one that isn't over all of its trades. */
export function countingSet(firm, template) {
    const sets = (memberOf(firm, "sets", "list")?.value ?? []).filter(({kind}) => kind === "object");
    const countOf = (set) => memberOf(set, set.value.has("from") ? "values" : "bought", "list")?.value.length ?? 0;
    const isWhole = (set) => sideOf(template) === "maker" && countOf(set) === (set.value.has("from") ? 1 : 0);
    return sets.find((set) => !isWhole(set)) ?? null;
}

/** The edits that say what each unit of a firm costs or is worth, for all trades alike. */
export function firstPut(network, firm, kind, text) {
    const list = memberOf(firm, "amounts", "list"), isMaker = sideOf(kind.template) === "maker";
    const cleared = list === null || isMaker ? [] : without(list, () => true);
    return [...cleared, ...setPut(network, firm, {...kind, numbers: {...kind.numbers, first: BigInt(text)}})];
}

/** The edits that give the further units of a firm other numbers, and as many as there are then. */
export function furtherPut(network, firm, kind, further) {
    return setPut(network, firm, {...kind, numbers: {...kind.numbers, further}});
}

/** The edits that say what one trade of a firm costs or is worth. */
export function eachPut(firm, {template, numbers}, trade, text) {
    return numbered(firm, "amounts", trade, String(amountFor(template, numbers, BigInt(text))));
}

/**
 * Edits that change trades, after which each firm that a template made has the template for its new trades too: as some edits, or
 * as one where some follow from others.
 */
export function settled(network, edits) {
    const next = new Network(applied(network.text, edits)), before = new Map(objectsIn(network, "firms").map(({node, name}) => [name, kindOf(network, node)]));
    const more = objectsIn(next, "firms").flatMap(({node, name}) => joining(next, node, before.get(name)));
    return more.length === 0 ? edits : difference(network.text, applied(next.text, more));
}

/** The edits that put the trades of a firm into the sets of its template, where they lack some. */
function joining(network, firm, kind) {
    const side = kind === undefined ? null : sideOf(kind.template), own = ownOf(network, firm);
    if (side === null) return [];
    const set = countingSet(firm, kind.template), sets = (memberOf(firm, "sets", "list")?.value ?? []);
    if (set === null) return countedBy(side, own).length > 1 ? setPut(network, firm, kind) : [];
    const whole = sets.filter((each) => each !== set).flatMap((each) => lacking(each, own.map(({name}) => name)));
    return [...lacking(set, countedBy(side, own)), ...whole];
}

/** The edit that puts into a set what it lacks of some trades. */
function lacking(set, names) {
    const list = memberOf(set, "trades", "list"), there = new Set(list?.value.map(({value}) => value)), missing = names.filter((name) => !there.has(name));
    return list === null || missing.length === 0 ? [] : [added(list, missing.map((name) => JSON.stringify(name)).join(","))];
}

/** The one edit that makes a text of another. */
function difference(before, after) {
    let start = 0, same = 0;
    const most = Math.min(before.length, after.length);
    while (start < most && before[start] === after[start]) start += 1;
    while (same < most - start && before[before.length - 1 - same] === after[after.length - 1 - same]) same += 1;
    return [{start, end: before.length - same, text: after.slice(start, after.length - same)}];
}
