// Changes of the text in its firms and trades. What is said of a trade or firm elsewhere goes along when that is renamed
// or removed.
import {hasUnits} from "../../read/limits.js";
import {added, memberOf, put, replaced, without} from "./edits.js";

/** What a name may be. */
export const NAME = /^[A-Za-z0-9_.-]{1,32}$/;

/** A document without firms and trades. */
export const EMPTY = '{"version":1,\n "firms":[],\n "trades":[]}\n';

/** Where firms and trades are named, by steps from the top; * is each item. */
const FIRMS_NAMED = ["firms * name", "trades * seller", "trades * buyer", "claim firm"];
const TRADES_NAMED = [
    "trades * name", "firms * rows * 0 *", "firms * amounts * 0", "firms * sets * trades *", "firms * costs * 0",
    "firms * gains * 0", "firms * pairs * 0", "firms * pairs * 1", "arrangement on *", "arrangement on * 0", "arrangement prices * 0",
    "outcome contracts * 0", "edits * 1", "claim on *", "claim bundle *", "claim keeps *", "claim x *", "claim y *", "claim at",
    "claim nodes *", "claim prices * 0", "claim contracts * 0"];

/** The lists of a firm, and those beside it, whose items go with a trade, each with where an item names it. */
const OF_A_FIRM = [
    ["rows", ["0 *"]], ["amounts", ["0"]], ["sets * trades", [""]], ["costs", ["0"]], ["gains", ["0"]], ["pairs", ["0", "1"]]];
const OF_THE_TOP = [
    ["arrangement on", ["", "0"]], ["arrangement prices", ["0"]], ["outcome contracts", ["0"]], ["edits", ["1"]]];

/** The nodes that steps lead to. */
function nodesAt(node, steps) {
    const next = (nodes, step) => nodes.flatMap((each) => nextOf(each, step));
    return steps.split(" ").filter(Boolean).reduce(next, [node]);
}

function nextOf({kind, value}, step) {
    if (kind === "list") return step === "*" ? value : value[step] ? [value[step]] : [];
    return kind === "object" && value.has(step) ? [value.get(step)] : [];
}

/** The firms or the trades of a document that are objects, as nodes with their names. */
export function objectsIn(network, list) {
    const nodes = nodesAt(network.root, `${list} *`).filter(({kind}) => kind === "object");
    return nodes.map((node) => ({node, name: textAt(node, "name")}));
}

/** The text of a member, "" where it is none. */
export function textAt(object, name) {
    return memberOf(object, name, "text")?.value ?? "";
}

/** Another item of a list of the top, on a line of its own. */
function another(network, name, text) {
    const list = memberOf(network.root, name, "list"), line = `\n  ${text}`;
    return list === null ? put(network.root, name, `[${line}]`) : [added(list, line)];
}

/** A name that no other has, from a first one on. */
export function freeName(names, first, ending) {
    for (let k = 1; ; k += 1) {
        const name = first.slice(0, 27) + ending(k);
        if (!names.includes(name)) return name;
    }
}

/** The edits that add a firm by its text. */
export function firmAdded(network, text) {
    return another(network, "firms", text);
}

/** The edits that add a trade, with a price of 0 where others have one, and of one unit where trades have units. */
export function tradeAdded(network, name, seller, buyer) {
    const [says, from, to] = [name, seller, buyer].map((each) => JSON.stringify(each));
    const prices = nodesAt(network.root, "arrangement prices").filter(({kind}) => kind === "list");
    const text = `{"name":${says},"seller":${from},"buyer":${to}${hasUnits(network.data) ? ',"units":1' : ""}}`;
    return [...another(network, "trades", text), ...prices.map((list) => added(list, `[${says},0]`))];
}

/**
 * The edits that give a firm, or a trade, another name, wherever it is named; of several with one name this one alone gets the
 * new one.
 */
export function renamed(network, list, object, to) {
    const from = textAt(object, "name"), same = objectsIn(network, list).filter(({name}) => name === from);
    if (same.length > 1) return put(object, "name", JSON.stringify(to));
    const places = list === "firms" ? FIRMS_NAMED : TRADES_NAMED;
    const nodes = places.flatMap((steps) => nodesAt(network.root, steps)).filter((node) => names(node, [from]));
    return nodes.flatMap((node) => replaced(node, JSON.stringify(to)));
}

/** Whether a node is one of some names. */
function names({kind, value}, some) {
    return kind === "text" && some.includes(value);
}

/** The edits that take out of some lists below a node what names some trades. */
function forgotten(node, lists, trades) {
    const isGone = (item, places) => places.some((steps) => nodesAt(item, steps).some((each) => names(each, trades)));
    return lists.flatMap(([steps, places]) => nodesAt(node, steps).filter(({kind}) => kind === "list")
        .flatMap((list) => without(list, (item) => isGone(item, places))));
}

/** The edits that remove some trades, and all that is said of them but a claim. */
export function tradesRemoved(network, trades, but = null) {
    const list = memberOf(network.root, "trades", "list"), gone = trades.map((trade) => textAt(trade, "name"));
    if (list === null || trades.length === 0) return [];
    const firms = objectsIn(network, "firms").filter(({node}) => node !== but);
    return [...without(list, (item) => trades.includes(item)), ...firms.flatMap(({node}) => forgotten(node, OF_A_FIRM, gone)),
        ...forgotten(network.root, OF_THE_TOP, gone)];
}

/** The edits that remove a firm with its trades. */
export function firmRemoved(network, firm) {
    const name = textAt(firm, "name"), isIts = (trade) => [textAt(trade, "seller"), textAt(trade, "buyer")].includes(name);
    const trades = objectsIn(network, "trades").map(({node}) => node).filter(isIts), list = memberOf(network.root, "firms", "list");
    return [...without(list, (item) => item === firm), ...tradesRemoved(network, trades, firm)];
}

/**
 * The edits that give a trade another seller or buyer; where that is its other end, the two change places. A firm whose side
 * of it changes forgets what it says of it.
 */
export function moved(network, trade, side, firm) {
    const before = {seller: textAt(trade, "seller"), buyer: textAt(trade, "buyer")}, other = side === "seller" ? "buyer" : "seller";
    const after = {...before, [side]: firm, ...(before[other] === firm ? {[other]: before[side]} : {})};
    const changed = ["seller", "buyer"].filter((end) => after[end] !== before[end]);
    const isTouched = ({name}) => changed.some((end) => before[end] === name || after[end] === name);
    const firms = objectsIn(network, "firms").filter(isTouched);
    return [...changed.flatMap((end) => put(trade, end, JSON.stringify(after[end]))),
        ...firms.flatMap(({node}) => forgotten(node, OF_A_FIRM, [textAt(trade, "name")]))];
}

/** The edits that add items to a list of a firm. */
export function itemsAdded(firm, name, texts) {
    const list = memberOf(firm, name, "list"), text = texts.join(",");
    return list === null ? put(firm, name, `[${text}]`) : [added(list, text)];
}

/** The edits that add an item to a list of a firm. */
export function itemAdded(firm, name, text) {
    return itemsAdded(firm, name, [text]);
}

/** The edits that take an item out of a list of a firm. */
export function itemRemoved(firm, name, item) {
    return without(memberOf(firm, name, "list"), (each) => each === item);
}

/** The edits that put a trade into a list of trades, or take it out. */
export function toggled(list, trade, isIn) {
    return isIn ? [added(list, JSON.stringify(trade))] : without(list, ({value}) => value === trade);
}

/** The edits that write the number of a trade in a firm's list of entries. */
export function numbered(firm, name, trade, text) {
    const entry = itemsIn(firm, name).find(({value: [first, number]}) => first?.value === trade && number);
    return entry ? replaced(entry.value[1], text) : itemAdded(firm, name, `[${JSON.stringify(trade)},${text}]`);
}

/** The items of a list of a firm that are lists themselves. */
export function itemsIn(firm, name) {
    return (memberOf(firm, name, "list")?.value ?? []).filter(({kind}) => kind === "list");
}

/** The edits that give a set numbers from one net count to another; where there was none, the nearest one is taken. */
export function stretched(network, set, from, to) {
    const first = Number(memberOf(set, "from", "number")?.value.text ?? 0), list = memberOf(set, "values", "list");
    const texts = (list?.value ?? []).map(({start, end}) => network.text.slice(start, end));
    const nearest = (count) => texts[Math.min(Math.max(count - first, 0), texts.length - 1)] ?? "0";
    const made = Array.from({length: to - from + 1}, (_, k) => nearest(from + k));
    return [...put(set, "from", `${from}`), ...put(set, "values", `[${made.join(",")}]`)];
}
