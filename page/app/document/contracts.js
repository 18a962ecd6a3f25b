// Changes of the text in its outcome: what is signed, at which numerators, and over which denominator.
import {added, memberOf, withMember, without} from "./edits.js";

/** The outcome of a document as it can be changed, as `{over, contracts}`; `over` is 1 where it has none that is whole. */
export function outcomeOf(network) {
    const {over, contracts} = network.outcome;
    const entries = (Array.isArray(contracts) ? contracts : []).filter((entry) => Array.isArray(entry) && typeof entry[0] === "string");
    return {over: typeof over === "bigint" && over > 0n ? over : 1n, contracts: new Map(entries)};
}

/** Whether a document has an outcome that can be changed. */
export function hasOutcome(network) {
    return partOf(network) !== null;
}

/** The edits that sign trades at numerators, by a Map from names to these in letters; what is signed already gets the new one. */
export function signed(network, prices) {
    const outcome = partOf(network);
    if (outcome === null) return begun(network, prices);
    const list = memberOf(outcome, "contracts", "list");
    if (list === null) return [withMember(outcome, "contracts", entriesText(prices))];
    const places = new Map(entriesIn(list).map(({value: [name, number]}) => [name.value, number]));
    const edits = [], missing = new Map();
    for (const [name, price] of prices) {
        const place = places.get(name);
        if (!place) missing.set(name, price);
        else if (network.text.slice(place.start, place.end) !== price) edits.push({start: place.start, end: place.end, text: price});
    }
    return missing.size === 0 ? edits : [...edits, added(list, entriesText(missing).slice(1, -1))];
}

/** The edits that take a contract away. */
export function unsigned(network, name) {
    const outcome = partOf(network), list = outcome === null ? null : memberOf(outcome, "contracts", "list");
    return list === null ? [] : without(list, ({kind, value}) => kind === "list" && value[0]?.value === name);
}

/** The edits that sign exactly some trades, over a denominator. */
export function signedAs(network, over, prices) {
    const outcome = partOf(network);
    if (outcome === null) return begun(network, prices, over);
    const parts = {over: String(over), contracts: entriesText(prices)}, edits = [];
    for (const [name, text] of Object.entries(parts)) {
        const {start, end} = outcome.value.get(name) ?? {};
        if (start === undefined) return [{start: outcome.start, end: outcome.end, text: outcomeText(over, prices)}];
        if (network.text.slice(start, end) !== text) edits.push({start, end, text});
    }
    return edits;
}

/** The edits that count the same prices over another denominator; null where one isn't whole then. */
export function countedOver(network, over) {
    const {over: before, contracts} = outcomeOf(network);
    const scaled = [...contracts].map(([name, price]) => [name, typeof price === "bigint" ? price * over : null]);
    if (scaled.some(([, price]) => price === null || price % before !== 0n)) return null;
    const prices = new Map(scaled.map(([name, price]) => [name, String(price / before)]));
    const outcome = partOf(network), place = outcome?.value.get("over");
    if (!place) return signedAs(network, over, prices);
    return [...(over === before ? [] : [{start: place.start, end: place.end, text: String(over)}]), ...signed(network, prices)];
}

function partOf(network) {
    return network.root.kind === "object" ? memberOf(network.root, "outcome", "object") : null;
}

function entriesIn(list) {
    return list.value.filter(({kind, value}) => kind === "list" && value[0]?.kind === "text" && value[1]);
}

function begun(network, prices, over = 1n) {
    if (network.root.kind !== "object" || network.trades.length === 0) return [];
    return [withMember(network.root, "outcome", outcomeText(over, prices))];
}

function outcomeText(over, prices) {
    return `{"over":${over},"contracts":${entriesText(prices)}}`;
}

function entriesText(prices) {
    return `[${[...prices].map(([name, price]) => `[${JSON.stringify(name)},${price}]`).join(",")}]`;
}
