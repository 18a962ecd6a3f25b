// A document in which a firm counts money in parts: all its numbers are some times as large, so that prices over a denominator
// are whole to it.
import {itemsOf, isObject, Network} from "./network.js";
import {written} from "./json.js";

/** The document of a network in which a firm of some name counts in parts, of which this many are 1. */
export function countedBy(network, name, parts) {
    if (parts === 1n) return network;
    const firms = itemsOf(network.data.firms).map((firm) => (isObject(firm) && firm.name === name ? firmIn(firm, parts) : firm));
    return new Network(written({...network.data, firms}));
}

/** How each member of a firm that has money in it is counted. */
const MEMBERS = {
    keep: (keep, parts) => keep * parts,
    sets: (sets, parts) => sets.map((set) => ({...set, values: set.values.map((value) => value * parts)})),
    rows: lastTimes, pairs: lastTimes, amounts: lastTimes, costs: lastTimes, gains: lastTimes,
};

function firmIn(firm, parts) {
    const counted = Object.entries(MEMBERS).filter(([name]) => firm[name] !== undefined);
    return {...firm, ...Object.fromEntries(counted.map(([name, times]) => [name, times(firm[name], parts)]))};
}

/** Entries that end with a number, which is counted. */
function lastTimes(entries, parts) {
    return entries.map((entry) => [...entry.slice(0, -1), entry.at(-1) * parts]);
}
