// Networks whose numbers are all so many times as large, as texts.
import {written} from "./json.js";

/** Where an entry of a firm has its number. */
const NUMBER_AT = {rows: 1, amounts: 1, costs: 1, gains: 1, pairs: 2};

/** A firm to which each bundle is worth so many times as much. */
function scaled(firm, times) {
    const made = {...firm};
    for (const [name, at] of Object.entries(NUMBER_AT)) {
        if (name in firm) made[name] = firm[name].map((entry) => entry.map((part, k) => (k === at ? times * part : part)));
    }
    if ("sets" in firm) made.sets = firm.sets.map((set) => ({...set, values: set.values.map((value) => times * value)}));
    if ("keep" in firm) made.keep = times * firm.keep;
    return made;
}

/** The text of the network alone, with other members and the firms' numbers so many times as large. */
export function scaledText(network, members, times = 1n) {
    const {version, note, firms, trades} = network.data, noted = note === undefined ? {} : {note};
    return written({version, ...noted, firms: times === 1n ? firms : firms.map((firm) => scaled(firm, times)), trades, ...members});
}
