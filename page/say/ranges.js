// Ranges of prices in sentences.
import {changesAlong} from "../read/changes.js";
import {costs} from "../read/firms.js";
import {hasUnits} from "../read/limits.js";
import {extent} from "../read/standing.js";
import {say} from "../words/say.js";
import {changeWith} from "./changes.js";
import {listed} from "./words.js";

/** An answer of `range`. Parallel trades with the same range that are held by the same firms have one sentence. */
export async function rangeLines({on, ranges}, network, ask) {
    const groups = groupsOf(network, ranges);
    const paths = groups.flatMap(([{low_path: below, high_path: above}]) => [below, above]).map((nodes) => changesAlong(network, on, nodes));
    const known = await costs(ask, network, on, paths.flat());
    const told = paths.map((changes) => changes.map((change) => changeWith(change, known.shift())).join("; "));
    const isBounded = (side) => ranges.length > 0 && ranges.every((range) => range[side] !== null);
    const lines = groups.flatMap((group, k) => groupLines(group, network, told[2 * k], told[2 * k + 1]));
    return [say("range.head"), ...lines,
        bestLine(on, network),
        ...(isBounded("high") ? [say("range.highest")] : []), ...(isBounded("low") ? [say("range.lowest")] : [])];
}

/** That nothing has a greater sum of worths than what is on. */
function bestLine(on, network) {
    if (!hasUnits(network.data)) return on.length === 0 ? say("range.best_none") : say("range.best", {trades: listed(on)});
    return on.length === 0 ? say("range.best_no_units") : say("range.best_units", {units: listed(on.map(([trade, count]) => say("range.units", {trade, count})))});
}

function groupLines(group, network, below, above) {
    const [range] = group, {seller, buyer} = network.trade(range.trade),
        values = {seller, buyer, trade: range.trade, range: words(range)};
    const told = [group.length === 1 ? say("range.one", values)
        : say("range.several", {...values, trades: listed(group.map(({trade}) => trade))})];
    if (range.low !== null) told.push(`  ${say("range.not_below", {price: range.low, changes: below})}`);
    if (range.high !== null) told.push(`  ${say("range.not_above", {price: range.high, changes: above})}`);
    return told;
}

function words(range) {
    return range.low !== null && range.low === range.high ? say("range.only", {price: range.low}) : extent(range);
}

function groupsOf(network, ranges) {
    const groups = new Map();
    for (const range of ranges) {
        const {seller, buyer} = network.trade(range.trade);
        const key = JSON.stringify([seller, buyer, String(range.low), String(range.high)]);
        groups.set(key, [...(groups.get(key) ?? []), range]);
    }
    return [...groups.values()];
}
