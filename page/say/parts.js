// Faults of what a firm's parts say together: rows and pairs that stand twice, sets, and a trade within one firm.
import {say} from "../words/say.js";
import {isOfStep} from "./bounds.js";
import {partAt} from "./references.js";
import {quoted, set} from "./words.js";

export function selfTradeLine(network, place, {name, seller}) {
    return say("part.itself", {trade: quoted(name), firm: quoted(seller)});
}

/** A bundle that an earlier row has. Each row before has its own trades once, so equal bundles are as long. */
export function sameBundleLine(network, place, [bundle]) {
    const names = new Set(bundle), rows = partAt(network, place.slice(0, -1));
    const first = rows.findIndex(([trades]) => trades.length === bundle.length && trades.every((name) => names.has(name)));
    return say("part.bundle", {first, bundle: quoted(set(bundle))});
}

export function noZeroLine(network, place, {from, values}) {
    return values.length === 0 ? say("part.no_values") : say("part.no_zero", {from, last: from + BigInt(values.length) - 1n});
}

/** Two sets with some trades in common, of which neither contains the other. */
export function crossingLine(network, place, {trades}) {
    const sets = partAt(network, place.slice(0, -1)), common = (other) => trades.filter((name) => other.trades.includes(name));
    const crosses = (other) => common(other).length > 0 && common(other).length < Math.min(trades.length, other.trades.length);
    const first = sets.findIndex(crosses);
    return say("part.crosses", {first, common: quoted(set(common(sets[first])))});
}

export function bentLine(network, place, value) {
    if (isOfStep(place)) return risingLine(network, place, value);
    const at = Number(place[place.length - 1]), values = partAt(network, place.slice(0, -1));
    return say("part.bent", {value, before: values[at - 1], after: values[at + 1]});
}

/** A step that adds more than the one before it, or more than the first one of the other list takes away. */
function risingLine(network, place, value) {
    const at = Number(place.at(-2)), set = partAt(network, place.slice(0, -3));
    return at > 0 ? say("part.rising", {value, before: set[place.at(-3)][at - 1][1]})
        : say("part.rising_at_none", {value, bought: set.bought[0][1]});
}

export function failsLine(network, place, value, {x, y}) {
    return say("part.fails", {x: quoted(set(x)), y: quoted(set(y))});
}

export function samePairLine(network, place, [purchase, sale]) {
    const first = partAt(network, place.slice(0, -1)).findIndex((pair) => pair[0] === purchase && pair[1] === sale);
    return say("part.pair", {purchase: quoted(purchase), sale: quoted(sale), first});
}
