// By which version of the format a document may have what stands in it.
import {limitsOf, UNIT_LIMITS, UNIT_VERSION, VERSIONS} from "../../read/limits.js";
import {itemsOf, isObject} from "../../read/network.js";
import {memberOf, replaced} from "./edits.js";

/** What of a document has a limit: the most of each that stands in it. */
function extentOf({firms, trades, edits, data}) {
    const own = new Map();
    for (const firm of trades.flatMap(({seller, buyer}) => [seller, buyer])) own.set(firm, (own.get(firm) ?? 0) + 1);
    const objects = itemsOf(data.firms).filter(isObject), sets = objects.flatMap((firm) => itemsOf(firm.sets)).filter(isObject);
    const most = (numbers) => numbers.reduce((least, number) => (number > least ? number : least), 0);
    const free = objects.filter(({kind}) => kind !== "table").map(({name}) => own.get(name) ?? 0);
    const amounts = objects.flatMap(numbersIn).map((number) => (number < 0n ? -number : number));
    return {most: Math.max(firms.length, trades.length), own: most(free), edits: edits.length, values: most(sets.map(({values}) => itemsOf(values).length)),
        farthest: most(sets.map(({from}) => Math.abs(Number(from ?? 0)))), amount: amounts.reduce((one, other) => (other > one ? other : one), 0n)};
}

/** All whole numbers in a value. */
function numbersIn(value) {
    if (typeof value === "bigint") return [value];
    return Array.isArray(value) ? value.flatMap(numbersIn) : isObject(value) ? Object.values(value).flatMap(numbersIn) : [];
}

/** The first later version that has room for a document for which its own has none, as edits; none where there isn't one. */
export function raised(network) {
    const extent = extentOf(network), fits = (limits) => Object.entries(extent).every(([name, size]) => size <= limits[name]);
    const version = memberOf(network.root, "version", "number"), now = network.data.version;
    if (version === null || !VERSIONS.has(now) || fits(limitsOf(network))) return [];
    const next = [...VERSIONS].find(([name, limits]) => name > now && fits(limits));
    return next ? replaced(version, String(next[0])) : [];
}

/** Whether the trades of a document can be given units: its version has none, all its firms are laminar, and no number is too large then. */
export function mayHaveUnits(network) {
    const {data} = network, extent = extentOf(network), isWithin = (name) => extent[name] <= UNIT_LIMITS[name];
    return VERSIONS.has(data.version) && network.firms.every(({kind}) => kind === "laminar") && ["most", "values", "farthest", "amount"].every(isWithin);
}

/** The edits that make it a document whose trades have units, one each at first. */
export function withUnits(network) {
    const arrangement = memberOf(network.root, "arrangement", "object"), on = arrangement === null ? null : memberOf(arrangement, "on", "list");
    const entries = (on?.value ?? []).filter(({kind}) => kind === "text").flatMap((item) => replaced(item, `[${JSON.stringify(item.value)},1]`));
    return [...replaced(memberOf(network.root, "version", "number"), String(UNIT_VERSION)), ...entries];
}
