// Faults of limits: which limit it is, what was counted or written, and which version has room for it.
import {hasUnits, limitsOf, UNIT_LIMITS, VERSIONS} from "../read/limits.js";
import {isObject, itemsOf} from "../read/network.js";
import {say} from "../words/say.js";
import {large, numeral, quoted} from "./words.js";

/** The limits of counts and of `from`, by the member that has them: the text, and what the limit is of a version's. */
const OF_MEMBERS = {
    firms: ["limit.firms", ({most}) => most], trades: ["limit.trades", ({most}) => most], edits: ["limit.edits", ({edits}) => edits],
    nodes: ["limit.nodes", ({most}) => most + 1], sets: ["limit.sets", () => 64], values: ["limit.values", ({values}) => values],
    from: ["limit.from", ({farthest}) => farthest], plan: ["limit.plan", () => 1024],
};

/** The limits of lists where trades have units, by the member that is the list. */
const OF_UNITS = {...OF_MEMBERS, trades: ["limit.trades", ({trades}) => trades], bought: ["limit.steps", ({steps}) => steps],
    sold: ["limit.steps", ({steps}) => steps]};

/** The limits of how many trades a firm has, by its kind. */
const OF_KINDS = {table: ["limit.table", () => 14], laminar: ["limit.laminar", ({own}) => own], middleman: ["limit.middleman", ({own}) => own],
    dealer: ["limit.dealer", ({own}) => own]};

/** The limit that a count or a number keeps, by where it stands. */
export function limitLine(network, place, value) {
    const last = place[place.length - 1], firm = place[0] === "firms" && place.length > 1 ? network.firms[Number(place[1])] : null;
    const own = firm ? network.trades.filter(({seller, buyer}) => seller === firm.name || buyer === firm.name).length : 0;
    if (last === "rows") return say("limit.rows", {count: value.length, own, bundles: large(2 ** own - 1)});
    if (place.length === 1 && last === "claim") return say("limit.plan_trades", {count: network.trades.length});
    if (hasUnits(network.data)) return unitLimitLine(network, place, value);
    if (typeof last === "string") return boundLine(network, OF_MEMBERS[last], last === "from" ? value : itemsOf(value).length);
    return firm ? boundLine(network, OF_KINDS[firm.kind], own) : null;
}

/** The same where trades have units. */
function unitLimitLine(network, place, value) {
    const last = place[place.length - 1], version = String(network.data.version), {sets, trades, units, holding} = UNIT_LIMITS;
    if (typeof last !== "string") return say("limit.holding", {trade: quoted(heldIn(network, place, value)), version, most: holding});
    if (last === "edits" && value.length <= UNIT_LIMITS.edits) {
        return say("limit.edited", {count: value.length, trades: network.trades.length, version, most: large(UNIT_LIMITS.edited)});
    }
    if (last === "sets") return say("limit.all_sets", {count: setsBefore(network, place), version, most: large(sets)});
    if (last !== "trades" || value.length > trades) return boundLine(network, OF_UNITS[last], last === "from" ? value : value.length);
    return say("limit.all_units", {count: large(unitsIn(value)), version, most: large(units)});
}

/** The first trade of a set that is in as many earlier sets of the firm as it may be in. */
function heldIn(network, place, {trades}) {
    const earlier = itemsOf(network.data.firms[Number(place[1])].sets).slice(0, Number(place[3]));
    return trades.find((name) => earlier.filter((set) => set.trades.includes(name)).length >= UNIT_LIMITS.holding);
}

/** How many sets a firm has, with those of the firms before it. */
function setsBefore(network, place) {
    return itemsOf(network.data.firms).slice(0, Number(place[1]) + 1).reduce((count, {sets}) => count + itemsOf(sets).length, 0);
}

/** How many units trades have together. */
function unitsIn(trades) {
    return trades.filter(isObject).reduce((count, {units}) => count + Number(units ?? 1), 0);
}

/** A limit with what was found, and the first version that has room for it, where one has. */
function boundLine(network, bound, count) {
    if (bound === undefined) return null;
    const [key, of] = bound, size = Math.abs(Number(count)), {version} = network.data;
    const wider = [...VERSIONS.keys()].find((each) => each > version && size <= of(VERSIONS.get(each)));
    const told = say(key, {count, version: String(version), most: large(of(limitsOf(network)))});
    return wider === undefined || key === "limit.nodes" ? told : say("limit.wider", {told, version: wider, most: large(of(VERSIONS.get(wider)))});
}

/** The range of a number that is out of it, by where it stands. */
export function rangeLine(network, place, number) {
    const [part, member] = place, value = numeral(number), {amount, price, over, units} = limitsOf(network);
    if (place.at(-1) === "units") return say("beyond.units", {value, most: large(units)});
    if (isOfStep(place) && place.at(-1) === 0n) return say("beyond.step_units", {value, most: large(units)});
    if (part === "firms") return say("beyond.amount", {value, version: String(network.data.version), most: large(amount)});
    if (part === "edits") return countLine(network, network.data.edits[Number(member)][1], value);
    if (part === "arrangement" && member === "on") return countLine(network, network.data.arrangement.on[Number(place[2])][0], value);
    if (part === "arrangement") return say("beyond.price", {value, most: large(price)});
    if (part === "outcome") return say("beyond.numerator", {value});
    return member === "plan" ? say("beyond.weight", {value, most: large(over)}) : say("beyond.claim", {value});
}

/** More units of a trade than it has, or fewer than none. */
function countLine(network, name, value) {
    const {units} = network.data.trades.find((trade) => trade.name === name);
    return say("beyond.count", {value, trade: quoted(name), most: large(units ?? 1n)});
}

/** Whether a place is in a step of a set, whose first value is how many units and whose second is what each adds. */
export function isOfStep(place) {
    return ["bought", "sold"].includes(place.at(-3));
}

/** The range of a denominator. */
export function overLine(network, place, value) {
    return place[0] === "claim" ? say("beyond.claim_over", {value: numeral(value), most: large(limitsOf(network).over)})
        : say("beyond.outcome_over", {value: numeral(value)});
}
