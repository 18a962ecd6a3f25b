// The market as it would be where firms are away and trades barred, or have fewer units: states of `session`, and what each firm has in
// one, by `firms`. All numbers are the program's, but for differences of two of them.
import {say} from "../words/say.js";
import {NoAnswer, readAnswer} from "./answer.js";
import {linesAt} from "./firms.js";
import {written} from "./json.js";
import {hasUnits, limitsOf} from "./limits.js";
import {entriesOf, withMember} from "./network.js";
import {countsOn} from "./standing.js";

/** How many edits are asked of one session at most where several do: each state of its answer has the prices of all trades. */
const FEW_EDITS = 256;

/** Of how many trades contributions are asked at most where trades have units: each state of a session is looked for by itself then. */
const MOST_CONTRIBUTING = 1024;

const ALL = ["admit", "*"], BACK = {leave: "join", bar: "admit", admit: "admit"};

/** Whether an edit is among some. */
export function isIn(edits, [does, name, units]) {
    return edits.some((edit) => edit[0] === does && edit[1] === name && edit[2] === units);
}

function isOfFirm([does]) {
    return does === "leave" || does === "join";
}

/** The one of some edits that speaks of the same firm, or the same trade, as another edit; undefined where none does. */
export function alike(edits, edit) {
    return edits.find((each) => each[1] === edit[1] && isOfFirm(each) === isOfFirm(edit));
}

function undone([does, name]) {
    return [BACK[does], name];
}

/**
 * What isn't there is a list of edits `["leave", firm]` and `["bar", trade]`, and `["admit", trade, units]` where fewer units are than the
 * trade has. These lead from one such list to another: who is there again, and who goes.
 */
export function editsBetween(before, after) {
    const back = before.filter((edit) => !alike(after, edit)).map(undone);
    return [...back, ...after.filter((edit) => !isIn(before, edit))];
}

/** How many units of a trade are admitted where some edits say what isn't there. */
export function admittedIn(network, edits, name) {
    const [does, , units = network.capacity(name)] = alike(edits, ["bar", name]) ?? ["admit"];
    return does === "bar" ? 0n : units;
}

/** The edits that say that so many units of a trade are admitted: none where these are all. */
export function admitting(network, name, units) {
    if (units >= network.capacity(name)) return [];
    return [units > 0n ? ["admit", name, units] : ["bar", name]];
}

/** All edits to one such list and on to another, from the market with everybody there. */
export function editsTo(before, after) {
    return [ALL, ...before, ...editsBetween(before, after)];
}

/** Those of some edits that speak of firms and trades which the document has, and of fewer units than a trade has there. */
export function editsOf(network, edits) {
    const firms = new Set(network.firms.map(({name}) => name)), areCounted = hasUnits(network.data);
    const isThere = (name, units) => network.byName.has(name) && (units === undefined || (areCounted && units < network.capacity(name)));
    return edits.filter(([does, name, units]) => (does === "leave" ? firms.has(name) : isThere(name, units)));
}

/**
 * The equilibrium that a document has for a market with everybody there, as `{on, prices}`: its guess, where that is one, or from
 * "sign" what is signed, where that lasts at whole prices, with the prices that complete it. Null where it has none.
 */
export async function ownStart(ask, network, from) {
    if (from === "sign") {
        const said = readAnswer(await ask(["judge"], network.text));
        const lasts = said.answer === "completes" && said.over === 1n;
        return lasts ? {on: [...entriesOf(network.outcome.contracts).keys()], prices: said.prices} : null;
    }
    const {on, prices} = network.arrangement, said = readAnswer(await ask(["check"], network.text));
    return said.answer === "equilibrium" ? {on, prices} : null;
}

/**
 * The market before and after a change, as `{states, said}`: two states of `session`, each `{on, counts, prices, surplus, lines}`, where
 * `counts` says how many of each trade are on, prices are a Map, and `lines` has what `firms` says of each firm there. With everybody
 * there it begins with `start`, where that isn't null: another equilibrium, of the same surplus. Where `session` says something
 * else, `states` is null, and `said` is that. Throws NoAnswer where there would be too many edits.
 */
export async function compared(ask, network, before, after, start = null) {
    const said = await sessionOf(ask, network, editsTo(before, after));
    if (said.answer !== "session") return {states: null, said};
    const then = {...said.edits[before.length], ...(before.length === 0 ? start : null)};
    const now = editsBetween(before, after).length === 0 ? then : said.edits.at(-1);
    return {states: [await stateOf(ask, network, then), await stateOf(ask, network, now)], said};
}

/**
 * A state with what each firm has there, and what that is worth to it. A trade that can't be used has no price there, and is
 * asked about at 0: it is off, so neither a worth nor a utility depends on it, though what a firm would rather have may.
 */
async function stateOf(ask, network, {on, prices: entries, surplus}) {
    const prices = entriesOf(entries), lines = await linesAt(ask, network, on, prices) ?? new Map();
    return {on, counts: countsOn(on), prices, surplus, lines};
}

/**
 * By how much the greatest surplus of a market falls without each firm and each trade that is there, as
 * `{firms, trades}`, each a Map from names to numbers, and beside them as `nothing` what no trade at all is worth to each firm. It is
 * asked in as few sessions as their edits go into; null where there is no session, or one of too many trades with units. Throws NoAnswer
 * where there would be too many edits.
 */
export async function contributions(ask, network, before) {
    if (hasUnits(network.data) && network.trades.length > MOST_CONTRIBUTING) return null;
    const base = [ALL, ...before], most = Math.max(1, Math.floor((FEW_EDITS - base.length) / 2));
    const changes = thereIn(network, before), found = {leave: new Map(), bar: new Map()};
    for (let k = 0; k < changes.length; k += most) {
        const part = changes.slice(k, k + most), edits = part.flatMap((change) => [change, alike(before, change) ?? undone(change)]);
        const said = await sessionOf(ask, network, [...base, ...edits]);
        if (said.answer !== "session") return null;
        const [whole, ...states] = said.edits.slice(base.length - 1);
        part.forEach(([does, name], j) => found[does].set(name, whole.surplus - states[2 * j].surplus));
    }
    const lines = await linesAt(ask, network, []) ?? new Map();
    return {firms: found.leave, trades: found.bar, nothing: new Map([...lines].map(([name, {worth}]) => [name, worth]))};
}

/** The edits that take away one firm that is there, or one trade that can be used. */
function thereIn(network, before) {
    const isThere = (firm) => !isIn(before, ["leave", firm]);
    const usable = network.trades.filter(({seller, buyer}) => isThere(seller) && isThere(buyer));
    const edits = [...network.firms.map(({name}) => ["leave", name]), ...usable.map(({name}) => ["bar", name])];
    return edits.filter((edit) => !isIn(before, edit));
}

/** What `session` says of a document with these edits in place of its own; of one that can't have any, what it says. */
async function sessionOf(ask, network, edits) {
    const {edits: listed, edited} = limitsOf(network), most = edited === undefined ? listed : Math.min(listed, Math.floor(edited / network.trades.length));
    if (edits.length > most) throw new NoAnswer(say("trouble.edits", {count: edits.length, most}));
    const isObject = network.root.kind === "object";
    return readAnswer(await ask(["session"], isObject ? withMember(network, "edits", written(edits)) : network.text));
}
