// What takes place, and at which prices, by a document and an answer to it.
import {entriesOf, fraction, itemsOf} from "./network.js";
import {say} from "../words/say.js";

const JUDGED = ["drops", "completes", "blocks"];

/** Whether the answer, or the claim that it decides, is one of `judge`. */
function isJudged(network, said) {
    const decided = said.answer === "valid" || said.answer === "invalid";
    return JUDGED.includes(decided ? network.claim.answer : said.answer);
}

/** The units of each trade that has some, by its name, where they are told: then what is on are pairs, and else it is names. */
export function unitsOf(on) {
    return new Map(itemsOf(on).filter((entry) => Array.isArray(entry) && entry[1] !== 0n));
}

/** How many units of each trade are on, by its name; one of each where none are told. */
export function countsOn(on) {
    return new Map(itemsOf(on).map((entry) => (Array.isArray(entry) ? entry : [entry, 1n])));
}

/** The name of a trade in a list, in which it stands with its units, with a step by one unit, or alone; null as it is. */
export function nameOn(entry) {
    return Array.isArray(entry) ? entry[0] : entry;
}

/** The names of the trades in what is on, but for those of which no unit is. */
export function namesOn(on) {
    return itemsOf(on).filter((entry) => !Array.isArray(entry) || entry[1] !== 0n).map((entry) => String(nameOn(entry)));
}

/**
 * As `{on, prices, units, isSigned}`: the names of the trades that take place, or null where nothing says so, the price of each as
 * text, and the units of those of which they are told. An answer's own trades and prices come before those of the document; of an
 * outcome those are on that are signed, and `isSigned` says that it is one.
 */
export function standing(network, said) {
    if (isJudged(network, said)) {
        const {over, contracts} = network.outcome;
        const own = texts(said.prices ? entriesOf(said.prices) : entriesOf(contracts), over), asked = texts(entriesOf(said.contracts), said.over);
        return {on: itemsOf(contracts).map((contract) => String(itemsOf(contract)[0])), prices: new Map([...own, ...asked]), isSigned: true};
    }
    if (said.answer === "session") {
        const last = itemsOf(said.edits).at(-1) ?? {on: [], prices: []};
        return {on: namesOn(last.on), units: unitsOf(last.on), prices: texts(entriesOf(last.prices))};
    }
    const on = said.on ?? network.arrangement.on;
    return {on: Array.isArray(on) ? namesOn(on) : null, units: unitsOf(on),
        prices: texts(entriesOf(said.prices ?? network.arrangement.prices))};
}

function texts(prices, over = 1n) {
    return new Map([...prices].map(([name, price]) => [name, fraction(price, over)]));
}

/** A range of prices in words. */
export function extent({low, high}) {
    if (low === null && high === null) return say("extent.any");
    if (low === high) return String(low);
    if (high === null) return say("extent.or_more", {low});
    return low === null ? say("extent.or_less", {high}) : say("extent.from_to", {low, high});
}
