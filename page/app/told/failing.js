// What is said above the network where a table fails the exchange property, so that there may be no prices.
import {failingOf} from "../../draw/triple.js";
import {say} from "../../words/say.js";
import {isOld, networkOf} from "../document/state.js";

/** Whether an answer is that a table fails the exchange property. */
export function isFailing(said) {
    return said?.answer === "exchange_fails" || (said?.answer === "fault" && said.fault === 16n);
}

/** The sentence for an answer that says so, and for what was found of prices, where that is known: `none` is what `shownNone` answers. */
export function failingLine(network, said, none) {
    const key = none === null ? "verdict.complements" : none.isNone ? "verdict.none" : "verdict.priced";
    return say(key, {firm: failingOf(network, said).firm});
}

/** The verdict in the place of one on a guess that isn't there, where an answer to the present document says so; or null. */
export function failingVerdict(value) {
    const {document, reason, answer} = value, isSo = (told) => isFailing(told?.said) && !isOld(value, told);
    const told = [reason, answer].find(isSo);
    if (told === undefined) return null;
    return {mood: "objects", says: failingLine(networkOf(document), told.said, isSo(reason) ? reason.none ?? null : null)};
}
