// An answer of `session` in sentences.
import {hasUnits} from "../read/limits.js";
import {entriesOf, itemsOf} from "../read/network.js";
import {nameOn} from "../read/standing.js";
import {say} from "../words/say.js";
import {Deals, listed} from "./words.js";

/** A sentence for each edit, and its state. */
export function sessionLines({edits: states}, network) {
    if (states.length === 0) return [say("session.nothing")];
    const isOfFirms = network.edits.some(isOfFirm);
    return [say(isOfFirms ? "session.first_firms" : "session.first"),
        ...states.map((state, k) => `${k + 1}. ${edit(network.edits[k])}. ${standing(state, network, isOfFirms)}`)];
}

function isOfFirm(words) {
    return ["leave", "join"].includes(itemsOf(words)[0]);
}

const EDITS = {leave: "session.leaves", join: "session.joins", admit: "session.admitted", bar: "session.barred"};

/** An edit as a sentence without its point. */
export function edit(words) {
    const [act, name, units] = itemsOf(words), key = EDITS[act] ?? EDITS.bar;
    if (units !== undefined) return say("session.admitted_units", {name, count: String(units)});
    if (name === "*" && key === EDITS.admit) return say("session.all_admitted");
    return name === "*" && key === EDITS.bar ? say("session.all_barred") : say(key, {name});
}

/**
 * What is on in a state, at its prices, what its other prices keep off, and the sum of its worths. Where firms may be
 * away, a trade that is admitted need not be one that can be used.
 */
function standing({on, prices, surplus}, network, isOfFirms) {
    const stands = {on: on.map(nameOn), prices: new Map([...entriesOf(prices)].map(([name, price]) => [name, String(price)]))};
    const deals = new Deals(network, {}, stands), isCounted = hasUnits(network.data);
    const trading = on.length === 0 ? say("deal.nothing") : `${listed(deals.clauses(on))}.`;
    const off = deals.off.filter((name) => deals.prices.has(name)), trades = deals.priced(off);
    const rest = off.length === 0 ? [] : [say(isOfFirms ? "session.off_usable" : "session.off_admitted", {trades})];
    const sum = isCounted ? "session.sum_units" : isOfFirms ? "session.sum_usable" : "session.sum_admitted";
    return [trading, ...rest, say(sum, {surplus})].join(" ");
}
