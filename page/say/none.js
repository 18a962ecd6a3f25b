// Whether there are prices that content all where goods are complements, as it is shown in the page: by a plan in parts that `replay`
// calls valid, or by prices at which `firms` says that all are content.
import {planPicture} from "../draw/plan.js";
import {NoAnswer} from "../read/answer.js";
import {parse, plain} from "../read/json.js";
import {fraction, Network} from "../read/network.js";
import {bestPlan, decided, Unanswered} from "../read/none.js";
import {say} from "../words/say.js";
import {planLines} from "./plan.js";
import {listed} from "./words.js";

/** Up to how many trades a plan is looked for. */
const MOST_TRADES = 10;

/**
 * What is shown, as `{isNone, lines, svg, claim, arrangement}`: the claim that shows that there are no prices, or else trades and prices
 * that a guess can have, each null where there is none. Null where there are too many trades, or nothing that `replay` decides.
 */
export async function shownNone(network, ask) {
    if (network.trades.length > MOST_TRADES) return null;
    try {
        const {isNone, text, over} = await decided(network, await bestPlan(network, ask), ask);
        return isNone ? await plan(new Network(text), ask) : prices(new Network(text), over);
    } catch (error) {
        if (error instanceof NoAnswer || error instanceof Unanswered) return null;
        throw error;
    }
}

async function plan(network, ask) {
    const lines = [say("none.none"), ...await planLines(network, ask)];
    return {isNone: true, lines, svg: await planPicture(network, ask), claim: plain(parse(network.text)).claim, arrangement: null};
}

/** Prices that aren't whole are told as they are, and are no guess. */
function prices({arrangement: {on, prices: entries}}, over) {
    const told = entries.map(([trade, price]) => say("none.price", {trade, price: fraction(price, over)}));
    const lines = [say("none.prices", {trades: on.length === 0 ? say("list.none") : listed(on), prices: listed(told)})];
    return {isNone: false, lines, svg: null, claim: null, arrangement: over === 1n ? {on, prices: entries} : null};
}
