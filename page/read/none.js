// Whether a network has no prices: the best plan in parts, in which each firm has shares of bundles that sum to one and each trade is
// bought as much as it is sold, and its prices. Bundles and what they are worth come from `firms`; what is shown is decided by the
// program (Bikhchandani and Mamer, 1997).
import {NoAnswer, readAnswer} from "./answer.js";
import {common, counted, Fraction, ZERO} from "./fractions.js";
import {limitsOf} from "./limits.js";
import {scaledText} from "./scaled.js";
import {Simplex} from "./simplex.js";

/** The network with trades on at prices, which are whole where all numbers are `over` times as large. */
function arranged(network, on, prices) {
    const over = common([...prices.values()]);
    const whole = [...prices].map(([trade, price]) => [trade, counted(price, over)]);
    return {text: scaledText(network, {arrangement: {on, prices: whole}}, over), over};
}

/** What `firms` says with nothing on at prices: each firm's best bundle, with its utility, and the worth of none. */
async function bestAt(network, prices, ask) {
    const {text, over} = arranged(network, [], prices), said = readAnswer(await ask(["firms"], text));
    if (said.answer !== "firms") throw new Unanswered(said);
    return said.firms.map(({worth, best, best_utility: utility}) => ({worth: new Fraction(worth, over), best, utility: new Fraction(utility, over)}));
}

/** The program doesn't answer `firms`, but a fault or something else. */
export class Unanswered extends Error {
    constructor(said) {
        super(said.answer);
        this.said = said;
    }
}

/** The bundles of a network as columns: a row for each firm's shares, and one for each trade, which its seller's bundles raise. */
class Bundles {
    constructor(network) {
        this.network = network;
        this.rows = new Map(network.trades.map(({name}, k) => [name, network.firms.length + k]));
        this.of = [];
    }

    /** A bundle of the firm with this number. */
    column(firm, names, worth) {
        const {network} = this, own = network.firms[firm].name;
        this.of.push({firm, names});
        const signs = names.map((name) => [this.rows.get(name), new Fraction(network.trade(name).seller === own ? 1n : -1n)]);
        return {worth, entries: [[firm, new Fraction(1n)], ...signs]};
    }

    /** The firm's best bundle at prices: its worth is its utility less what the firm is paid for it. */
    best(firm, {best, utility}, prices) {
        const own = this.network.firms[firm].name;
        const isSold = (name) => this.network.trade(name).seller === own;
        return this.column(firm, best, best.reduce((rest, name) => (isSold(name) ? rest.minus(prices.get(name)) : rest.plus(prices.get(name))), utility));
    }
}

/**
 * The best plan, as `{parts, worth, prices}`: parts are `{firm, names, share}` without empty bundles, and at the prices, a Map, no firm
 * has a better bundle than those that it has shares of. It is found by best bundles at prices that get better.
 */
export async function bestPlan(network, ask) {
    const bundles = new Bundles(network);
    let prices = new Map(network.trades.map(({name}) => [name, ZERO])), said = await bestAt(network, prices, ask);
    const program = new Simplex(said.map(({worth}, firm) => bundles.column(firm, [], worth)), said.length + prices.size);
    for (;;) {
        const utilities = program.duals(), wanted = [...said.keys()].filter((firm) => said[firm].utility.isAbove(utilities[firm]));
        if (wanted.length === 0) break;
        for (const firm of wanted) program.add(bundles.best(firm, said[firm], prices));
        program.solve();
        const duals = program.duals();
        prices = new Map([...bundles.rows].map(([name, row]) => [name, ZERO.minus(duals[row])]));
        said = await bestAt(network, prices, ask);
    }
    const parts = program.shares().map(([column, share]) => ({...bundles.of[column], share})).filter(({names}) => names.length > 0);
    parts.sort((one, other) => one.firm - other.firm || (String(one.names) < String(other.names) ? -1 : 1));
    return {parts: parts.map((part) => ({...part, firm: network.firms[part.firm].name})), worth: program.value(), prices};
}

/** The claim that there are no prices by a plan, as plain data. */
function claimOf(network, {parts}) {
    const over = common(parts.map(({share}) => share)), most = limitsOf(network).over;
    if (over > most) throw new NoAnswer(`The plan's shares are over ${over}, and a claim's over ${most} at most.`);
    return {answer: "none", over, plan: parts.map(({firm, names, share}) => [firm, names, counted(share, over)])};
}

/** The document at the plan's prices with trades on that are worth as much, where `firms` says that all are content. */
async function priced(network, on, {prices}, ask) {
    const {text, over} = arranged(network, on, prices), said = readAnswer(await ask(["firms"], text));
    if (said.answer !== "firms") throw new Unanswered(said);
    if (said.content !== BigInt(said.firms.length)) throw new NoAnswer("At the prices that were found not all are content.");
    return {isNone: false, text, over};
}

/**
 * What shows whether there are no prices, as `{isNone, text, over}`: the document with the plan as a claim that `replay` calls valid, or
 * else with trades and prices at which `firms` says that all are content, and all numbers `over` times as large, so that they are whole.
 */
export async function decided(network, plan, ask) {
    if (plan.parts.every(({share}) => share.denominator === 1n)) {
        const on = new Set(plan.parts.flatMap(({names}) => names));
        return priced(network, [...on], plan, ask);
    }
    const text = scaledText(network, {claim: claimOf(network, plan)}), said = readAnswer(await ask(["replay"], text));
    if (said.answer === "valid") return {isNone: true, text, over: 1n};
    if (said.reason === "whole") return priced(network, said.on, plan, ask);
    throw new Unanswered(said);
}
