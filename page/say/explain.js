// An answer to a document in sentences. They hold no numbers but those of the document, of the answer, and of what `firms` answers.
import {hasUnits} from "../read/limits.js";
import {fraction} from "../read/network.js";
import {simplest} from "../read/simpler.js";
import {say} from "../words/say.js";
import {claimed, failed} from "./claims.js";
import {failingLines} from "./exchange.js";
import {faultLines} from "./faults.js";
import {planLines, refusedLines} from "./plan.js";
import {rangeLines} from "./ranges.js";
import {sessionLines} from "./session.js";
import {contractOf, storyOf} from "./story.js";
import {Deals, listed} from "./words.js";

/** The sentences, one a line. `ask` runs the program, or is null. */
export async function explain(network, said, ask) {
    const tell = ANSWERS[said.answer];
    return tell ? tell(said, network, ask) : [say("answer.unknown", {answer: said.answer})];
}

function trading(network, said) {
    const deals = new Deals(network, said);
    return [...(deals.on.length === 0 ? [say("deal.nothing")] : deals.clauses(deals.on).map((clause) => `${clause}.`)),
        ...keepingOff(deals)];
}

function keepingOff(deals) {
    return deals.off.length === 0 ? [] : [say("deal.keep_off", {trades: deals.priced(deals.off)})];
}

function signed(deals) {
    return deals.on.length === 0 ? say("deal.nothing_signed")
        : say("deal.signed", {contracts: listed(deals.clauses(deals.on))});
}

/** What is said of the firms before one, if there are any. */
function earlier(network, firm, key) {
    const names = network.before(firm);
    return names.length === 0 ? [] : [say(key, {firm, firms: listed(names), count: names.length})];
}

const ANSWERS = {
    equilibrium: (said, network) => [say("answer.equilibrium"), ...trading(network, said),
        most(said, network)],
    solved: (said, network) => [say("answer.solved"), ...trading(network, said), most(said, network)],
    prices: (said, network) => [say("answer.prices"), ...trading(network, said), say(hasUnits(network.data) ? "answer.none_more_units" : "answer.none_more")],
    cycle: async (said, network, ask) => {
        const {head, steps} = await storyOf(network, said, ask);
        return [head, ...steps.map(({says}) => says)];
    },
    better: betterLines,
    impossible: (said, network) => {
        const deals = new Deals(network, said), {firm} = said;
        return [say("answer.impossible", {firm}),
            say("answer.no_worth", {does: deals.does(firm, network.own(firm, deals.on))}),
            ...earlier(network, firm, "answer.impossible_before")];
    },
    firms: ({firms, content, surplus}, network) => [
        content === BigInt(firms.length) ? say("answer.all_content")
            : say("answer.content", {count: content, all: firms.length}),
        ...firms.map((line) => firmLine(line, network)), surplus === null ? say("answer.no_sum")
            : say("answer.sum", {surplus})],
    accepted: () => [say("answer.accepted")],
    exchange_fails: async (said, network, ask) => [say("exchange.fails", {firm: said.firm}),
        ...await failingLines(network, said, ask),
        ...earlier(network, said.firm, "exchange.before")],
    fault: async (said, network, ask) => [...faultLines(network, said),
        ...(said.fault === 16n ? await failingLines(network, {...said, firm: network.firms[Number(said.place[1])].name}, ask) : [])],
    ranges: rangeLines,
    session: sessionLines,
    drops: dropsLines,
    completes: (said, network) => {
        const deals = new Deals(network, said);
        return [say("answer.completes"), signed(deals), ...keepingOff(deals)];
    },
    blocks: async (said, network, ask) => [say("answer.blocks"), signed(new Deals(network, said)), say("answer.would_sign"),
        ...said.contracts.map((contract) => contractOf(network, contract, said.over)), ...await simplerLine(said, network, ask),
        say("story.signs_others")],
    drill: ({firms, size, start, surplus}) => [say("answer.drill", {firms, size, start, surplus})],
    valid: async (said, network, ask) => [say("answer.valid", {claim: claimed(network)}),
        ...(network.claim.answer === "none" ? await planLines(network, ask) : [])],
    invalid: async (said, network, ask) => [say("answer.invalid", {claim: claimed(network)}),
        ...(network.claim.answer === "none" ? await refusedLines(network, ask) : []),
        ...await failed(network, said, ask)],
    usage: () => [say("answer.usage")],
    read_fault: () => [say("answer.read_fault")],
    no_memory: () => [say("answer.no_memory")],
};

/** That nothing has a greater sum of worths. */
function most({surplus}, network) {
    return say(hasUnits(network.data) ? "answer.most_units" : "answer.most", {surplus});
}

function betterLines(said, network) {
    const deals = new Deals(network, said), {firm, bundle, gain} = said;
    return [say("answer.better", {firm}),
        say("answer.as_it_is", {firm, does: deals.does(firm, network.own(firm, deals.on))}),
        say("answer.rather", {do: deals.do(firm, bundle), gain}), ...earlier(network, firm, "answer.better_before")];
}

/** Simpler prices at which the same contracts block, where some are found. */
async function simplerLine(said, network, ask) {
    const {contracts, over} = await simplest(ask, network, said), prices = contracts.map(([, price]) => fraction(price, over));
    const own = said.contracts.map(([, price]) => fraction(price, said.over));
    const isSame = prices.every((price, k) => price === own[k]);
    return isSame ? [] : [say("answer.simpler", {prices: listed(prices), count: prices.length})];
}

function dropsLines(said, network) {
    const {firm, keeps, gain, over} = said, deals = new Deals(network, said), values = {keeps: listed(keeps)};
    return [keeps.length === 0 ? say("answer.drops_all", {firm}) : say("answer.drops_some", {firm}),
        say("answer.by_signed", {firm, does: deals.does(firm, network.own(firm, deals.on))}),
        gain === null ? say("answer.keeps_best", values)
            : say("answer.keeps_rather", {...values, gain: fraction(gain, over)}),
        ...earlier(network, firm, "answer.drops_before")];
}

/** What a firm has, what it is worth to it, and what it would rather have. */
function firmLine({firm, has, worth, utility, gain, best, best_utility: most}, network) {
    const deals = new Deals(network, {}), values = {firm, does: deals.does(firm, has)};
    if (worth === null) return say("answer.firm_impossible", {...values, do: deals.do(firm, best), most});
    if (gain === 0n) return say("answer.firm_content", {...values, worth, utility});
    return say("answer.firm_objects", {...values, worth, utility, do: deals.do(firm, best), most, gain});
}
