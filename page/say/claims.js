// Claims in words, and why one isn't so.
import {entriesOf, fraction, itemsOf} from "../read/network.js";
import {say} from "../words/say.js";
import {failingLines} from "./exchange.js";
import {listed, set} from "./words.js";

const CLAIMED = {
    equilibrium: ({surplus}) => say("claimed.equilibrium", {surplus}),
    solved: ({surplus}) => say("claimed.solved", {surplus}),
    prices: () => say("claimed.prices"),
    better: ({firm, gain, bundle}) => say("claimed.better", {firm, gain, bundle: set(bundle)}),
    impossible: ({firm}) => say("claimed.impossible", {firm}),
    cycle: ({nodes, cost}) => say("claimed.cycle", {nodes: listed(nodes.map(String)), cost}),
    accepted: () => say("claimed.accepted"),
    exchange_fails: ({firm, x, y, at}) => {
        const values = {firm, x: set(x), y: set(y)};
        return at === null ? say("claimed.fails", values) : say("claimed.fails_at", {...values, trade: at});
    },
    drops: ({firm, keeps, gain, over}) => gain === null ? say("claimed.drops_impossible", {firm, keeps: listed(keeps)})
        : say("claimed.drops", {firm, keeps: listed(keeps), gain: fraction(gain, over)}),
    completes: () => say("claimed.completes"),
    blocks: ({contracts, over}) => {
        const priced = contracts.map(([trades, price]) => say("deal.priced",
            {trades, price: fraction(price, over), count: 1}));
        return contracts.length === 0 ? say("claimed.blocks_none") : say("claimed.blocks", {contracts: listed(priced)});
    },
    none: () => say("claimed.none"),
};

/** What a claim says, after "It says". */
export function claimed(network) {
    return CLAIMED[network.claim.answer]?.(network.claim, network) ?? say("claimed.unknown");
}

/** The condition of the claim that fails, in sentences. */
export async function failed(network, said, ask) {
    if (said.reason === "exchange") return [say("reason.exchange", {firm: said.firm}),
        ...await failingLines(network, said, ask)];
    return [REASONS[said.reason]?.(said, network) ?? say("reason.unknown", {reason: said.reason})];
}

/** What is impossible, by the claim that says so. */
const IMPOSSIBLE = {better: "reason.impossible_better", drops: "reason.impossible_drops",
    none: "reason.impossible_plan"};

const REASONS = {
    impossible: ({firm}, {claim}) => say(IMPOSSIBLE[claim.answer] ?? "reason.impossible", {firm}),
    better: ({firm, bundle}) => bundle.length === 0 ? say("reason.better_nothing", {firm})
        : say("reason.better", {firm, bundle: listed(bundle)}),
    possible: () => say("reason.possible"),
    surplus: ({surplus}) => say("reason.surplus", {surplus}),
    gain: ({firm, gain}, {claim, outcome}) => {
        if (gain === null) return say("reason.nothing_to_compare", {firm});
        const number = claim.answer === "drops" ? fraction(gain, outcome.over) : gain;
        return say(gain > 0n ? "reason.gain" : "reason.no_gain", {gain: number});
    },
    holds: () => say("reason.holds"),
    arc: ({index}, {claim: {nodes}}) => {
        const [from, to] = [nodes[Number(index)], nodes[(Number(index) + 1) % nodes.length]];
        return say("reason.arc", {from: String(from), to: String(to)});
    },
    cost: ({cost}) => say(cost < 0n ? "reason.cost" : "reason.cost_not_negative", {cost}),
    contract: ({trade}) => say("reason.contract", {trade}),
    over: ({over}) => say("reason.over", {over}),
    price: ({trade}, {claim, outcome}) => {
        const [signed, said] = [outcome.contracts, claim.prices].map((entries) => entriesOf(itemsOf(entries)).get(trade));
        return say("reason.price", {trade, signed: fraction(signed, outcome.over), said: fraction(said, claim.over)});
    },
    empty: () => say("reason.empty"),
    signed: ({trade}) => say("reason.signed", {trade}),
    choice: ({firm, trade}) => say("reason.choice", {firm, trade}),
    shares: ({firm}) => say("reason.shares", {firm}),
    balance: ({trade}) => say("reason.balance", {trade}),
    whole: ({on, surplus}) => on.length === 0 ? say("reason.whole_none", {surplus})
        : say("reason.whole", {trades: listed(on), surplus}),
};
