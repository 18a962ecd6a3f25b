// Contracts that block at prices as simple as they come. This is a search for a claim: each price that comes of it is decided
// by `replay`.
import {readAnswer} from "./answer.js";
import {written} from "./json.js";
import {gcd, withMember} from "./network.js";

/** Up to which denominator each is tried; beyond it multiples of the outcome's are. */
const EACH = 12n;

/**
 * How far below the program's prices a search begins, in steps of its own; how many questions a contract may take over one
 * denominator, and all contracts over all, so that nobody waits long where a long chain gains little.
 */
const BELOW = 3n, MOST = 20, IN_ALL = 700;

/**
 * An answer `blocks` with the same trades, at prices over the least denominator at which some are found that block; where
 * none are found, or nobody can be asked, at its own, with a denominator as small as these have.
 */
export async function simplest(ask, network, said) {
    const own = shortened(said), questions = {left: IN_ALL};
    for (const over of ask === null ? [] : denominators(network.outcome.over, own)) {
        const contracts = await blockingOver(ask, network, said, over, questions);
        if (contracts !== null) return shortened({...said, contracts, over});
    }
    return own;
}

/** The same prices over the least denominator that they have in common. */
function shortened(said) {
    const by = said.contracts.reduce((divisor, [, price]) => gcd(divisor, price), said.over);
    return {...said, contracts: said.contracts.map(([name, price]) => [name, price / by]), over: said.over / by};
}

/**
 * The denominators that are tried, all less than that of an answer. Of multiples of the outcome's twice as many as there are
 * contracts and one are enough, as the program's own denominator shows: it counts all trades that aren't signed.
 */
function denominators(outcomes, {over, contracts}) {
    const each = Array.from({length: Number(EACH)}, (_, k) => BigInt(k + 1));
    const multiples = Array.from({length: 2 * contracts.length + 1}, (_, k) => outcomes * BigInt(k + 1));
    return [...each, ...multiples.filter((multiple) => multiple > EACH)].filter((denominator) => denominator < over);
}

/**
 * Contracts over a denominator that block, or null. The prices begin low. While a firm would leave one of its contracts, what
 * it sells is made dearer by a step; a firm that sells nothing can't be helped.
 */
async function blockingOver(ask, network, said, over, questions) {
    const prices = new Map(said.contracts.map(([name, price]) => [name, floor(price * over, said.over) - BELOW]));
    for (let left = MOST * prices.size; left > 0 && questions.left > 0; left -= 1) {
        questions.left -= 1;
        const claim = written({...said, contracts: [...prices], over});
        const verdict = readAnswer(await ask(["replay"], withMember(network, "claim", claim)));
        if (verdict.answer === "valid") return [...prices];
        const sold = verdict.reason === "choice" ? soldBy(network, [...prices.keys()], verdict) : undefined;
        if (sold === undefined) return null;
        prices.set(sold, prices.get(sold) + 1n);
    }
    return null;
}

/** The trade of a chain that a firm sells which would leave one of its trades: that one, or else the next one behind it. */
function soldBy(network, names, {firm, trade}) {
    const at = names.indexOf(trade);
    return [...names.slice(at), ...names.slice(0, at)].find((name) => network.trade(name).seller === firm);
}

/** The greatest whole number that is no greater than a fraction with a positive denominator. */
function floor(numerator, denominator) {
    const rest = numerator % denominator;
    return numerator / denominator - (rest < 0n ? 1n : 0n);
}
