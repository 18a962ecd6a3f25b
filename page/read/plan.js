// A plan in parts, of the claim that there are no prices: what its shares are worth, and the most that a set of trades is.
import {linesAt, worths} from "./firms.js";
import {parse, plain} from "./json.js";
import {limitsOf} from "./limits.js";
import {objectOf, withMember} from "./network.js";

/** Up to how many trades the most is asked for: with each one more `replay` takes twice as long, and with 20 a second or more. */
const MOST_ASKED = 16;

/**
 * The shares of each firm, as `{firm, parts}` with `{names, weight, worth}` of each part; where they leave something that is worth
 * something, the empty bundle is a part too. Firms without parts are left out, and a worth is null where nobody knows it.
 */
export async function sharesOf(network, {plan, over}, ask) {
    const found = [], empty = await linesAt(ask, network, []);
    for (const {name: firm} of network.firms) {
        const mine = plan.filter(([other]) => other === firm), known = await worths(ask, network, firm, mine.map(([, names]) => names));
        const parts = mine.map(([, names, weight], k) => ({names, weight, worth: known[k]}));
        const weight = parts.reduce((rest, part) => rest - part.weight, over), worth = empty?.get(firm)?.worth ?? null;
        if (weight > 0n && worth !== null && worth !== 0n) parts.push({names: [], weight, worth});
        if (parts.length > 0) found.push({firm, parts});
    }
    return found;
}

/** What shares are worth together, over the plan's denominator; null where that isn't known. */
export function worthOf(shares) {
    const parts = shares.flatMap((each) => each.parts);
    return parts.some(({worth}) => worth === null) ? null : parts.reduce((sum, {weight, worth}) => sum + weight * worth, 0n);
}

/**
 * The most that a set of trades is worth, as `{surplus, on}` with such a set, for a plan that `replay` calls valid and whose worth is
 * known. It asks `replay` of plans between a set and this one: where one is refused, a better set is told, and where one is valid,
 * no set is worth as much. The first are worth little less than this one, since the most often is; then it goes by halves. Null where
 * there are too many trades, or where the weights that are allowed are too few.
 */
export async function mostOf(network, {plan, over}, worth, ask) {
    const nothing = network.trades.length > MOST_ASKED ? null : await linesAt(ask, network, []);
    if (nothing === null) return null;
    let least = {surplus: [...nothing.values()].reduce((sum, line) => sum + line.worth, 0n), on: []};
    let most = below(worth, over), step = 0n, isBetween = false;
    while (least.surplus < most) {
        const room = most - least.surplus, aim = isBetween ? (room + 1n) / 2n : room > step ? room - step : 1n;
        const times = limitsOf(network).over / over, above = worth - least.surplus * over, weight = aim * times * over / above;
        if (weight === 0n) return null;
        const said = await replayed(network, between(network, plan, over, least.on, weight, times), ask);
        if (said.reason === "whole") [least, isBetween] = [said, true];
        else if (said.answer === "valid") [most, step] = [below(least.surplus * times * over + weight * above, times * over), 2n * step + 1n];
        else return null;
    }
    return least;
}

/** The greatest whole number below a fraction. */
function below(numerator, denominator) {
    const whole = numerator / denominator;
    return whole * denominator < numerator ? whole : whole - 1n;
}

/** The claim of a plan between a set of trades and a plan: `weight` of `times` parts are of the plan. */
function between(network, plan, over, on, weight, times) {
    const whole = network.firms.map(({name}) => [name, network.own(name, on), over * (times - weight)]);
    const parts = [...plan.map(([firm, names, each]) => [firm, names, each * weight]), ...whole.filter(([, names, each]) => names.length > 0 && each > 0n)];
    const texts = parts.map(([firm, names, each]) => `[${JSON.stringify(firm)},${JSON.stringify(names)},${each}]`);
    return `{"answer":"none","over":${over * times},"plan":[${texts}]}`;
}

async function replayed(network, claim, ask) {
    return objectOf(plain(parse(await ask(["replay"], withMember(network, "claim", claim)))));
}
