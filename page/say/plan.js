// A plan in parts in sentences: what each firm has a share of, what the shares come to, and what follows.
import {mostOf, sharesOf, worthOf} from "../read/plan.js";
import {say} from "../words/say.js";
import {listed, set} from "./words.js";

/** The shares of a claimed plan, a sentence for each firm. */
function shareLines(shares, over) {
    return shares.map(({firm, parts}) => say("plan.share", {firm, parts: listed(parts.map((part) => partOf(part, over)))}));
}

/** A part in words: "half of {a, b} (worth 10)". */
function partOf({names, weight, worth}, over) {
    const values = {share: shareOf(weight, over), bundle: names.length === 0 ? say("list.none") : set(names)};
    return worth === null ? say("plan.part", values) : say("plan.part_worth", {...values, worth});
}

/** A share in a word or as a fraction. */
export function shareOf(weight, over) {
    return weight === over ? say("plan.all") : 2n * weight === over ? say("plan.half") : reduced(weight, over);
}

/** A fraction in its least numbers. */
function reduced(numerator, denominator) {
    let [one, other] = [numerator < 0n ? -numerator : numerator, denominator];
    while (other > 0n) [one, other] = [other, one % other];
    return denominator === one ? String(numerator / one) : `${numerator / one}/${denominator / one}`;
}

/** The shares of a plan that is refused. */
export async function refusedLines(network, ask) {
    const {claim} = network, shares = await sharesOf(network, claim, ask), worth = worthOf(shares);
    const known = worth === null ? [] : [say("plan.come_to", {sum: reduced(worth, claim.over)})];
    return [...shareLines(shares, claim.over), ...known];
}

/** A plan that is valid, and why it leaves no prices. */
export async function planLines(network, ask) {
    const {claim} = network, shares = await sharesOf(network, claim, ask);
    const known = await comparedWith(network, shares, ask);
    return [...shareLines(shares, claim.over), compared(known), cancelled(known)];
}

function compared({sum, most, on}) {
    if (sum === null) return say("plan.as_much");
    if (most === null) return say("plan.as_much_sum", {sum});
    if (on.length === 0) return say("plan.more", {sum, most});
    return say("plan.more_as", {sum, most, trades: listed(on), count: on.length});
}

function cancelled({sum, most}) {
    if (sum === null) return say("plan.cancel");
    return most === null ? say("plan.cancel_sum", {sum}) : say("plan.cancel_most", {sum, most});
}

/**
 * What the shares of a valid plan come to, as a text, beside the most that a set of trades does, with such a set: `{sum, most, on}`, of
 * which those that aren't known are null.
 */
export async function comparedWith(network, shares, ask) {
    const {claim} = network, worth = worthOf(shares), best = worth === null ? null : await mostOf(network, claim, worth, ask);
    return {sum: worth === null ? null : reduced(worth, claim.over), most: best?.surplus ?? null, on: best?.on ?? null};
}
