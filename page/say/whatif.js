// What comes of a firm that leaves or joins, or of a trade that comes or goes, in sentences. What is told is
// `{states, before, after}`: the states before and after a change, and who is away and what is barred in each.
import {hasUnits} from "../read/limits.js";
import {alike, editsBetween, isIn} from "../read/states.js";
import {say} from "../words/say.js";
import {edit} from "./session.js";
import {listed} from "./words.js";

const IS = {leave: "whatif.is_away", bar: "whatif.is_barred", admit: "whatif.are_admitted"};

/** What isn't there before a change, as parts of a sentence; none where all are. */
function missing(before) {
    return listed(before.map(([does, name, count]) => say(IS[does], {name, count})));
}

/** A change as a sentence without its point: of a trade of which fewer units were admitted than it has, that all are. */
function changeSays(change, before) {
    const [does, name, units] = change, isWhole = does === "admit" && units === undefined && alike(before, change)?.[2] !== undefined;
    return isWhole ? say("whatif.all_admitted", {name}) : edit(change);
}

/** What changes, and what that does to the sum of the worths. */
export function changeLine({states: [then, now], before, after}) {
    const changes = editsBetween(before, after).map((change) => changeSays(change, before));
    if (changes.length > 0) return sumChanged(listed(changes), then.surplus, now.surplus);
    const {surplus} = then;
    return before.length === 0 ? say("whatif.all_there", {surplus})
        : say("whatif.while", {missing: missing(before), surplus});
}

function sumChanged(changes, then, now) {
    if (now === then) return say("whatif.same", {changes, now});
    return now < then ? say("whatif.less", {changes, then, now, less: then - now})
        : say("whatif.more", {changes, then, now, more: now - then});
}

/** What was so before the change, where that isn't that everybody is there; an empty text where it is. */
export function beforeLine({before, after}) {
    const isTold = before.length > 0 && editsBetween(before, after).length > 0;
    return isTold ? say("whatif.before_that", {missing: missing(before)}) : "";
}

const STARTS = {guess: {true: "whatif.guess", false: "whatif.no_guess"}, sign: {true: "whatif.signed", false: "whatif.not_signed"}};

/** Which equilibrium stands before the change, with everybody there: that of the screen, or another one. */
export function startLine({before, from, isOwn}) {
    return before.length === 0 ? say(STARTS[from][isOwn]) : "";
}

/** How many units of a trade are on before and after a change; one where it has no more and is on. */
export function unitsOf({states}, name) {
    return states.map(({counts}) => counts.get(name) ?? 0n);
}

/**
 * The part that a trade plays: where it takes place at all it `stays`, `goes` or `comes`, and otherwise it is `off`; where it takes place
 * before and after with other units these are `more` or `fewer`. What can't be used after the change is `gone` where it took place before,
 * and `out` where it didn't.
 */
export function partOf(told, name) {
    const [was, is] = unitsOf(told, name), isUsable = told.states[1].prices.has(name);
    if (is > 0n && was > 0n) return is > was ? "more" : is < was ? "fewer" : "stays";
    if (is > 0n) return "comes";
    if (was > 0n) return isUsable ? "goes" : "gone";
    return isUsable ? "off" : "out";
}

/** The parts of trades that are told together: the key of that, the key of how many they are, and these parts. */
const PARTS = [["whatif.go", "whatif.count_go", ["goes", "gone"]], ["whatif.come", "whatif.count_come", ["comes"]],
    ["whatif.stay", "whatif.count_stay", ["stays"]]];

/** Up to how many trades are named one by one. */
const FEW = 6;

/** Which trades go, come and stay; where they are many, how many of each seller and buyer do. Where they have units, of which there are others. */
export function tradesLine(told, {trades, data}) {
    if (hasUnits(data)) return unitsLine(told, trades);
    const said = PARTS.flatMap(([key, , parts]) => {
        const found = trades.filter(({name}) => parts.includes(partOf(told, name)));
        const named = found.length > FEW ? byEnds(found) : listed(found.map(({name}) => name));
        return found.length === 0 ? [] : [say(key, {trades: named, count: found.length})];
    });
    return said.length === 0 ? say("whatif.nothing") : `${said.join("; ")}.`;
}

function byEnds(trades) {
    const counts = new Map();
    for (const {seller, buyer} of trades) {
        const key = `${seller} ${buyer}`;
        counts.set(key, {seller, buyer, count: (counts.get(key)?.count ?? 0) + 1});
    }
    return listed([...counts.values()].map((each) => say("whatif.many", each)));
}

/** The trades that are told together where they have units: the key of that, and whether more or fewer units are on, or as many. */
const UNIT_PARTS = [["whatif.fewer_units", (was, is) => is < was], ["whatif.more_units", (was, is) => is > was], ["whatif.as_many", (was, is) => is === was]];

function unitsLine(told, trades) {
    const taking = trades.map(({name}) => name).filter((name) => unitsOf(told, name).some((count) => count > 0n));
    const named = (names) => few(names.map((name) => say("whatif.trade_units", {name, units: unitsSay(told, name)})));
    if (taking.length === 0) return say("whatif.nothing");
    if (editsBetween(told.before, told.after).length === 0) return say("whatif.units", {trades: named(taking)});
    const parts = UNIT_PARTS.flatMap(([key, isIts]) => {
        const found = taking.filter((name) => isIts(...unitsOf(told, name)));
        return found.length === 0 ? [] : [say(key, {trades: named(found)})];
    });
    return say("whatif.units", {trades: parts.join("; ")});
}

/** The first of some parts of a sentence where they are many. */
function few(parts) {
    return parts.length <= FEW ? listed(parts) : say("list.more", {names: parts.slice(0, FEW).join(", "), rest: parts.length - FEW});
}

/** How many units of a trade are on before and after, and at which prices. */
function unitsSay(told, name) {
    const prices = told.states.map((state) => state.prices.get(name)).filter((price) => price !== undefined), count = changed(unitsOf(told, name));
    return prices.length === 0 ? count : say("picture.units", {count, price: changed(prices)});
}

/** One number, or two of which one becomes the other. */
function changed([then, now = then]) {
    return then === now ? String(now) : `${then} \u2192 ${now}`;
}

/** How many of some trades go, come and stay, as `{before, after, says}`. */
export function countsOf(told, names) {
    const counts = PARTS.map(([, key, parts]) => {
        const count = names.filter((name) => parts.includes(partOf(told, name))).length;
        return {count, says: say(key, {count})};
    });
    const [goes, comes, stays] = counts.map(({count}) => count);
    const says = counts.filter(({count}) => count > 0).map((each) => each.says).join(", ");
    return {before: goes + stays, after: comes + stays, says};
}

/** How many units of some trades are on before and after. */
export function unitsIn(told, names) {
    return [0, 1].map((k) => names.reduce((sum, name) => sum + unitsOf(told, name)[k], 0n));
}

/** Whether a firm is away before and after, and which utility it has where that is known. */
function utilities({states, before, after}, firm) {
    return [before, after].map((edits, k) => ({isAway: isIn(edits, ["leave", firm]),
        utility: states[k].lines.get(firm)?.utility ?? ""}));
}

/** A firm before and after, as two texts: its utility, or that it is away. */
export function firmStates(told, firm) {
    return utilities(told, firm).map(({isAway, utility}) => isAway ? say("word.away") : String(utility));
}

/** Whether a firm is away after the change. */
export function isGone({after}, firm) {
    return isIn(after, ["leave", firm]);
}

/** The same for those who listen. */
export function firmSays(told, firm) {
    const [then, now] = utilities(told, firm).map(({isAway, utility}) => isAway ? say("word.away")
        : say("whatif.utility", {utility}));
    return then === now ? say("whatif.both", {state: then}) : say("whatif.then_now", {then, now});
}

/** By how much a firm's utility changes; null where that isn't known. */
export function gainOf({states}, firm) {
    const [then, now] = states.map(({lines}) => lines.get(firm)?.utility ?? null);
    return then === null || now === null ? null : now - then;
}

/**
 * What a firm pays by the rule of Vickrey, Clarke and Groves in the market before the change, where it gets what is below 0: then it has
 * just what it contributes, beside what no trade at all is worth to it. Null where that isn't known.
 */
export function paidOf({states: [{lines}]}, firm, {firms, nothing}) {
    const worth = lines.get(firm)?.worth ?? null, contributed = firms.get(firm), least = nothing.get(firm) ?? null;
    return contributed === undefined || worth === null || least === null ? null : worth - contributed - least;
}

/** A trade before and after, as two texts: on or off, or how many units are on, at which price, or why it can't be used. */
export function tradeStates({states, before, after}, name, isCounted = false) {
    return [before, after].map((edits, k) => {
        const count = states[k].counts.get(name) ?? 0n, price = states[k].prices.get(name);
        if (price === undefined) return say(isIn(edits, ["bar", name]) ? "word.barred" : "word.away");
        return isCounted ? say("picture.units", {count, price}) : say(count > 0n ? "whatif.on_at" : "whatif.off_at", {price});
    });
}

/** What the contributions are of. */
export function sharesLine({before, states: [{surplus}]}) {
    return before.length === 0 ? say("whatif.shares", {surplus})
        : say("whatif.shares_while", {missing: missing(before), surplus});
}
