// The text of an answer, and whether it can be one to a document.
import {say} from "../words/say.js";
import {find, NotJson, parse, plain, written} from "./json.js";
import {hasUnits} from "./limits.js";
import {isObject, itemsOf, withMember} from "./network.js";
import {nameOn} from "./standing.js";

/** What no answer is told by: a text that isn't one, or one that is of another document. */
export class NoAnswer extends Error {}

/** An answer as plain data. Throws NoAnswer. */
export function readAnswer(text) {
    try {
        const said = plain(parse(text));
        if (isObject(said) && typeof said.answer === "string" && hasMembers(said)) return said;
    } catch (error) {
        if (!(error instanceof NotJson)) throw error;
    }
    throw new NoAnswer(say("trouble.no_answer"));
}

const LISTS = {better: ["bundle"], exchange_fails: ["x", "y"], prices: ["prices"], cycle: ["nodes"], solved: ["on", "prices"], ranges: ["on", "ranges"], session: ["edits"],
    firms: ["firms"], drops: ["keeps"], completes: ["prices"], blocks: ["contracts"], fault: ["place"]};

/** Whether the lists of an answer are there. */
function hasMembers(said) {
    return (LISTS[said.answer] ?? []).every((name) => Array.isArray(said[name]));
}

/** Throws NoAnswer where an answer speaks of what the document hasn't. */
export function belongs(network, said) {
    const stop = (why) => {
        throw new NoAnswer(`This is no answer to the document: ${why}.`);
    };
    if (said.answer === "fault") return faultFits(network, said, stop);
    if (["drill", "usage", "read_fault", "no_memory", "cases"].includes(said.answer)) return undefined;
    if (network.problem) stop("the document is no JSON");
    for (const name of firmsOf(said)) if (!network.firms.some((firm) => firm.name === name)) stop(`it has no firm ${name}`);
    for (const name of tradesOf(said)) if (!network.byName.has(name)) stop(`it has no trade ${name}`);
    for (const [firm, names] of bundlesOf(said)) {
        for (const name of names.map(nameOn)) if (!network.isOf(name, firm)) stop(`${name} is no trade of ${firm}`);
    }
    if (Array.isArray(said.prices) && said.prices.length !== network.trades.length) stop(`it has ${network.trades.length} trades`);
    if (said.answer === "firms" && said.firms.length !== network.firms.length) stop(`it has ${network.firms.length} firms`);
    if (said.answer === "session" && said.edits.length !== network.edits.length) stop(`it has ${network.edits.length} edits`);
    if ((said.answer === "valid" || said.answer === "invalid") && !network.claim.answer) stop("it has no claim");
    return undefined;
}

/** The answers that can be claims. */
export const CLAIMS = ["equilibrium", "better", "impossible", "accepted", "exchange_fails", "prices", "cycle", "solved", "drops", "completes", "blocks"];

/**
 * Throws NoAnswer where an answer that can be a claim isn't so in the document, as `replay` says: then it is one to another document
 * with the same names. Without a program, or where the claim would make the document too long, nothing is said; nor of a document
 * whose trades have units, which `replay` doesn't answer.
 */
export async function isSo(network, said, ask) {
    if (ask === null || !CLAIMS.includes(said.answer) || hasUnits(network.data)) return;
    const verdict = readAnswer(await ask(["replay"], withMember(network, "claim", written(said))));
    if (verdict.answer === "valid" || verdict.fault === 2n) return;
    if (verdict.answer === "invalid") throw new NoAnswer(`This is no answer to the document: put into it as a claim it isn't valid (${verdict.reason}).`);
    throw new NoAnswer(verdict.place?.[0] === "claim" ? "This is no answer of the program: a member is missing, or isn't what it should be."
        : "This is no answer to the document: the document has a fault.");
}

function faultFits(network, said, stop) {
    const place = itemsOf(said.place), isNoJson = said.fault === 1n;
    if (isNoJson && !network.problem) stop("the document is JSON");
    if (!isNoJson && said.fault !== 2n && network.problem) stop("the document is no JSON");
    if (!network.problem && place.length > 0 && !find(network.root, place.slice(0, -1)).whole) stop("it has no such place");
    if (said.fault === 16n) for (const name of [...said.x, ...said.y]) if (!network.byName.has(name)) stop(`it has no trade ${name}`);
}

function firmsOf(said) {
    return [said.firm, ...itemsOf(said.answer === "firms" ? said.firms : null).map(({firm}) => firm)].filter((name) => typeof name === "string");
}

/** Every trade that an answer names. */
function tradesOf(said) {
    const firsts = (entries) => itemsOf(entries).map((entry) => entry[0]);
    const listed = [...itemsOf(said.bundle), ...itemsOf(said.keeps), ...itemsOf(said.nodes), ...itemsOf(said.x), ...itemsOf(said.y), ...itemsOf(said.on),
        ...itemsOf(said.ranges).flatMap(({trade, low_path, high_path}) => [trade, ...low_path, ...high_path]),
        ...(said.answer === "firms" ? said.firms.flatMap(({has, best}) => [...has, ...best]) : [])];
    return [said.trade, said.at, ...listed.map(nameOn), ...firsts(said.prices), ...firsts(said.contracts),
        ...(said.answer === "session" ? said.edits.flatMap(({on, prices}) => [...on.map(nameOn), ...firsts(prices)]) : [])].filter((name) => typeof name === "string");
}

/** The bundles that an answer says of firms, as `[firm, trades]`. */
function bundlesOf(said) {
    const own = typeof said.firm === "string" ? [said.bundle, said.keeps, said.x, said.y].filter(Array.isArray).map((names) => [said.firm, names]) : [];
    return [...own, ...(said.answer === "firms" ? said.firms.flatMap(({firm, has, best}) => [[firm, has], [firm, best]]) : [])];
}
