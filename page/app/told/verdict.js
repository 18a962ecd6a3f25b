// What is said above the network: the verdict on a guess or on what is signed, and the sentence of a chosen firm or of a step.
import {fraction} from "../../read/network.js";
import {ownOf} from "../../say/own.js";
import {plainLine} from "../../say/plain.js";
import {Deals} from "../../say/words.js";
import {say} from "../../words/say.js";
import {hasArrangement} from "../document/edits.js";
import {isOld, networkOf} from "../document/state.js";
import {linesOf, objectors} from "../network/firms.js";
import {writeMeant} from "../shell/meanings.js";
import {made, part, write} from "../shell/page.js";
import {supposedVerdict} from "../whatif/difference.js";
import {isOther} from "../whatif/suppose.js";
import {failingLine, failingVerdict, isFailing} from "./failing.js";
import {stepOf} from "./story.js";

/** Shows both. */
export function showVerdict(value) {
    if (value.view.mode === "whatif") return showSupposed(value);
    const {document, view} = value, isSigned = view.mode === "sign", said = isSigned ? value.judged : value.guess;
    const verdict = verdictOf(value, said), list = objectors(value);
    showObjectors(value, isSigned ? [] : list);
    writeMeant(part("verdict"), verdict.says);
    part("verdict").className = isOld(value, said) ? `${verdict.mood} old` : verdict.mood;
    part("objects").hidden = isSigned && list.length < 2;
    part("objects").disabled = list.length === 0 || isOld(value, said);
    if (!document.isWhole) return;
    write("told", toldOf(value));
    write("own-told", plainTold(value));
}

function showSupposed(value) {
    const {mood, says, told} = supposedVerdict(value);
    writeMeant(part("verdict"), says);
    write("own-told", "");
    part("verdict").className = value.compared !== null && isOther(value) ? `${mood} old` : mood;
    part("objects").hidden = true;
    showObjectors(value, []);
    write("told", told);
}

let listed = "";

/** All firms that aren't content, each with its sentence and as a button that chooses it, where that is looked at. */
function showObjectors(value, list) {
    const isThere = value.view.hasAll && list.length > 0, lines = isThere ? list.map((name) => [name, guessLine(value, name)]) : [];
    part("all-objects").hidden = list.length < 2;
    part("all-objects").setAttribute("aria-pressed", `${value.view.hasAll}`);
    part("objectors").hidden = !isThere;
    const key = JSON.stringify(lines);
    if (key === listed) return;
    listed = key;
    part("objectors").replaceChildren(...lines.map(([name, says]) => {
        const item = made("li");
        item.append(made("button", says, {type: "button", class: "step", "data-firm": name, "data-key": `objector:${name}`}));
        return item;
    }));
}

/** The sentence of a chosen firm, or that of the step. */
function toldOf(value) {
    const {selection, view} = value;
    if (selection?.kind !== "firm") return stepOf(value)?.step.says ?? "";
    return view.mode === "sign" ? signedLine(value, selection.name) : guessLine(value, selection.name);
}

/** What a chosen firm has in plain words, and all of its own numbers, which its box has no room for. */
function plainTold({document, guess, selection, view}) {
    if (selection?.kind !== "firm") return "";
    const network = networkOf(document), line = view.mode === "guess" ? linesOf(guess).get(selection.name) : undefined;
    const own = view.hasOwn ? ownOf(network, selection.name) : null, plain = line && guess.document === document ? plainLine(line, network) : null;
    return [...(plain === null ? [] : [plain]), ...(own === null ? [] : [say("plain.own", {own: own.whole})])].join(" ");
}

function guessLine({guess, document}, name) {
    const place = networkOf(document).firms.findIndex((firm) => firm.name === name);
    return linesOf(guess).size > 0 && place >= 0 ? guess.sentences[place + 1] ?? "" : "";
}

/** What a firm does by what is signed, and what it has by that. */
function signedLine({judged, document}, name) {
    const network = networkOf(document), deals = new Deals(network, {answer: "drops"});
    const values = {firm: name, does: deals.does(name, network.own(name, deals.on))}, has = judged?.has?.get(name), drop = judged?.drops?.get(name);
    if (drop) return `${say("verdict.signed_does", values)} ${drop.says}`;
    if (has === undefined) return say("verdict.signed_does", values);
    if (has === null) return say("verdict.signed_impossible", values);
    return say("verdict.signed_utility", {...values, utility: fraction(has, networkOf(judged.document).outcome.over)});
}

function verdictOf(value, said) {
    const {document} = value;
    if (!document.isWhole) return {mood: "unknown", says: say("verdict.too_long_to_guess")};
    if (said === null) return {mood: "unknown", says: say("verdict.asked")};
    if (said.trouble) return {mood: "fault", says: said.trouble};
    if (said.isNone) return nothing(value);
    if (isFailing(said.said)) return {mood: "fault", says: failingLine(networkOf(said.document), said.said, null)};
    const says = VERDICTS[said.said.answer];
    if (said.drops?.size > 1) return {mood: "objects", says: `\u2717 ${say("verdict.drops_many", {count: said.drops.size})}`};
    return says ? says(said.said) : {mood: "fault", says: said.story ? said.sentences[0] : said.sentences.join(" ")};
}

/** What is said where there is nothing to judge. */
function nothing(value) {
    if (value.view.mode === "sign") return {mood: "unknown", says: say("verdict.not_signed")};
    return failingVerdict(value) ?? {mood: "unknown", says: say(lacking(value.document))};
}

/** The key of what there isn't of a guess: all of it, or its prices. */
function lacking(document) {
    return hasArrangement(networkOf(document)) ? "verdict.no_prices" : "verdict.no_guess";
}

const VERDICTS = {
    firms: ({firms, content: count, surplus}) => count === BigInt(firms.length)
        ? {mood: "content", says: `\u2713 ${say("verdict.equilibrium", {surplus})}`}
        : {mood: "objects", says: `\u2717 ${say("verdict.no_equilibrium", {count, all: firms.length})}`},
    completes: () => ({mood: "content", says: `\u2713 ${say("verdict.lasts")}`}),
    drops: ({firm, keeps}) => ({mood: "objects",
        says: `\u2717 ${say(keeps.length === 0 ? "verdict.drops_all" : "verdict.drops_some", {firm})}`}),
    blocks: ({contracts}) => ({mood: "objects", says: `\u2717 ${say("verdict.blocks", {count: contracts.length})}`}),
};
