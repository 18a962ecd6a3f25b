// The table of firms: what each has, what that is worth to it, and what it would rather have.
import {firmLabel, tradeLabel} from "../../words/labels.js";
import {say} from "../../words/say.js";
import {isOld, networkOf} from "../document/state.js";
import {writeMeant} from "../shell/meanings.js";
import {keepingFocus, made, part} from "../shell/page.js";
import {moodOf} from "./stage.js";

/** The heads of the table. */
export const HEADS = ["head.firm", "head.has", "head.worth", "head.utility", "head.rather", "head.gain"];
const SIGNS = {content: "\u2713", objects: "\u2717", impossible: "\u2717", unknown: ""};
const MOODS = {content: "mood.content", objects: "mood.objects", impossible: "mood.impossible"};

let shownOf = null;

/** Shows the table. */
export function showFirms(value) {
    const {guess, document, selection} = value, table = part("firms");
    table.classList.toggle("old", isOld(value, guess));
    if (shownOf !== null && shownOf.guess === guess && shownOf.document === document && shownOf.selection === selection) return;
    shownOf = {guess, document, selection};
    table.tHead.replaceChildren(rowOf(HEADS.map(headOf)));
    const lines = linesOf(guess), firms = networkOf(document).firms.map(({name}) => name).filter((name) => name !== "");
    keepingFocus(table, () => table.tBodies[0].replaceChildren(...firms.map((name) => firmRow(name, lines.get(name), selection))));
}

function headOf(head) {
    const cell = made("th", "", {scope: "col"});
    writeMeant(cell, say(head));
    return cell;
}

/** What `firms` says, by the names of the firms. */
export function linesOf(guess) {
    return new Map(guess?.said?.answer === "firms" ? guess.said.firms.map((line) => [line.firm, line]) : []);
}

function rowOf(cells) {
    const row = made("tr");
    row.append(...cells);
    return row;
}

function firmRow(name, line, selection) {
    const mood = moodOf(line), isChosen = selection?.kind === "firm" && selection.name === name;
    const names = {"data-key": `row:${name}`, "data-firm": name, "aria-pressed": `${isChosen}`, class: mood};
    const button = made("button", `${SIGNS[mood]} ${firmLabel(name)}`.trim(), {type: "button", title: firmLabel(name) === name ? null : name, ...names});
    if (mood !== "unknown") button.append(made("span", say(MOODS[mood]), {class: "unseen"}));
    const head = made("th", "", {scope: "row"});
    head.append(button);
    const row = rowOf([head, ...cellsOf(line).map((content, k) => made("td", content, {class: k === 0 || k === 3 ? null : "number"}))]);
    row.className = isChosen ? `${mood} chosen` : mood;
    return row;
}

/** What stands in a firm's line, after its name. */
export function cellsOf(line) {
    if (!line) return ["", "", "", "", ""];
    const best = line.gain === 0n ? "" : namesOf(line.best);
    const number = (value) => value === null ? say("word.impossible") : String(value);
    return [namesOf(line.has), number(line.worth), number(line.utility), best, line.gain === null ? "" : String(line.gain)];
}

function namesOf(names) {
    return names.length === 0 ? say("list.none") : names.map(nameOf).join(", ");
}

/** A trade of a bundle, with how many units of it where it has some. */
function nameOf(entry) {
    return Array.isArray(entry) ? `${tradeLabel(entry[0])}: ${entry[1]}` : tradeLabel(entry);
}

/** The firms that aren't content, or would drop what they have signed. */
export function objectors({guess, judged, view}) {
    if (view.mode === "sign") return [...judged?.drops?.keys() ?? []];
    return [...linesOf(guess).values()].filter((line) => moodOf(line) !== "content").map(({firm}) => firm);
}
