// What stands around the network and the tables: buttons, tabs, notices, and the states that the page names.
import {noteOf} from "../../words/labels.js";
import {say} from "../../words/say.js";
import {outcomeOf} from "../document/contracts.js";
import {hasArrangement} from "../document/edits.js";
import {isOneLine} from "../document/lines.js";
import {faulty, isCounted, isOld, networkOf, shutBy} from "../document/state.js";
import {isTable} from "../network/plan.js";
import {showSteps} from "./help.js";
import {part, write} from "./page.js";
import {showWays} from "./ways.js";

/** The views of the panel, each with the part of the page that it has: a guess and what is signed share the table of trades. */
const SHUT = "panel-shut", PANELS = {guess: "panel-guess", sign: "panel-guess", whatif: "panel-whatif", claim: "panel-claim", build: "panel-build",
    document: "panel-document", answer: "panel-answer", results: "panel-results"};

/** From how many lanes the network takes the whole width by itself. */
const MANY = 24;

let shownPanel = null, shownText = "";

/** Shows all that. */
export function showShell(value) {
    const {past, future, view} = value, page = document.documentElement;
    page.dataset.units = `${isCounted(value)}`;
    page.dataset.guess = saidState(value, value.guess);
    page.dataset.judged = view.mode === "sign" ? saidState(value, value.judged) : "none";
    page.dataset.decided = view.panel === "claim" && shutBy(value) === null ? saidState(value, value.decided) : "none";
    page.dataset.reason = view.hasReason && view.mode === "guess" ? saidState(value, value.reason) : "none";
    page.dataset.ranges = rangesState(value);
    page.dataset.path = pathState(value);
    page.dataset.wide = `${isWide(value)}`;
    part("wide").setAttribute("aria-pressed", `${isWide(value)}`);
    part("own").setAttribute("aria-pressed", `${view.hasOwn}`);
    able("undo", past.length > 0);
    able("redo", future.length > 0);
    showWays(value);
    showSteps(value);
    showPanel(view.panel, shutBy(value));
    showNote(value);
    showMode(value);
    showText(value);
    showOver(value);
    showRanges(value);
}

/** The document's note: its first line is the title, and the rest the task; in an exercise, which has a title, the inner note is the task. */
function showNote({document}) {
    const {data: {note}} = networkOf(document), {exercise} = document, says = noteOf(exercise === null ? note : note?.note) ?? "";
    const [first, ...more] = exercise === null ? says.split("\n") : ["", says], task = more.join("\n").trim();
    for (const [id, text] of [["title", first], ["task", task]]) {
        write(id, text);
        part(id).hidden = text === "";
    }
}

/** How far the program is with what it is asked without being asked for. */
function saidState(value, said) {
    if (!value.document.isWhole) return "none";
    if (said === null || isOld(value, said)) return "asking";
    if (said.trouble) return "trouble";
    return said.isNone ? "none" : said.said.answer === "fault" ? "fault" : "answered";
}

function rangesState(value) {
    if (!value.view.hasRanges || !value.document.isWhole) return "none";
    if (value.ranges === null || isOld(value, value.ranges)) return "asking";
    return value.ranges.said?.answer === "ranges" ? "answered" : "fault";
}

function pathState({path, selection}) {
    if (path === null || path.selection !== selection) return "none";
    return path.lines === null ? "asking" : "answered";
}

/** Marks a button as one that does nothing now; it keeps the focus. */
function able(id, isAble) {
    part(id).setAttribute("aria-disabled", `${!isAble}`);
}

function isWide({document: shown, view}) {
    const network = networkOf(shown);
    return view.isWide ?? (new Set(network.trades.map(({seller, buyer}) => `${seller} ${buyer}`)).size > MANY && !isTable(network));
}

/** Shows the view of the panel; where that is shut what is said of it in its place. */
function showPanel(panel, shut) {
    const place = shut === null ? PANELS[panel] : SHUT, key = `${panel} ${place}`;
    if (shut !== null) write("shut-says", say(shut));
    if (key === shownPanel) return;
    for (const name of Object.keys(PANELS)) {
        const tab = part(`tab-${name}`), isChosen = name === panel;
        tab.setAttribute("aria-selected", `${isChosen}`);
        tab.tabIndex = isChosen ? 0 : -1;
    }
    for (const id of new Set([...Object.values(PANELS), SHUT])) part(id).hidden = id !== place;
    part(place).setAttribute("aria-labelledby", `tab-${panel}`);
    shownPanel = key;
}

/** Shows what is only of a guess, or only of what is signed. */
function showMode(value) {
    const isSigned = value.view.mode === "sign", {over} = outcomeOf(networkOf(value.document));
    for (const id of ["guess-tools", "firms-part"]) part(id).hidden = isSigned;
    part("sign-tools").hidden = !isSigned;
    part("wonder").setAttribute("aria-pressed", `${value.view.hasReason}`);
    for (const id of ["wonder", "sign-guess"]) able(id, hasArrangement(networkOf(value.document)));
    const field = part("denominator");
    if (field !== document.activeElement && field.getAttribute("aria-invalid") !== "true") field.value = String(over);
}

/** The plain field has the beginning of a document that is too long for the editor. */
function showText(value) {
    const {document: {text, isWhole}} = value, fault = isWhole ? faulty(value) : null;
    if (shownText !== text) part("text").value = text;
    shownText = text;
    part("text").readOnly = !isWhole;
    part("text").hidden = isWhole;
    part("one-line").hidden = !isWhole || !isOneLine(text);
    part("faulty").hidden = fault === null;
    part("fault-go").hidden = fault === null || fault.mark === null;
    write("document-fault", fault === null ? "" : fault.sentences.join(" "));
}

function showOver(value) {
    const {answer, view} = value, isOver = view.isOver && answer?.said?.answer === "solved" && !isOld(value, answer);
    part("over").hidden = !isOver;
    part("over-claim").hidden = isCounted(value);
    part("verdict-row").hidden = isOver;
    part("said").hidden = isOver;
    if (isOver) write("over-says", say("verdict.solved", {surplus: answer.said.surplus}));
}

function showRanges(value) {
    const {view, ranges} = value, said = view.hasRanges && ranges?.said?.answer === "ranges" ? ranges.said : null;
    part("ranges").setAttribute("aria-pressed", `${view.hasRanges}`);
    for (const [id, side] of [["buyers-best", "low"], ["sellers-best", "high"]]) {
        part(id).hidden = said === null;
        able(id, said !== null && said.ranges.every((range) => range[side] !== null));
    }
    part("ranges-there").hidden = said === null;
}
