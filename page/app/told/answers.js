// What is answered to a command, shown under Answers, and the document's name.
import {lineAndColumn} from "../../read/json.js";
import {hasUnits} from "../../read/limits.js";
import {say} from "../../words/say.js";
import {canBeClaimed} from "../document/claims.js";
import {isOld, networkOf} from "../document/state.js";
import {verdictOf} from "../program/commands.js";
import {countsTable, isCountedAnswer, lineOf} from "../sharing/exports.js";
import {drawing, made, part, write} from "../shell/page.js";

let last = null, named = null;

/** Shows the document's name and what is answered to the command. */
export function showAnswers(value) {
    const {document: shown, words, run, answer} = value;
    document.documentElement.dataset.state = run.state === "none" ? "ready" : run.state;
    if (shown !== named) part("name").textContent = nameOf(shown);
    named = shown;
    part("run").disabled = false;
    part("end").disabled = run.state !== "asking";
    part("shown").hidden = answer === null;
    const old = answer !== null && (isOld(value, answer) || run.state === "asking");
    part("shown").classList.toggle("old", old);
    part("shown").dataset.old = `${old}`;
    part("answer-claim").hidden = !canBeClaimed(answer?.said) || hasUnits(networkOf(answer.document).data);
    part("answer-claim").setAttribute("aria-disabled", `${old}`);
    write("status", statusOf(run, words, answer) || (old ? say("status.earlier") : ""));
    if (answer !== null && answer !== last) showAnswer(answer);
    last = answer;
}

function nameOf({name, bytes, isWhole}) {
    const size = bytes.length < 1000 ? say("page.bytes", {count: bytes.length})
        : `${Math.round(bytes.length / 100) / 10} KB`;
    return [name, size, isWhole ? "" : say("page.too_long")].filter(Boolean).join(", ");
}

const STATES = {asking: "status.runs", ended: "status.ended"};

function statusOf({state, message}, words, answer) {
    if (state === "trouble") return message;
    if (state !== "answered") return STATES[state] ? say(STATES[state]) : "";
    const {status, ms} = answer;
    return say("status.line", {verdict: verdictOf(status, words), status, ms: ms.toFixed(ms < 10 ? 1 : 0)});
}

function showAnswer({document: asked, words, said: answered, text, bytes, sentences, mark, pictures}) {
    part("line").textContent = lineOf({words, document: asked});
    part("sentences").replaceChildren(...said(sentences.map((sentence) => made("p", sentence))));
    part("fault").replaceChildren(...(mark === null ? [] : [excerpt(mark)]));
    showCounts(asked, answered);
    part("pictures").replaceChildren(...pictures.map(pictureOf));
    part("bytes").textContent = text;
    part("raw").open = sentences.length === 0;
    part("raw").firstElementChild.textContent = say("page.wrote_bytes", {count: bytes.length});
}

/** The table of how many units of each trade go, where an answer tells units. */
function showCounts(asked, answered) {
    const isThere = isCountedAnswer(asked, answered);
    part("counts-part").hidden = !isThere;
    if (!isThere) return;
    const [heads, ...lines] = countsTable(asked, answered), {tHead, tBodies: [body]} = part("counts");
    tHead.replaceChildren(rowOf(heads.map((head) => made("th", head, {scope: "col"}))));
    body.replaceChildren(...lines.map(([name, ...cells]) => rowOf([made("th", name, {scope: "row"}), ...cells.map(cellOf)])));
}

function cellOf(value) {
    return made("td", String(value), typeof value === "string" ? {} : {class: "number"});
}

function rowOf(cells) {
    const row = made("tr");
    row.append(...cells);
    return row;
}

const MOST_SENTENCES = 12;

/** Sentences; where they are many, those after the first few are folded, so that the picture isn't far below. */
function said(sentences) {
    if (sentences.length <= MOST_SENTENCES) return sentences;
    const rest = made("details");
    rest.append(made("summary", say("page.more_sentences", {count: sentences.length - MOST_SENTENCES / 2})),
        ...sentences.slice(MOST_SENTENCES / 2));
    return [...sentences.slice(0, MOST_SENTENCES / 2), rest];
}

function pictureOf(svg) {
    const figure = made("figure"), drawn = drawing(svg);
    drawn.setAttribute("role", "img");
    figure.append(drawn);
    return figure;
}

const AROUND = 2, WIDEST = 160, MOST_LINES = 8;

/** The lines around a fault, with the fault marked. */
function excerpt({text, start, end}) {
    const lines = text.split("\n"), [first, end_] = [start, Math.max(start, end - 1)].map((offset) => lineAndColumn(text, offset).line - 1);
    const last = Math.min(end_, first + MOST_LINES);
    const drawn = made("pre", "", {class: "excerpt"});
    let at = lines.slice(0, Math.max(0, first - AROUND)).reduce((sum, line) => sum + line.length + 1, 0);
    for (let k = Math.max(0, first - AROUND); k <= Math.min(lines.length - 1, last + AROUND); k += 1) {
        drawn.append(made("span", `${k + 1}`.padStart(6) + "  ", {class: "number"}), ...marked(lines[k], start - at, end - at), "\n");
        at += lines[k].length + 1;
    }
    return drawn;
}

/** A line with what lies in it from one place to another as a mark; of a long line what is near the mark. */
function marked(line, from, to) {
    const isIn = from <= line.length && to > 0, start = Math.max(0, from), end = Math.min(line.length, to);
    if (!isIn) return [line.slice(0, WIDEST)];
    const left = Math.max(0, start - WIDEST / 2), right = Math.min(line.length, Math.max(end, start) + WIDEST / 2);
    const inside = line.slice(start, Math.min(end, start + WIDEST)) || " ";
    const before = `${left > 0 ? "\u2026" : ""}${line.slice(left, start)}`;
    return [before, made("mark", inside), line.slice(end, Math.min(right, end + WIDEST / 2))];
}
