// The document's claim: what it says, what `replay` decides, and its names and numbers, each of which can be changed.
import {plain, written} from "../../read/json.js";
import {language, say} from "../../words/say.js";
import {claimOf, fieldsOf, leftOut, spoilt, toggledIn} from "../document/claims.js";
import {isOld, networkOf} from "../document/state.js";
import {keepingFocus, made, part, write} from "../shell/page.js";
import {isRefused, leaving, refuse, typedIn, wholeIn, whyNotWhole} from "../shell/whole.js";

/** The most digits of a number of a claim. */
const MOST = 19;

let store = null, shownOf = null, structure = "", fields = new Map();

/** Makes the form ready for a store. */
export function readyClaim(of) {
    store = of;
}

/** Shows the claim of a value, and whether it is so. */
export function showClaim(value) {
    const {decided, document, view} = value;
    if (view.panel !== "claim") return;
    const verdict = verdictOf(value);
    write("decided", verdict.says);
    part("decided").className = `verdict ${verdict.mood}${isOld(value, decided) ? " old" : ""}`;
    if (shownOf === document) return;
    shownOf = document;
    const network = networkOf(document), claim = claimOf(network);
    part("claim-none").hidden = claim !== null;
    part("claim-there").hidden = claim === null;
    part("claim-kind").textContent = claim === null ? "" : String(network.claim.answer ?? "");
    showFields(network);
}

/** Shows what can be changed; a form stays as long as there is the same to be changed, so that it keeps the focus. */
function showFields(network) {
    const list = fieldsOf(network);
    const next = JSON.stringify([language(),
        list.map(({key, says, options, trades}) => [key, says, options, trades?.map(({name}) => name)])]);
    fields = new Map(list.map((field) => [field.key, field]));
    if (next !== structure) keepingFocus(part("claim-fields"), () => part("claim-fields").replaceChildren(...list.map(rowOf)));
    structure = next;
    list.forEach((field, k) => SHOW[field.kind](part("claim-fields").children[k], field));
}

const SIGNS = {content: "\u2713 ", objects: "\u2717 "};

function verdictOf({document, decided}) {
    if (!document.isWhole) return {mood: "unknown", says: say("verdict.too_long")};
    if (claimOf(networkOf(document)) === null) return {mood: "unknown", says: say("claim.none")};
    if (decided === null || decided.isNone) return {mood: "unknown", says: say("verdict.asked")};
    if (decided.trouble) return {mood: "fault", says: decided.trouble};
    const mood = {valid: "content", invalid: "objects"}[decided.said.answer] ?? "fault";
    return {mood, says: `${SIGNS[mood] ?? ""}${decided.sentences.join(" ")}`};
}

function edit(edits, mark = null) {
    store.act("edited", edits, mark);
}

/** The form of a field as a line. */
function rowOf(field) {
    const row = made("div", "", {class: "row field"});
    row.append(...FORMS[field.kind](field));
    return row;
}

const FORMS = {number: numberForm, choice: choiceForm, set: setForm};

/** What stands in a form, by its field. */
const SHOW = {
    number: (row, {node}) => {
        const input = row.querySelector("input"), isChanged = input.dataset.number !== node.value.text;
        input.dataset.number = node.value.text;
        if (!isRefused(input) || isChanged) shownNumber(input, node.value.text);
    },
    choice: (row, {node}) => (row.querySelector("select").value = written(plain(node))),
    set: (row, {trades}) => row.querySelectorAll("input").forEach((box, k) => (box.checked = trades[k].isIn)),
};

function shownNumber(input, text) {
    if (input !== document.activeElement || wholeIn(input.value, MOST) !== text) input.value = text;
    refuse(input, null);
}

const NUMBER = {type: "text", size: 14, autocomplete: "off"};

function numberForm({key, says, out}) {
    const id = `claim ${key}`, input = made("input", "", {...NUMBER, id, "data-key": id});
    const put = (text, mark) => edit(spoilt(fields.get(key), text), mark);
    const read = (text) => wholeIn(text, MOST), shown = () => fields.get(key)?.node.value.text ?? "";
    const reading = {read, why: (text) => whyNotWhole(text, MOST), shown};
    input.addEventListener("input", () => typedIn(input, {...reading, take: (whole) => put(whole, id)}));
    leaving(input, reading);
    input.addEventListener("keydown", (event) => {
        const step = {ArrowUp: 1n, ArrowDown: -1n}[event.key], whole = read(input.value);
        if (step === undefined || whole === null) return;
        event.preventDefault();
        put(String(BigInt(whole) + step));
    });
    return [made("label", says, {for: id}), input, ...(out ? [outButton(key)] : [])];
}

function outButton(key) {
    const {trade} = fields.get(key).out;
    const button = made("button", say("claim.leave_out"),
        {type: "button", "aria-label": say("claim.leave_out_whole", {trade})});
    button.addEventListener("click", () => edit(leftOut(fields.get(key))));
    return button;
}

function choiceForm({key, says, node, options}) {
    const id = `claim ${key}`, select = made("select", "", {id, "data-key": id}), now = written(plain(node));
    const known = options.some(({value}) => value === now) ? [] : [{value: now, says: now}];
    select.append(...[...known, ...options].map((option) => new Option(option.says, option.value)));
    select.addEventListener("change", () => edit(spoilt(fields.get(key), select.value)));
    return [made("label", says, {for: id}), select];
}

function setForm({key, says, trades}) {
    const group = made("fieldset");
    group.append(made("legend", says), ...trades.map(({name}) => {
        const label = made("label", "", {class: "box"});
        const box = made("input", "", {type: "checkbox", "data-key": `claim ${key} ${name}`});
        box.addEventListener("change", () => edit(toggledIn(fields.get(key), name, box.checked)));
        label.append(box, name);
        return label;
    }));
    return [group];
}
