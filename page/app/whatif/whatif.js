// What if: firms that leave and join, trades that come and go, before and after side by side, and what each contributes.
import {written} from "../../read/json.js";
import {admittedIn, editsBetween, editsTo, isIn} from "../../read/states.js";
import {beforeLine, firmStates, gainOf, paidOf, partOf, sharesLine, startLine, tradeStates, unitsOf} from "../../say/whatif.js";
import {say} from "../../words/say.js";
import {goTo, refreshEditor} from "../document/editor.js";
import {memberAs} from "../document/edits.js";
import {isCounted, networkOf} from "../document/state.js";
import {countField, showCount} from "../network/counts.js";
import {keepingFocus, made, on, part} from "../shell/page.js";
import {admit, areOthers, isAsked, isHidden, isOther, suppose} from "./suppose.js";

const FIRM_HEADS = ["head.firm", "head.before", "head.after", "head.change", "head.contributes", "head.vcg"];
const TRADE_HEADS = ["head.trade", "head.before", "head.after", null, "head.contributes"];
const UNIT_HEADS = ["head.trade", "head.admitted", "head.before", "head.after", "head.change", "head.contributes"];

/** The rows of trades with units, by their names, which outlive changes, since somebody types in them. */
let store = null, counted = new Map();

/** Binds what a user does in the view. */
export function bindWhatIf(of) {
    store = of;
    part("panel-whatif").addEventListener("change", ({target}) => {
        const {does, name} = target.dataset;
        if (does !== undefined) suppose(store, [[does, name]], !target.checked);
    });
    on("whatif-on", () => store.act("supposed", store.value.supposed.after, store.value.supposed.after));
    on("whatif-all", () => store.act("supposed", [], []));
    on("whatif-put", putIn);
}

/** Makes what is supposed the edits of the document, and shows them there. */
function putIn() {
    const {document, compared: {before, after}} = store.value, text = written(editsTo(before, after));
    store.act("edited", memberAs(networkOf(document), "edits", text));
    store.act("went", "document");
    refreshEditor();
    goTo(networkOf(store.value.document).root.value.get("edits"));
}

let shown = null;

/** Shows the view of a value. */
export function showWhatIf(value) {
    document.documentElement.dataset.whatif = stateOf(value);
    part("tab-whatif").hidden = isHidden(value);
    const {compared, contributed, supposed} = value, isThere = isAsked(value) && Boolean(compared?.states);
    part("whatif-there").hidden = !isThere;
    part("whatif-there").classList.toggle("old", isOther(value));
    if (!isThere) return;
    able("whatif-on", editsBetween(supposed.before, supposed.after).length > 0);
    able("whatif-all", supposed.before.length + supposed.after.length > 0);
    able("whatif-put", !isOther(value));
    const now = {compared, contributed, supposed};
    if (shown !== null && Object.keys(now).every((name) => shown[name] === now[name])) return;
    shown = now;
    fill(compared, supposed, areOthers(value) ? null : contributed.found ?? null);
}

function stateOf(value) {
    const {compared: said} = value;
    if (!isAsked(value)) return "none";
    if (isOther(value) || areOthers(value)) return "asking";
    return said.trouble ? "trouble" : said.states === null ? "fault" : "answered";
}

function able(id, isAble) {
    part(id).setAttribute("aria-disabled", `${!isAble}`);
}

function fill(said, supposed, found) {
    const network = networkOf(said.document), hasUnits = isCounted(said);
    const lines = [beforeLine(said), startLine(said), found && sharesLine(said), found && say("whatif.vcg"), say("whatif.depend")];
    part("whatif-lines").replaceChildren(...lines.filter(Boolean).map((line) => made("p", line)));
    table("whatif-firms", FIRM_HEADS, network.firms.map(({name}) => firmRow(said, name, supposed, found)));
    const rowFor = hasUnits ? unitsRow : tradeRow, rows = network.trades.map((trade) => rowFor(said, trade, supposed, found));
    counted = new Map(hasUnits ? rows.map((row) => [row.dataset.trade, row]) : []);
    table("whatif-trades", hasUnits ? UNIT_HEADS : TRADE_HEADS, rows);
}

function table(id, heads, rows) {
    const {tHead, tBodies: [body]} = part(id);
    tHead.replaceChildren(rowOf(heads.map((head) => made("th", head === null ? "" : say(head), {scope: "col"}))));
    const isSame = rows.length === body.rows.length && rows.every((row, k) => row === body.rows[k]);
    if (!isSame) keepingFocus(part(id), () => body.replaceChildren(...rows));
}

function rowOf(cells, attributes = {}) {
    const row = made("tr", "", attributes);
    row.append(...cells);
    return row;
}

/** The name of a firm or trade, with a box that says whether it is there after the change. */
function headOf([does, name], says, {after}) {
    const head = made("th", "", {scope: "row"}), label = made("label", "", {class: "box"});
    const names = {"data-does": does, "data-name": name, "data-key": `${does}:${name}`, "aria-label": says};
    const box = made("input", "", {type: "checkbox", ...names});
    box.checked = !isIn(after, [does, name]);
    label.append(box, name);
    head.append(label);
    return head;
}

function numbers(texts) {
    return texts.map((text) => made("td", String(text ?? ""), {class: "number"}));
}

/** A change with its sign. */
function signed(change) {
    return change > 0n ? `+${change}` : change;
}

function firmRow(said, name, supposed, found) {
    const change = signed(gainOf(said, name)), edit = ["leave", name];
    const share = found?.firms.get(name), cells = numbers([...firmStates(said, name), change, share, found && paidOf(said, name, found)]);
    const attributes = {"data-firm": name, class: isIn(supposed.after, edit) ? "away" : null};
    return rowOf([headOf(edit, say("whatif.is_there", {name}), supposed), ...cells], attributes);
}

const PLAYS = {stays: "stays", comes: "comes", goes: "goes", gone: "goes"};
const SAYS = {stays: "role.stays", comes: "role.comes", goes: "role.goes"};

function tradeRow(said, {name, seller, buyer}, supposed, found) {
    const played = partOf(said, name), plays = PLAYS[played] ?? "";
    const head = headOf(["bar", name], say("whatif.is_admitted", {name, seller, buyer}), supposed);
    const cells = [...tradeStates(said, name), plays === "" ? "" : say(SAYS[plays])].map((text) => made("td", text));
    const attributes = {"data-trade": name, class: plays || played};
    return rowOf([head, ...cells, ...numbers([found?.trades.get(name)])], attributes);
}

/** The row of a trade with units: how many are admitted after the change, and how many take place before and after. */
function unitsRow(said, {name}, {after}, found) {
    const row = counted.get(name) ?? madeRow(name), [, {firstElementChild: field, lastElementChild: of}, ...cells] = row.cells;
    const network = networkOf(said.document), most = network.capacity(name), [was, is] = unitsOf(said, name);
    showCount([field, of], admittedIn(network, after, name), most, say("whatif.units_admitted", {name, most}));
    [...tradeStates(said, name, true), signed(is - was), found?.trades.get(name)].forEach((text, k) => (cells[k].textContent = String(text ?? "")));
    row.className = is > was ? "comes" : is < was ? "goes" : partOf(said, name);
    return row;
}

function madeRow(name) {
    const row = made("tr", "", {"data-trade": name}), admitted = made("td", "", {class: "number"});
    const network = () => networkOf(store.value.document), now = () => admittedIn(network(), store.value.supposed.after, name);
    admitted.append(...countField(`admitted:${name}`, {most: () => network().capacity(name), now, put: (count) => admit(store, name, count)}));
    row.append(made("th", name, {scope: "row"}), admitted, ...["", "", "number", "number"].map((kind) => made("td", "", {class: kind})));
    return row;
}
