// The tables of the form: cells that are typed, pasted or dropped, what is wrong at which, and the market that is made of them.
import {each} from "../../read/cells.js";
import {language, say} from "../../words/say.js";
import {networkOf} from "../document/state.js";
import {made, on, part, write} from "../shell/page.js";
import {
    blockIn, cellName, EMPTY_SHEET, gridSheet, grown, isBlock, outcomeOf, saysUnread, tablesOf, withBlock, withCell, withCells,
} from "./sheets.js";

/** How many rows of a table are shown, and more only up to the last in which something is wrong. */
const MOST_ROWS = 100;

let store = null, shown = null, structure = "";

const outcomes = new WeakMap();

/** What comes of a sheet, found once in each language. */
function outcomeFor(sheet) {
    if (outcomes.get(sheet)?.language !== language()) outcomes.set(sheet, {...outcomeOf(sheet), language: language()});
    return outcomes.get(sheet);
}

/** Makes the tables ready for a store. */
export function readySheet(of) {
    store = of;
    on("sheet-grid", () => look(gridSheet(networkOf(store.value.document))));
    on("sheet-paste", () => {
        look(EMPTY_SHEET);
        part("sheet-pasted").focus();
    });
    on("sheet-close", () => look(null));
    on("sheet-make", () => make(store.value.view.sheet));
    on("sheet-seller", () => look(grown(store.value.view.sheet, "grid", true)));
    on("sheet-buyer", () => look(grown(store.value.view.sheet, "grid", false)));
    for (const id of ["lot", "unit"]) part(`sheet-${id}`).addEventListener("input", () => look({...store.value.view.sheet, [id]: part(`sheet-${id}`).value}));
    part("sheet-round").addEventListener("change", () => look({...store.value.view.sheet, isRounded: part("sheet-round").checked}));
    part("sheet-pasted").addEventListener("input", () => {
        const text = part("sheet-pasted").value;
        part("sheet-pasted").value = "";
        takeTexts([[say("sheet.pasted_cells"), text]]);
    });
    part("sheet-tables").addEventListener("input", ({target}) => look(withCell(store.value.view.sheet, ...placeOf(target), target.value)));
    part("sheet-tables").addEventListener("keydown", move);
    part("sheet-faults").addEventListener("click", ({target}) => focusOn(target.closest("[data-cell]")?.dataset.cell));
    document.addEventListener("paste", pasted);
}

function look(sheet) {
    store.act("looked", {sheet});
}

/** Where a cell stands: its table, its row and its column. */
function placeOf({dataset: {key}}) {
    const [, table, row, column] = key.split(" ");
    return [table, Number(row), Number(column)];
}

/** A block of cells that is pasted while the form is open: into the cells from one on, or as a whole. */
function pasted(event) {
    const {view: {panel, sheet}} = store.value, text = event.clipboardData?.getData("text/plain") ?? "", {target} = event;
    if (panel !== "build" || !isBlock(text)) return;
    const cell = target.closest?.("#sheet-tables input") ?? null, isField = target.closest?.("input, textarea, .CodeMirror") ?? null;
    if (cell === null && isField !== null && target.id !== "sheet-pasted") return;
    event.preventDefault();
    const [table, row, column] = cell === null ? [null, 0, 0] : placeOf(cell);
    if (row + column === 0) takeTexts([[say("sheet.pasted_cells"), text]]);
    else withCellsOf([[say("sheet.pasted_cells"), text]], ([block]) => look(withCells(sheet, table, row, column, block)));
}

/** Takes tables in texts, each with its name. */
export function takeTexts(texts) {
    withCellsOf(texts, takeTables);
}

/** Does something with the cells of texts; where one has none as they are wanted, that is told. */
function withCellsOf(texts, act) {
    const faults = [], blocks = each(texts, ([name, text]) => ({...blockIn(text), name}), faults);
    part("notice").hidden = faults.length === 0;
    if (faults.length === 0) act(blocks);
    else part("notice").textContent = saysUnread({list: faults}, texts.map(([name]) => name).join(", "));
}

/** Takes tables, and makes the market at once where nothing is wrong. */
export function takeTables(blocks) {
    const sheet = blocks.reduce(withBlock, store.value.view.sheet);
    if (store.value.view.panel !== "build") store.act("went", "build");
    look(sheet);
    make(sheet);
}

/** The document becomes the market of a sheet, where it makes one; the sheet stays beside it. */
function make(sheet) {
    const {text} = outcomeFor(sheet);
    if (text === null) return;
    store.act("opened", sheet.grid === null ? "tables.json" : "grid.json", new TextEncoder().encode(text));
    look(sheet);
}

/** The arrow keys and Enter go to the cell above or below. */
function move(event) {
    const step = {ArrowUp: -1, ArrowDown: 1, Enter: 1}[event.key];
    if (step === undefined) return;
    const [table, row, column] = placeOf(event.target);
    event.preventDefault();
    focusOn(`cell ${table} ${row + step} ${column}`);
}

function focusOn(key) {
    const cell = [...part("sheet-tables").querySelectorAll("input")].find((each) => each.dataset.key === key);
    cell?.focus();
    cell?.select();
}

/** Shows the tables of a value. */
export function showSheet({document, view: {panel, sheet}}) {
    if (panel !== "build" || (shown !== null && shown.sheet === sheet && shown.document === document)) return;
    shown = {sheet, document};
    part("sheet").hidden = sheet === null;
    part("sheet-tools").hidden = sheet !== null;
    if (sheet === null) return;
    const {text, says, faults} = outcomeFor(sheet), isGrid = sheet.grid !== null, isNone = tablesOf(sheet).length === 0;
    for (const id of ["sheet-seller", "sheet-buyer"]) part(id).hidden = !isGrid;
    part("sheet-sizes").hidden = isGrid || isNone;
    part("sheet-make").hidden = isNone;
    part("sheet-make").setAttribute("aria-disabled", `${text === null || text === document.text}`);
    write("sheet-says", [says, ...(text !== null && text === document.text ? [say("sheet.is_made")] : [])].join(" "));
    for (const id of ["lot", "unit"]) if (part(`sheet-${id}`) !== globalThis.document.activeElement) part(`sheet-${id}`).value = sheet[id];
    part("sheet-round").checked = sheet.isRounded;
    part("sheet-faults").replaceChildren(...faults.map(faultLine));
    showCells(sheet, faults);
}

function faultLine({says, table, row, column}) {
    const line = made("li");
    line.append(row === null ? made("span", says) : made("button", says, {type: "button", class: "plain", "data-cell": `cell ${table} ${row} ${column ?? 0}`}));
    return line;
}

/** The cells; they stay as long as there are as many, so that the focus does. */
function showCells(sheet, faults) {
    const tables = tablesOf(sheet), rowsIn = (name) => Math.max(MOST_ROWS, ...faults.filter(({table, row}) => table === name && row !== null).map(({row}) => row + 1));
    const sizes = tables.map((name) => [name, rowsIn(name), sheet[name].rows.length, widthOf(sheet[name])]), next = JSON.stringify(sizes);
    if (next !== structure) part("sheet-tables").replaceChildren(...tables.map((name) => tableFor(name, sheet[name], rowsIn(name))));
    structure = next;
    const wrong = new Map(faults.filter(({row}) => row !== null).map(({table, row, column, says}) => [`cell ${table} ${row} ${column ?? 0}`, says]));
    for (const input of part("sheet-tables").querySelectorAll("input")) {
        const [table, row, column] = placeOf(input), text = sheet[table].rows[row]?.[column] ?? "", says = wrong.get(input.dataset.key) ?? null;
        if (input.value !== text) input.value = text;
        input.setAttribute("aria-invalid", `${says !== null}`);
        input.title = says ?? "";
    }
}

function widthOf({rows}) {
    return Math.max(1, ...rows.map((row) => row.length));
}

function tableFor(name, table, most) {
    const frame = made("table", "", {class: "sheet"}), rows = table.rows.slice(0, most), width = widthOf(table);
    frame.append(...rows.map((_, row) => rowFor(name, row, width)));
    const box = made("div", "", {class: "scroll"});
    box.append(frame, ...(rows.length < table.rows.length ? [made("p", say("sheet.more_rows", {count: table.rows.length - rows.length}), {class: "quiet"})] : []));
    return box;
}

const CELL = {type: "text", autocomplete: "off", spellcheck: "false"};

function rowFor(name, row, width) {
    const line = made("tr");
    line.append(...Array.from({length: width}, (_, column) => {
        const cell = made("td");
        cell.append(made("input", "", {...CELL, size: name === "grid" ? 4 : 9, "aria-label": cellName(row, column), "data-key": `cell ${name} ${row} ${column}`}));
        return cell;
    }));
    return line;
}
