// Tables that are to become a market, as plain data: a grid, or firms and lanes. Each is rows of cells with what parted them; what is made
// of them, or what is wrong at which cell, comes of them anew each time.
import {digits, each, Faults, letterOf, measureOf, plainText, rowsIn, separatorOf} from "../../read/cells.js";
import {emptyGrid, gridIn, marketOf, wholeGrid} from "../../read/grid.js";
import {COLUMNS, headOf, networkOf} from "../../read/lanes.js";
import {documentOf} from "../../read/lots.js";
import {saysFault} from "../../say/tables.js";
import {say} from "../../words/say.js";

/** The names of the margins of a grid. */
const labels = () => ({cost: say("sheet.cost"), most: say("sheet.at_most")});

/** What the tables are called. */
const CALLED = {grid: "sheet.the_grid", firms: "sheet.the_firms", lanes: "sheet.the_lanes"};

/** What each of the two tables is known by: the columns that have to be there. */
const WANTED = {firms: ["firm", "role"], lanes: ["from", "to"]};

/** A sheet of a grid: of the document, where it is one, or an empty one. */
export function gridSheet(network) {
    return {...EMPTY_SHEET, grid: {rows: gridIn(network, labels()) ?? emptyGrid(3, 3, labels()), between: "\t"}};
}

/** A sheet of no table yet; `lot` and `unit` are texts, "" where they are to be found. */
export const EMPTY_SHEET = {grid: null, firms: null, lanes: null, lot: "", unit: "", isRounded: false};

/** Whether a text is a block of cells rather than the content of one. */
export function isBlock(text) {
    return /\t|\n./.test(text.trimEnd());
}

/** The cells of a text, with what parted them. Throws Faults where they are none. */
export function blockIn(text) {
    return {rows: rowsIn(text, "pasted"), between: separatorOf(text)};
}

/** A sheet with cells that were pasted or dropped: a grid, or one of the two tables beside the other; both may be in one block, one below the other. */
export function withBlock(sheet, {rows, between}) {
    const blocks = apart(rows).map((some) => [nameOf(some), some]), tables = blocks.filter(([name]) => name !== "grid");
    const put = Object.fromEntries(tables.map(([name, some]) => [name, {rows: some, between}]));
    if (tables.length > 0) return {...EMPTY_SHEET, firms: sheet?.firms ?? null, lanes: sheet?.lanes ?? null, ...put};
    return {...EMPTY_SHEET, grid: {rows: wholeGrid(rows), between}};
}

/** Those of the sheets of a workbook that are taken: tables of firms and lanes, where there are some, and else the first. */
export function chosenOf(sheets) {
    const tables = sheets.filter((rows) => apart(rows).some((some) => nameOf(some) !== "grid"));
    return (tables.length > 0 ? tables : sheets.slice(0, 1)).map((rows) => ({rows, between: "\t"}));
}

/** Tables that stand below each other, with empty rows between them: one begins where a row names its columns. */
function apart(rows) {
    const starts = rows.flatMap((row, k) => (nameOf([row]) === "grid" ? [] : [k]));
    return starts.length < 2 ? [rows] : starts.map((start, k) => trimmed(rows.slice(start, starts[k + 1])));
}

function trimmed(rows) {
    return rows.slice(0, rows.findLastIndex((row) => row.some((cell) => plainText(cell) !== "")) + 1);
}

/** Which table some rows are, by the first of them. */
function nameOf([first = []]) {
    const head = headOf(first);
    const isIts = (name) => WANTED[name].every((column) => head.includes(column)) && head.every((column) => column === "" || COLUMNS[name].pattern.test(column));
    return Object.keys(WANTED).find(isIts) ?? "grid";
}

/** The tables of a sheet that are shown, by their names. */
export function tablesOf(sheet) {
    return ["grid", "firms", "lanes"].filter((name) => sheet[name] !== null);
}

/** A sheet with another text in a cell. */
export function withCell(sheet, table, row, column, text) {
    const {rows} = sheet[table], line = [...(rows[row] ?? [])];
    while (line.length < column) line.push("");
    line[column] = text;
    return {...sheet, [table]: {...sheet[table], rows: rows.with(row, line)}};
}

/** A sheet with a block of cells from one cell on; it grows as it has to. */
export function withCells(sheet, table, row, column, {rows: block, between}) {
    const {rows} = sheet[table], width = Math.max(rows[0].length, column + Math.max(...block.map((line) => line.length)));
    const height = Math.max(rows.length, row + block.length), at = (r, c) => block[r - row]?.[c - column] ?? rows[r]?.[c] ?? "";
    const made = Array.from({length: height}, (_, r) => Array.from({length: width}, (_, c) => at(r, c)));
    return {...sheet, [table]: {rows: made, between: between === "\t" ? "\t" : sheet[table].between}};
}

/** A sheet with one more column, or row: a seller, a buyer, or a line of a table. */
export function grown(sheet, table, isColumn) {
    const {rows} = sheet[table], letter = isColumn ? "S" : "B", taken = rows.flat();
    let name = "";
    for (let k = 1; table === "grid" && (name === "" || taken.includes(name)); k += 1) name = `${letter}${k}`;
    const wider = rows.map((row, k) => [...row, k === 0 ? name : ""]), blank = rows[0].map((_, k) => (k === 0 ? name : ""));
    return {...sheet, [table]: {...sheet[table], rows: isColumn ? wider : [...rows, blank]}};
}

/**
 * What comes of a sheet: `{text, says, faults}`, with the document's text, or null where there is none, a line about it, and what is wrong,
 * each as `{says, table, row, column}`, from 0 on.
 */
export function outcomeOf(sheet) {
    const missing = ["firms", "lanes"].filter((name) => sheet[name] === null);
    if (sheet.grid === null && missing.length > 0) return {text: null, faults: [], says: say(missing.length > 1 ? "sheet.wanted" : `${MISSING[missing[0]]}`)};
    try {
        return sheet.grid === null ? ofTables(sheet) : ofGrid(sheet.grid);
    } catch (error) {
        if (!(error instanceof Faults)) throw error;
        if (error.list[0].key === "sheet.no_worths") return {text: null, faults: [], says: say("sheet.no_worths")};
        return {text: null, says: "", faults: error.list.map((fault) => ({says: saysFault(fault, (table) => say(CALLED[table])), ...cellOf(sheet, fault.place)}))};
    }
}

const MISSING = {firms: "sheet.firms_wanted", lanes: "sheet.lanes_wanted"};

function ofGrid({rows, between}) {
    const {document: text, unit, sellers, buyers, trades} = marketOf(rows, between);
    return {text, faults: [], says: `${say("sheet.grid_made", {sellers, buyers, trades})} ${scaleOf(unit)}`};
}

/** In what the document counts. */
function scaleOf(unit) {
    const shown = digits(unit, 12);
    return shown === "1" ? say("sheet.whole") : say("sheet.scale", {unit: shown, count: digits({numerator: unit.denominator, denominator: unit.numerator})});
}

function ofTables({firms, lanes, lot, unit, isRounded}) {
    const made = documentOf(networkOf(firms, lanes), {lot: sizeIn(lot), unit: sizeIn(unit), isRounded});
    return {text: made.document, faults: [], says: say("sheet.tables_made", {lot: digits(made.lot, 12), unit: digits(made.unit, 12)})};
}

/** A size that was typed, above 0; null where it is to be found, or isn't whole yet. */
function sizeIn(text) {
    const [found] = each([plainText(text)], (typed) => measureOf(typed, {}, typed.includes(",") ? "," : ".").value, []);
    return found !== undefined && found.numerator > 0n ? found : null;
}

/** What is wrong in a text of which no cells can be read, as a sentence; `name` is that of its file. */
export function saysUnread({list: [fault]}, name) {
    return saysFault(fault, () => name);
}

/** The cell of a fault's place: of one that only has the name of its column, by the head. */
function cellOf(sheet, {table, row, column, name}) {
    const head = sheet[table] === null || sheet[table] === undefined ? [] : headOf(sheet[table].rows[0] ?? []), named = head.indexOf(name);
    return {table, row: row === undefined ? null : row - 1, column: column ?? (named < 0 ? null : named)};
}

/** How a cell is called, as a spreadsheet does. */
export function cellName(row, column) {
    return `${letterOf(column)}${row + 1}`;
}
