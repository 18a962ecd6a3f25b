// An assignment market as a grid: sellers across, buyers down, what each is worth to the buyer in the cells, costs and capacities in the
// margin. A grid is rows of cells, as a spreadsheet has them, whoever typed it.
import {decimalIn, digits, each, faultAt, measureOf, plainText, throwAll} from "./cells.js";
import {Fraction, ONE} from "./fractions.js";
import {written} from "./json.js";
import {LARGEST} from "./limits.js";
import {amountIn, codesOf, unitFor, versionFor} from "./lots.js";
import {isObject, itemsOf} from "./network.js";
import {membersOf, sideOf, templateOf} from "./templates.js";

/** What a margin may be called, in any language of the page. */
export const MARGINS = {cost: ["cost", "costs", "from", "kosten", "ab"], most: ["at most", "capacity", "höchstens", "kapazität"]};

/** What stands where there is no trade, beside nothing. */
const DASH = /^[-\u2013\u2014]$/;

const TABLE = "grid", NUMBER = /^[+-]?[\d ']+([.,]\d+)?$/;

/** Rows without those at the end in which nothing stands, each as long as the longest. */
function squared(rows) {
    const plain = rows.map((row) => row.map(plainText)), isFull = (cell) => cell !== "";
    const height = plain.findLastIndex((row) => row.some(isFull)) + 1, width = Math.max(0, ...plain.map((row) => row.findLastIndex(isFull) + 1));
    return plain.slice(0, height).map((row) => Array.from({length: width}, (_, k) => row[k] ?? ""));
}

/** Which row or column of a grid has which margin: by what stands at its begin. */
function marginOf(text) {
    return Object.keys(MARGINS).find((margin) => MARGINS[margin].includes(text.toLowerCase())) ?? null;
}

/**
 * A grid with its names and margins in the first rows and columns, of rows that may have none: numbers alone are worths, and names are made.
 */
export function wholeGrid(rows) {
    const isName = (cell) => cell !== "" && !NUMBER.test(cell) && !DASH.test(cell), cells = squared(rows);
    const hasSide = cells.length > 0 && (cells[0][0] === "" || cells.slice(1).some(([first]) => isName(first)));
    const wide = hasSide ? cells : cells.map((row) => ["", ...row]), hasHead = wide.length > 0 && wide[0].slice(1).some(isName);
    return hasHead ? wide : [wide.length > 0 ? wide[0].map(() => "") : [""], ...wide];
}

/**
 * The market of a grid, as `{document, unit, sellers, buyers, trades}`: its text, the unit of its numbers, and how many there are of each.
 * `between` is what parted the cells. Throws Faults, whose places are in the whole grid.
 */
export function marketOf(cells, between) {
    const grid = gridOf(cells, between), unit = unitFor(numbersOf(grid)), faults = [];
    const {sellers, buyers} = grid, codes = codesOf([...sellers, ...buyers].map(({name, place}) => ({name, row: place.row + (place.column ?? 0)})));
    const trades = sellers.flatMap((seller, k) => buyers.filter(({worths}) => worths[k] !== null).map((buyer) => ({seller, buyer, worth: buyer.worths[k]})));
    if (trades.length === 0) throw faultAt({table: TABLE}, "sheet.no_worths");
    nameTrades(trades, codes);
    const own = (firm) => trades.filter(({seller, buyer}) => seller === firm || buyer === firm), firms = [...sellers, ...buyers];
    const version = versionFor(Math.max(firms.length, trades.length), Math.max(...firms.map((firm) => Math.max(own(firm).length, firm.most))));
    if (version === null) throw faultAt({table: TABLE}, "sheet.too_large", {most: LARGEST.most, own: LARGEST.own});
    const inUnits = (measure) => amountIn(version, unit, measure, faults);
    const texts = firms.map((firm) => firmText(firm, codes.get(firm.name), own(firm), inUnits));
    throwAll(faults);
    return {document: documentText(version, unit, texts, trades, codes), unit, sellers: sellers.length, buyers: buyers.length, trades: trades.length};
}

/** What stands in a grid: sellers and buyers with their names, costs, capacities and worths. */
function gridOf(cells, between) {
    const [head = [], ...rows] = cells, decimal = decimalIn(cells.flat().filter((cell) => NUMBER.test(cell)), between), faults = [];
    const at = (row, column) => ({text: cells[row]?.[column] ?? "", place: {table: TABLE, row: row + 1, column}});
    const kinds = rows.map(([first]) => marginOf(first ?? "")), columns = head.map((name, k) => (k === 0 ? "name" : marginOf(name)));
    const rowAt = (margin) => kinds.indexOf(margin) + 1, columnAt = (margin) => columns.indexOf(margin);
    const across = columns.flatMap((kind, k) => (kind === null ? [k] : [])), down = kinds.flatMap((kind, k) => (kind === null ? [k + 1] : []));
    const read = (cell, otherwise, reading) => each([cell], (one) => reading(one, decimal), faults)[0] ?? otherwise;
    const most = (row, column) => read(at(row, column), 1, mostAt), nameless = {S: 0, B: 0};
    const name = (cell, letter) => (nameless[letter] += 1, cell.text === "" ? `${letter}${nameless[letter]}` : cell.text);
    const sellers = across.map((k) => ({name: name(at(0, k), "S"), place: at(0, k).place, isSeller: true,
        cost: rowAt("cost") > 0 ? read(at(rowAt("cost"), k), null, numberAt) : null, most: rowAt("most") > 0 ? most(rowAt("most"), k) : 1}));
    const buyers = down.map((row) => ({name: name(at(row, 0), "B"), place: at(row, 0).place, isSeller: false,
        most: columnAt("most") > 0 ? most(row, columnAt("most")) : 1, worths: across.map((k) => read(at(row, k), null, numberAt))}));
    sameNames([...sellers, ...buyers], faults);
    throwAll(faults);
    return {sellers, buyers};
}

function numberAt({text, place}, decimal) {
    return text === "" || DASH.test(text) ? null : measureOf(text, place, decimal);
}

function mostAt(cell, decimal) {
    const measure = numberAt(cell, decimal);
    if (measure === null) return 1;
    const {numerator, denominator} = measure.value;
    const isCapacity = denominator === 1n && numerator >= 1n && numerator <= BigInt(LARGEST.own);
    if (!isCapacity) throw faultAt(cell.place, "sheet.capacity_wanted", {text: cell.text, most: LARGEST.own});
    return Number(numerator);
}

function sameNames(firms, faults) {
    const seen = new Set();
    for (const {name, place} of firms) {
        if (seen.has(name)) faults.push({place, key: "sheet.same_name", values: {text: name}});
        seen.add(name);
    }
}

function numbersOf({sellers, buyers}) {
    return [...sellers.map(({cost}) => cost), ...buyers.flatMap(({worths}) => worths)].filter((measure) => measure !== null).map(({value}) => value);
}

/** Gives each trade a name: of its seller and its buyer, as the form does. */
function nameTrades(trades, codes) {
    const taken = new Set(), letters = (firm) => codes.get(firm.name).toLowerCase();
    for (const trade of trades) {
        const first = `${letters(trade.seller)}-${letters(trade.buyer)}`.slice(0, 27);
        let name = first;
        for (let k = 2; taken.has(name); k += 1) name = `${first}-${k}`;
        trade.name = name;
        taken.add(name);
    }
}

/** A seller or a buyer as its template makes it. */
function firmText(firm, code, trades, inUnits) {
    const further = Array(firm.most - 1).fill(0n), own = trades.map(({name}) => ({name, isSale: firm.isSeller}));
    const each = new Map(firm.isSeller ? [] : trades.map(({name, worth}) => [name, inUnits(worth)]));
    const first = firm.isSeller && firm.cost !== null ? inUnits(firm.cost) : 0n, note = code === firm.name ? {} : {note: firm.name};
    const template = `${firm.isSeller ? "seller" : "buyer"}-${firm.most > 1 ? "many" : "one"}`;
    return written({name: code, ...note, ...membersOf(template, {first, further, each}, own)});
}

function documentText(version, unit, firms, trades, codes) {
    const note = digits(unit, 12) === "1" ? "" : ` "note":${written({unit: digits(unit, 12)})},\n`;
    const lines = trades.map(({name, seller, buyer}) => written({name, seller: codes.get(seller.name), buyer: codes.get(buyer.name)}));
    return `{"version":${version.number},\n${note} "firms":[\n  ${firms.join(",\n  ")}],\n "trades":[\n  ${lines.join(",\n  ")}]}\n`;
}

/**
 * The grid of a document, where it is of sellers and buyers of the templates of a grid, with one trade at most for each two; or null.
 * `labels` are those of the margins.
 */
export function gridIn(network, labels) {
    const {trades} = network, firms = itemsOf(network.data.firms).filter(isObject).map((firm) => knownFirm(network, firm));
    const pairs = new Set(trades.map(({seller, buyer}) => `${seller} ${buyer}`));
    if (trades.length === 0 || pairs.size < trades.length || !firms.every(isOfGrid)) return null;
    const side = (name) => firms.filter(({template}) => sideOf(template) === name);
    const unit = unitOf(network), shown = (number) => digits(new Fraction(number).times(unit), 12);
    const sellers = side("seller"), most = ({numbers: {further}}) => `${further.length + 1}`;
    const worth = (seller, {name, numbers}) => {
        const trade = trades.find((each) => each.seller === seller.name && each.buyer === name);
        return trade ? shown(numbers.first + (numbers.each.get(trade.name) ?? 0n)) : "";
    };
    const cost = ({numbers: {first, each: amounts}}) => shown(first - ([...amounts.values()][0] ?? 0n));
    return [["", labels.most, ...sellers.map(({called}) => called)], [labels.cost, "", ...sellers.map(cost)], [labels.most, "", ...sellers.map(most)],
        ...side("buyer").map((buyer) => [buyer.called, most(buyer), ...sellers.map((seller) => worth(seller, buyer))])];
}

/** A firm with its template, and what it is called. */
function knownFirm(network, firm) {
    const own = network.ownTrades(firm.name), {name, note} = firm;
    const called = typeof note === "string" && note !== "" ? note : String(name);
    return {...templateOf(firm, own), name, called, count: own.length};
}

/** Whether a grid says all of a firm: no further unit differs, and a seller has one cost for all. */
function isOfGrid({template, numbers, count}) {
    const side = sideOf(template);
    if (!["seller", "buyer"].includes(side) || numbers.further.some((step) => step !== 0n)) return false;
    return side === "buyer" || numbers.each.size === 0 || (numbers.each.size === count && new Set(numbers.each.values()).size === 1);
}

/** The unit that a document's note has; 1 where it has none. */
function unitOf({data: {note}}) {
    const said = isObject(note) && typeof note.unit === "string" ? note.unit : "1";
    return /^\d+(\.\d+)?$/.test(said) && !/^[0.]+$/.test(said) ? measureOf(said, {}, ".").value : ONE;
}

/** An empty grid of so many sellers and buyers. */
export function emptyGrid(sellers, buyers, labels) {
    const names = (letter, count) => Array.from({length: count}, (_, k) => `${letter}${k + 1}`), blank = Array(sellers).fill("");
    return [["", labels.most, ...names("S", sellers)], [labels.cost, "", ...blank], [labels.most, "", ...blank],
        ...names("B", buyers).map((name) => [name, "", ...blank])];
}
