// Firms and lanes as two tables have them, in their own quantities and money. `package/trading_networks/lane_tables.py` reads the same.
import {decimalIn, each, faultAt, measureOf, plainText, separatorOf, throwAll, digits} from "./cells.js";
import {ZERO} from "./fractions.js";

export const SELLS = "sells", BUYS = "buys", PASSES_ON = "passes on";
const ROLES = [SELLS, "makes", PASSES_ON, BUYS], STEPS = "(?:quantity|at) [1-9]\\d?";
const NUMERIC = new RegExp(`^(?:capacity|value|${STEPS})$`);

/** The columns of each table, as a pattern and as people read them. */
export const COLUMNS = {
    firms: {pattern: new RegExp(`^(?:firm|role|capacity|${STEPS}|inputs|outputs|note)$`),
        says: "firm, role, capacity, quantity 1, at 1, quantity 2, at 2 and so on, inputs, outputs, note"},
    lanes: {pattern: new RegExp(`^(?:from|to|good|by|capacity|${STEPS}|note)$`),
        says: "from, to, good, by, capacity, quantity 1, at 1, quantity 2, at 2 and so on, note"},
};

/** The names of the columns of a table, as its first row has them. */
export function headOf(row) {
    return row.map((name) => plainText(name).toLowerCase().replaceAll("_", " "));
}

/** Reads both tables, each given as its rows of cells and what parted them; the faults of both are thrown together. */
export function networkOf(firms, lanes) {
    const [firmRows, laneRows] = [readTable("firms", firms), readTable("lanes", lanes)], faults = [];
    const network = {firms: each(firmRows, firmOf, faults), lanes: each(laneRows, laneOf, faults)};
    network.byName = new Map(network.firms.map((firm) => [firm.name, firm]));
    sameNames(network.firms, ({name}) => name, faults);
    sameNames(network.lanes, nameOfLane, faults);
    if (faults.length === 0) faults.push(...network.lanes.flatMap((lane) => laneFaults(network, lane)), ...goodFaults(network));
    throwAll(faults);
    return network;
}

/** A text as the rows of a table, with what parts its cells. */
export function tableOf(text, rows) {
    return {rows, between: separatorOf(text)};
}

/** The rows of a table by the names of its columns; empty rows are passed over. */
function readTable(table, {rows, between}) {
    if (rows.length === 0) throw faultAt({table}, "sheet.empty");
    const [first, ...more] = rows, head = headOf(first);
    head.forEach((name, column) => {
        const place = {table, row: 1, column};
        if (name !== "" && !COLUMNS[table].pattern.test(name)) throw faultAt(place, "sheet.no_column", {name, columns: COLUMNS[table].says});
        if (name !== "" && head.indexOf(name) < column) throw faultAt(place, "sheet.same_column", {name});
    });
    const lines = more.map((cells, k) => ({number: k + 2, cells: cells.map(plainText)})).filter(({cells}) => cells.some((cell) => cell !== ""));
    const decimal = decimalIn(lines.flatMap(({cells}) => cells.filter((_, k) => NUMERIC.test(head[k] ?? ""))), between);
    return lines.map(({number, cells}) => rowOf(table, number, cells, head, decimal));
}

function rowOf(table, number, cells, head, decimal) {
    const found = new Map(), place = {table, row: number};
    cells.forEach((text, column) => {
        const name = head[column] ?? "";
        if (name !== "") found.set(name, {text, place: {...place, column, name}, decimal});
        else if (text !== "") throw faultAt({...place, column}, "sheet.unnamed", {text});
    });
    return {number, place, cells: found, at: (name) => found.get(name) ?? {text: "", place: {...place, name, isMissing: true}, decimal}};
}

function numberAt({text, place, decimal}) {
    return text === "" ? null : measureOf(text, place, decimal);
}

function notNegative(cell) {
    const number = numberAt(cell);
    if (number !== null && number.value.numerator < 0n) throw faultAt(cell.place, "sheet.below_zero", {text: cell.text});
    return number;
}

function wanted({text, place}, key, values = {}) {
    if (text === "") throw faultAt(place, key, values);
    return text;
}

function sameNames(parts, nameOf, faults) {
    const seen = new Map();
    for (const part of parts) {
        const name = nameOf(part);
        if (seen.has(name)) faults.push({place: part.place, key: "sheet.named_already", values: {row: seen.get(name)}});
        else seen.set(name, part.row);
    }
}

function firmOf(row) {
    const name = wanted(row.at("firm"), "sheet.firm_wanted"), said = row.at("role"), role = wanted(said, "sheet.role_wanted", {roles: ROLES.join(", ")}).toLowerCase();
    if (name === "*") throw faultAt(row.at("firm").place, "sheet.all_firms");
    if (!ROLES.includes(role)) throw faultAt(said.place, "sheet.no_role", {text: said.text, roles: ROLES.join(", ")});
    const schedule = scheduleOf(row);
    if (role === BUYS && row.at("at 1").text === "") throw faultAt(row.at("at 1").place, "sheet.worth_wanted");
    return {name, role, schedule, row: row.number, place: row.place, inputs: goodsOf(row.at("inputs")), outputs: goodsOf(row.at("outputs"))};
}

function laneOf(row) {
    const [source, target] = ["from", "to"].map((column) => wanted(row.at(column), "sheet.end_wanted"));
    return {source, target, schedule: scheduleOf(row), good: row.at("good").text, by: row.at("by").text, row: row.number, place: row.place};
}

function nameOfLane({source, target, good, by}) {
    return JSON.stringify([source, target, good, by]);
}

/** A lane as it is told. */
export function saysLane({source, target, good, by}) {
    const more = [good, by].filter(Boolean).join(", ");
    return `${source} to ${target}${more === "" ? "" : ` (${more})`}`;
}

/** Goods that are listed with | between them: any of them will do. */
function goodsOf({text, place}) {
    const goods = text.split("|").map((good) => good.trim()).filter(Boolean), counted = goods.find((good) => /^\d/.test(good));
    if (counted !== undefined) throw faultAt(place, "sheet.counted_good", {good: counted});
    return new Set(goods);
}

/** The capacity and the steps of a firm or of a lane. Where no capacity is said, the quantities of the steps make it, if all have one. */
function scheduleOf(row) {
    const capacity = notNegative(row.at("capacity")), steps = [];
    const used = [...row.cells].filter(([name, {text}]) => /^(qu|at)/.test(name) && text !== "").map(([name]) => Number(name.split(" ")[1]));
    const count = Math.max(0, ...used);
    for (let k = 1; k <= count; k += 1) steps.push(stepOf(row, k, count));
    return bounded(capacity, steps.length > 0 ? steps : [{quantity: null, rate: {value: ZERO, place: row.place}}]);
}

function stepOf(row, k, count) {
    const quantity = notNegative(row.at(`quantity ${k}`)), rate = numberAt(row.at(`at ${k}`)), {place} = row.at(`at ${k}`);
    if (rate === null && (quantity !== null || k > 1)) throw faultAt(place, "sheet.step_wanted", {step: k});
    if (quantity === null && k < count) throw faultAt(row.at(`quantity ${k}`).place, "sheet.quantity_wanted", {step: k + 1});
    return {quantity, rate: rate ?? {value: ZERO, place}};
}

function bounded(capacity, steps) {
    const last = steps[steps.length - 1], open = [...steps.slice(0, -1), {...last, quantity: null}];
    if (last.quantity === null) return {capacity, steps: open};
    const total = steps.reduce((sum, {quantity}) => sum.plus(quantity.value), ZERO);
    if (capacity?.value.isAbove(total)) throw faultAt(capacity.place, "sheet.steps_end", {total: digits(total), capacity: digits(capacity.value)});
    return {capacity: capacity ?? {...last.quantity, value: total}, steps: open};
}

function laneFaults(network, lane) {
    const faults = [], add = (name, key, values) => faults.push({place: {...lane.place, name}, key, values});
    for (const [end, column, role] of [[lane.source, "from", BUYS], [lane.target, "to", SELLS]]) {
        const firm = network.byName.get(end);
        if (firm === undefined) add(column, "sheet.no_firm", {end});
        else if (firm.role === role) add(column, role === BUYS ? "sheet.only_buys" : "sheet.only_sells", {end});
    }
    if (lane.source === lane.target) faults.push({place: lane.place, key: "sheet.to_itself", values: {end: lane.source}});
    return faults;
}

/** Lanes with goods that their firms don't take or give; a firm that passes on has one good. */
function goodFaults(network) {
    const passed = new Map(), faults = [], called = (good) => good === "" ? "a good without a name" : good;
    for (const lane of network.lanes) for (const [end, goods, key] of [[lane.source, "outputs", "sheet.doesnt_give"], [lane.target, "inputs", "sheet.doesnt_take"]]) {
        const firm = network.byName.get(end), place = {...lane.place, name: "good"};
        if (firm === undefined) continue;
        if (firm[goods].size > 0 && !firm[goods].has(lane.good)) faults.push({place, key, values: {end, good: called(lane.good)}});
        if (firm.role !== PASSES_ON) continue;
        if (!passed.has(end)) passed.set(end, lane);
        const first = passed.get(end);
        if (first.good !== lane.good) faults.push({place, key: "sheet.other_good", values: {end, good: called(first.good), row: first.row}});
    }
    return faults;
}

