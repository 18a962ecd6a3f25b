// The table of trades: each can be turned on or off, signed, or be given a number of units, and be given a price, with the bounds of its
// price beside it. Of very many only the rows in sight are there.
import {firmLabel, tradeLabel} from "../../words/labels.js";
import {say} from "../../words/say.js";
import {outcomeOf} from "../document/contracts.js";
import {isCounted, isOld, networkOf} from "../document/state.js";
import {countOf, setCount, setPrice, termsOf, turn} from "../document/terms.js";
import {made, part} from "../shell/page.js";
import {leaving, showWhole, typedIn, wholeIn, whyNotWhole} from "../shell/whole.js";
import {boundsAt, isWithin, scaleOf} from "./bounds.js";
import {countField, showCount} from "./counts.js";
import {laneKey} from "./stage.js";

const HEADS = [["head.trade", "name"], ["head.from", "seller"], ["head.to", "buyer"], ["head.on", "on"],
    ["head.price", "price"], ["head.bounds", null]];

/** How high a row is, in pixels, and beyond how many rows only those in sight are there. */
const HIGH = 37, MOST_ROWS = 200, AROUND = 8;

let store = null, rows = [], present = new Map(), shownOf = null;

/** Makes the table ready for a store. */
export function readyTrades(of) {
    store = of;
    part("trades").tHead.append(headRow());
    part("trades-scroll").addEventListener("scroll", () => requestAnimationFrame(() => fill(store.value)));
    part("filter").addEventListener("input", () => store.act("looked", {filter: part("filter").value.trim()}));
    part("by-firm").addEventListener("change", () => store.act("looked", {firm: part("by-firm").value || null, window: null}));
}

function headRow() {
    const row = made("tr");
    for (const [, by] of HEADS) {
        const cell = made("th", "", {scope: "col", "data-by": by});
        if (by !== null) {
            const button = made("button", "", {type: "button", class: "plain"});
            button.addEventListener("click", () => sortBy(by));
            cell.append(button);
        }
        row.append(cell);
    }
    return row;
}

function sortBy(by) {
    const {sort} = store.value.view;
    store.act("looked", {sort: sort.by !== by ? {by, isDown: false} : sort.isDown ? {by: null, isDown: false} : {by, isDown: true}});
}

/** Shows the table of a value. */
export function showTrades(value) {
    const {document, view, ranges, selection} = value;
    if (shownOf !== null && ["document", "view", "ranges", "selection"].every((name) => shownOf[name] === value[name])) return;
    const isMoved = shownOf?.selection !== selection && selection !== null;
    shownOf = {document, view, ranges, selection};
    const network = networkOf(document);
    rows = sorted(rowsOf(network, value), view.sort);
    showHeads(network, value);
    part("trades").setAttribute("aria-rowcount", rows.length + 1);
    fillFirms(network, view);
    if (part("filter").value.trim() !== view.filter) part("filter").value = view.filter;
    fill(value);
    if (isMoved) bringIn(value);
}

function showHeads(network, {document, view, ranges}) {
    const {cells} = part("trades").tHead.rows[0], isSigned = view.mode === "sign", {over} = outcomeOf(network);
    for (const cell of cells) cell.setAttribute("aria-sort", orderOf(cell.dataset.by, view.sort));
    HEADS.forEach(([head], k) => ((cells[k].firstElementChild ?? cells[k]).textContent = say(head)));
    if (isCounted({document})) cells[3].firstElementChild.textContent = say("head.units");
    if (isSigned) cells[3].firstElementChild.textContent = say("head.signed");
    if (isSigned && over !== 1n) cells[4].firstElementChild.textContent = say("head.price_over", {over});
    cells[5].hidden = rangesOf({view, ranges}).length === 0;
}

/** The ranges that stand beside the prices of a guess, where they are looked at. */
function rangesOf({view, ranges}) {
    return view.hasRanges && view.mode === "guess" ? ranges?.said?.ranges ?? [] : [];
}

function orderOf(column, {by, isDown}) {
    if (by === null || column !== by) return "none";
    return isDown ? "descending" : "ascending";
}

function rowsOf(network, value) {
    const {on, prices, units} = termsOf(value), {filter, firm} = value.view, countAt = (name) => (units === null ? null : units.get(name) ?? 0n);
    const all = network.trades.map((trade, place) => ({...trade, place, on: on.has(trade.name), units: countAt(trade.name), price: prices.get(trade.name)}));
    return all.filter(({name, seller, buyer}) => (firm === null || seller === firm || buyer === firm)
        && (filter === "" || [name, seller, buyer, tradeLabel(name), firmLabel(seller), firmLabel(buyer)].join(" ").toLowerCase().includes(filter.toLowerCase())));
}

/** The trades that the table shows: those of a chosen firm, and of what is looked for. */
export function shownTrades(value) {
    return rowsOf(networkOf(value.document), value);
}

function sorted(all, {by, isDown}) {
    if (by === null) return all;
    const order = (one, other) => (typeof one === "bigint" && typeof other === "bigint" ? (one < other ? -1 : one > other ? 1 : 0)
        : String(one ?? "").localeCompare(String(other ?? ""), "en", {numeric: true}));
    const column = by === "on" && all.some(({units}) => units !== null) ? "units" : by;
    return all.sort((one, other) => (isDown ? -1 : 1) * order(one[column], other[column]) || one.place - other.place);
}

function fillFirms(network, view) {
    const names = network.firms.map(({name}) => name).filter((name) => name !== ""), select = part("by-firm");
    const all = say("page.all_firms"), key = JSON.stringify([all, names.map((name) => [name, firmLabel(name)])]);
    if (select.dataset.names !== key) {
        select.replaceChildren(new Option(all, ""), ...names.map((name) => new Option(firmLabel(name), name)));
        select.dataset.names = key;
    }
    select.value = view.firm ?? "";
}

/** Puts the rows there that are in sight, between two that stand for all others. */
function fill(value) {
    const scroll = part("trades-scroll"), body = part("trades").tBodies[0];
    const isAll = rows.length <= MOST_ROWS, many = Math.ceil((scroll.clientHeight || 600) / HIGH) + 2 * AROUND;
    const first = isAll ? 0 : Math.max(0, Math.min(rows.length - many, Math.floor(scroll.scrollTop / HIGH) - AROUND));
    const seen = isAll ? rows : rows.slice(first, first + many);
    const scale = scaleOf(value), bounds = new Map(rangesOf(value).map((range) => [range.trade, range]));
    const isOldRange = isOld(value, value.ranges);
    const next = new Map(seen.map((row) => [row.name, present.get(row.name) ?? rowFor(row.name)]));
    seen.forEach((row, k) => update(next.get(row.name), row, first + k, value, {scale, range: bounds.get(row.name), isOldRange}));
    present = next;
    const wanted = [...(isAll ? [] : [gap(first)]), ...next.values(), ...(isAll ? [] : [gap(rows.length - first - seen.length)])];
    const isSame = body.children.length === wanted.length && wanted.every((row, k) => body.children[k] === row);
    if (!isSame) replaced(body, wanted);
}

/** Replaces rows, and keeps the focus in a row that stays. */
function replaced(body, wanted) {
    const focused = body.contains(document.activeElement) ? document.activeElement : null;
    body.replaceChildren(...wanted);
    if (focused?.isConnected) focused.focus({preventScroll: true});
}

function gap(count) {
    const row = made("tr", "", {"aria-hidden": "true", class: "gap"}), cell = made("td", "", {colspan: 6});
    cell.style.height = `${count * HIGH}px`;
    row.append(cell);
    return row;
}

/** How a price is read from its field, and what stands in the document in its place. */
const PRICE = (field) => ({read: (text) => wholeIn(text), why: (text) => whyNotWhole(text), shown: () => field.dataset.shown});

/** A row with its button and field, which outlives changes. */
function rowFor(name) {
    const row = made("tr", "", {"data-trade": name});
    const on = made("input", "", {type: "checkbox", "data-key": `on:${name}`});
    const price = made("input", "", {type: "text", size: 6, autocomplete: "off", "data-key": `price:${name}`});
    on.addEventListener("change", () => turn(store, name, on.checked));
    const units = unitsField(name);
    price.addEventListener("input", () => typed(name, price));
    leaving(price, PRICE(price));
    price.addEventListener("focus", () => chosen(name));
    price.addEventListener("keydown", (event) => stepped(event, name, price));
    const head = made("th", name, {scope: "row"});
    const cells = [null, null, null, "number", "bounds"].map((kind) => made("td", "", {class: kind}));
    cells[2].append(on, ...units);
    cells[3].append(price);
    row.append(head, ...cells);
    return row;
}

/** The field of how many units of a trade go. */
function unitsField(name) {
    const put = (count, isTyped) => setCount(store, name, count, isTyped ? `count of ${name}` : null);
    const [field, of] = countField(`units:${name}`, {most: () => networkOf(store.value.document).capacity(name), now: () => countOf(store.value, name), put});
    field.addEventListener("focus", () => chosen(name));
    return [field, of];
}

/** Marks the trade of a field in the network, without moving the focus. */
function chosen(name) {
    const key = laneKey(networkOf(store.value.document).trade(name));
    if (store.value.selection?.key !== key) store.act("selected", {kind: "lane", key, trade: name});
}

function typed(name, price) {
    typedIn(price, {...PRICE(price), take: (whole) => setPrice(store, name, whole, `price of ${name}`)});
}

function stepped(event, name, price) {
    const step = {ArrowUp: 1n, ArrowDown: -1n}[event.key], whole = wholeIn(price.value);
    if (step === undefined || whole === null) return;
    event.preventDefault();
    price.value = String(BigInt(whole) + step);
    setPrice(store, name, price.value);
}

/** Whether a row is of the lane or bound that is chosen. */
function isChosen({name, seller, buyer}, selection) {
    return selection?.kind === "lane" ? selection.key === laneKey({seller, buyer}) : selection?.trade === name;
}

function update(element, row, place, value, {scale, range, isOldRange}) {
    const [head, from, to, on, price, bounds] = element.cells, box = on.firstElementChild, field = price.firstElementChild;
    element.setAttribute("aria-rowindex", place + 2);
    element.className = `${row.on ? "on" : ""}${isChosen(row, value.selection) ? " chosen" : ""}`.trim();
    for (const [cell, says, name] of [[head, tradeLabel(row.name), row.name], [from, firmLabel(row.seller), row.seller], [to, firmLabel(row.buyer), row.buyer]]) {
        if (cell.textContent !== says) cell.textContent = says;
        cell.title = says === name ? "" : name;
    }
    box.checked = row.on;
    showUnits(row, on);
    box.setAttribute("aria-label", say(value.view.mode === "sign" ? "stage.name_signed" : "stage.name_on",
        {name: row.name}));
    field.setAttribute("aria-label", say("stage.price_of", {name: row.name}));
    showWhole(field, row.price === undefined ? "" : String(row.price));
    bounds.hidden = !range;
    const choose = (side) => store.act("selected", {kind: "bound", trade: row.name, side});
    boundsAt(bounds, {range, price: row.price, scale, isOld: isOldRange, selection: value.selection, choose});
    field.classList.toggle("beyond", range !== undefined && !isOldRange && typeof row.price === "bigint" && !isWithin(range, row.price));
}

/** Shows how many units of a trade go, and of how many, in the place of the box. */
function showUnits({name, units: count}, cell) {
    const isThere = count !== null, box = cell.firstElementChild, field = cell.children[1], of = cell.lastElementChild;
    box.hidden = isThere;
    for (const part of [field, of]) part.hidden = !isThere;
    cell.className = isThere ? "number" : "";
    const most = networkOf(store.value.document).capacity(name);
    if (isThere) showCount([field, of], count, most, say("stage.units_of", {name, most}));
}

/** Scrolls the first chosen row into sight, but not away from a field that somebody types in. */
function bringIn({selection}) {
    const place = rows.findIndex((row) => isChosen(row, selection));
    const scroll = part("trades-scroll");
    if (place < 0 || scroll.contains(document.activeElement)) return;
    const top = place * HIGH;
    if (top < scroll.scrollTop || top > scroll.scrollTop + scroll.clientHeight - 2 * HIGH) scroll.scrollTop = top - scroll.clientHeight / 3;
}

/** Goes to the field of a trade's price, with a first letter in it. */
export function typePrice(trade, letter) {
    fill(store.value);
    const field = present.get(trade)?.cells[4].firstElementChild;
    if (!field) return;
    field.focus();
    field.value = letter;
    field.setSelectionRange(1, 1);
    typed(trade, field);
}
