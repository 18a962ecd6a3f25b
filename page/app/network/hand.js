// Pointer and keys on the network: a click turns a trade on or off, a drag gives it a price, and elsewhere moves the picture. A finger
// that is drawn over it scrolls the page, or moves the picture to a side, and changes no price; the buttons of the chosen trade do.
import {isCounted} from "../document/state.js";
import {countOf, priceOf, setCount, setPrice, turn} from "../document/terms.js";
import {part} from "../shell/page.js";
import {suppose} from "../whatif/suppose.js";
import {lookedBy, panned, zoomIn, zoomOut} from "./scene.js";

/** How far a pointer goes before it drags, and for how many pixels a price changes by a step. */
const LEAST_DRAG = 5, PER_STEP = 8;

let drags = 0;

/** Listens to pointer and keys on the network. `type` is called with a trade and a first letter where somebody begins to type a price. */
export function handle(store, type) {
    const stage = part("stage");
    let held = null;
    stage.addEventListener("pointerdown", (event) => {
        if (event.button !== 0) return;
        const {clientX: x, clientY: y, pointerId: pointer} = event, key = keyAt(event.target);
        const isFinger = event.pointerType === "touch";
        held = {x, y, pointer, key, view: store.value.view, isMoved: false, ...(isFinger ? {trade: null} : grip(store, key))};
    });
    stage.addEventListener("pointermove", (event) => {
        if (held === null || event.pointerId !== held.pointer) return;
        const dx = event.clientX - held.x, dy = event.clientY - held.y;
        if (!held.isMoved && Math.hypot(dx, dy) < LEAST_DRAG) return;
        if (!held.isMoved) stage.setPointerCapture(event.pointerId);
        held.isMoved = true;
        if (held.trade) dragPrice(store, held, Math.round(-dy / PER_STEP), event.shiftKey);
        else store.act("looked", panned(held.view, dx, event.pointerType === "touch" ? 0 : dy));
    });
    stage.addEventListener("pointerup", () => {
        if (held !== null && !held.isMoved) choose(store, held.key, true);
        held = null;
    });
    stage.addEventListener("pointercancel", () => (held = null));
    stage.addEventListener("wheel", (event) => {
        if (!event.ctrlKey && !event.metaKey) return;
        event.preventDefault();
        const at = {x: event.clientX, y: event.clientY};
        store.act("looked", event.deltaY < 0 ? zoomIn(store.value.view, at) : zoomOut(store.value.view, at));
    }, {passive: false});
    stage.addEventListener("keydown", (event) => {
        if (!event.ctrlKey && !event.metaKey && !event.altKey && pressed(store, event, type)) event.preventDefault();
    });
}

/** The key of the lane or firm that an element belongs to, or null. */
function keyAt(element) {
    const found = element.closest?.("[data-key], [data-of]");
    return found ? found.dataset.key ?? found.dataset.of : null;
}

/** What is held by a lane of one trade: its name and price. */
function grip(store, key) {
    const trade = store.value.view.mode === "whatif" ? null : onlyTrade(key);
    if (trade === null) return {trade: null};
    drags += 1;
    return {trade, price: priceOf(store.value, trade), mark: `drag ${drags}`};
}

/** The trades of the lane of a key. */
function tradesOf(key) {
    const lane = [...part("stage").querySelectorAll(".lane")].find((element) => element.dataset.key === key);
    return lane ? lane.dataset.trades.split(" ") : [];
}

/** The trade of a lane that has only one, or null. */
function onlyTrade(key) {
    const trades = key?.startsWith("lane:") ? tradesOf(key) : [];
    return trades.length === 1 ? trades[0] : null;
}

/** A step of a price, or of units, by its size: 1 below a hundred, 10 below ten thousand, and so on. */
function stepOf(price, isFine) {
    const digits = String(price < 0n ? -price : price).length;
    return isFine ? 1n : 10n ** BigInt(Math.max(0, Math.ceil(digits / 2) - 1));
}

/** The chosen trade whose price buttons change, or null: one trade of a guess or of what is signed. */
export function nudged({view, selection}) {
    return view.mode === "whatif" || selection?.kind !== "lane" ? null : selection.trade ?? onlyTrade(selection.key);
}

/** Makes the price of the chosen trade greater or less by a step. */
export function nudge(store, by) {
    const trade = nudged(store.value), price = trade === null ? 0n : priceOf(store.value, trade);
    if (trade !== null) setPrice(store, trade, price + by * stepOf(price, false), `nudge of ${trade}`);
}

/** Lets a step more or fewer units of the chosen trade go. */
export function nudgeUnits(store, by) {
    const trade = nudged(store.value);
    if (trade !== null) addUnits(store, trade, by, false, `units of ${trade}`);
}

function addUnits(store, trade, by, isFine, mark = null) {
    const count = countOf(store.value, trade);
    setCount(store, trade, count + by * stepOf(count, isFine), mark);
}

function dragPrice(store, {trade, price, mark, key}, steps, isFine) {
    if (store.value.selection?.key !== key) store.act("selected", {kind: "lane", key});
    setPrice(store, trade, price + BigInt(steps) * stepOf(price, isFine), mark);
}

/** The edits that take a firm away, or the trades of a lane. */
function awayAt(key) {
    return key.startsWith("firm:") ? [["leave", key.slice(5)]] : tradesOf(key).map((name) => ["bar", name]);
}

/** Chooses a lane or firm; a lane of one trade is turned on or off too. In a what-if they go, or are there again. */
function choose(store, key, isTurned) {
    if (key === null) return store.act("selected", null);
    if (store.value.view.mode === "whatif") return suppose(store, awayAt(key));
    if (key.startsWith("firm:")) return store.act("selected", {kind: "firm", name: key.slice(5)});
    const trade = onlyTrade(key);
    if (trade !== null && isTurned) turn(store, trade);
    return store.act("selected", {kind: "lane", key});
}

/** Whether a key did something. */
function pressed(store, event, type) {
    const key = event.target.dataset?.key ?? null;
    if (key === null) {
        const view = lookedBy(store.value.view, event.key);
        if (view !== null) store.act("looked", view);
        return view !== null;
    }
    if (event.key === "Enter" || event.key === " ") return choose(store, key, true), true;
    const trade = onlyTrade(key);
    if (trade === null || store.value.view.mode === "whatif") return false;
    if (/^[-\d]$/.test(event.key)) {
        choose(store, key, false);
        return type(trade, event.key), true;
    }
    const units = isCounted(store.value) ? {ArrowRight: 1n, ArrowLeft: -1n}[event.key] : undefined;
    if (units !== undefined) {
        choose(store, key, false);
        return addUnits(store, trade, units, event.shiftKey), true;
    }
    const steps = {ArrowUp: 1n, ArrowDown: -1n}[event.key];
    if (steps === undefined) return false;
    choose(store, key, false);
    const price = priceOf(store.value, trade);
    return setPrice(store, trade, price + steps * stepOf(price, event.shiftKey)), true;
}
