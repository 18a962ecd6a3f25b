// One price for several trades at once: a slider for those that the table shows.
import {entriesOf, isObject, itemsOf} from "../../read/network.js";
import {priced} from "../document/edits.js";
import {networkOf} from "../document/state.js";
import {say} from "../../words/say.js";
import {part, write} from "../shell/page.js";
import {shownTrades} from "./trades.js";

/** Beyond this a slider has no place for a whole number each. */
const FARTHEST = 1_000_000;

/** Makes the slider ready for a store. */
export function readyTogether(store) {
    part("one-price").addEventListener("input", () => {
        const network = networkOf(store.value.document), price = part("one-price").value;
        store.act("edited", priced(network, new Map(shownTrades(store.value).map(({name}) => [name, price]))), "one price");
    });
}

let shownOf = null;

/** Shows it, where a guess is looked at. */
export function showTogether(value) {
    const {document, view} = value;
    if (shownOf?.document === document && shownOf.view === view) return;
    shownOf = {document, view};
    const trades = view.mode === "guess" ? shownTrades(value) : [];
    part("together").hidden = trades.length === 0;
    if (trades.length === 0) return;
    const network = networkOf(document), known = entriesOf(network.arrangement.prices), prices = trades.map(({name}) => known.get(name));
    const [least, most] = endsOf(network, [...known.values()]), isOne = prices.every((price) => typeof price === "bigint" && price === prices[0]);
    const slider = part("one-price");
    [slider.min, slider.max] = [least, most];
    if (slider !== globalThis.document.activeElement || isOne) slider.value = typeof prices[0] === "bigint" ? String(prices[0]) : least;
    write("one-price-says", say("stage.one_price", {count: trades.length, price: isOne ? String(prices[0]) : "\u2026"}));
}

/** The ends of the slider, by the numbers of firms and the prices that there are. */
function endsOf(network, prices) {
    const numbers = [...numbersIn(itemsOf(network.data.firms).map(moneyOf)), ...prices].filter((each) => typeof each === "bigint").map(Number);
    const most = Math.min(FARTHEST, Math.max(1, ...numbers.map(Math.abs)));
    return [String(Math.max(-FARTHEST, Math.min(0, ...prices.filter((each) => typeof each === "bigint").map(Number)))), String(most)];
}

/** A firm without the counts of its steps, which are no money. */
function moneyOf(firm) {
    if (!isObject(firm) || !Array.isArray(firm.sets)) return firm;
    const last = (steps) => itemsOf(steps).map((step) => itemsOf(step).at(-1));
    return {...firm, sets: firm.sets.map((set) => ({...set, bought: last(set?.bought), sold: last(set?.sold)}))};
}

/** All whole numbers in some data. */
function numbersIn(data) {
    if (typeof data === "bigint") return [data];
    return typeof data === "object" && data !== null ? Object.values(data).flatMap(numbersIn) : [];
}
