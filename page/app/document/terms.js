// What takes place and at which prices, as a guess or as what is signed: read from the text, and changed in it.
import {entriesOf, itemsOf} from "../../read/network.js";
import {namesOn, unitsOf} from "../../read/standing.js";
import {countedOver, outcomeOf, signed, signedAs, unsigned} from "./contracts.js";
import {arranged, priced, sent, turned} from "./edits.js";
import {isCounted, isOld, networkOf} from "./state.js";

/**
 * The names of the trades that take place, or are signed, and the price of each, of what is signed its numerator; where trades have
 * units also how many of each go.
 */
export function termsOf({document, view}) {
    const network = networkOf(document), {on, prices} = network.arrangement;
    if (view.mode === "guess") return {on: new Set(namesOn(on)), prices: entriesOf(prices), units: isCounted({document}) ? unitsOf(on) : null};
    const {contracts} = outcomeOf(network);
    return {on: new Set(contracts.keys()), prices: contracts, units: null};
}

/** How many units of a trade go in the guess. */
export function countOf(value, trade) {
    const count = termsOf(value).units?.get(trade);
    return typeof count === "bigint" ? count : 0n;
}

/** Lets so many units of a trade go, but no fewer than none, and no more than it has. */
export function setCount(store, trade, count, mark = null) {
    const network = networkOf(store.value.document), most = network.capacity(trade), units = count < 0n ? 0n : count > most ? most : count;
    if (units !== countOf(store.value, trade)) store.act("edited", sent(network, trade, units), mark);
}

/** The price of a trade as a whole number; of one that isn't signed, that of the guess; 0 where it has none. */
export function priceOf({document, view}, trade) {
    const network = networkOf(document), known = termsOf({document, view}).prices.get(trade);
    if (view.mode === "sign" && known === undefined) return guessed(network, trade);
    return typeof known === "bigint" ? known : 0n;
}

/** The price of a trade in the guess, counted over the outcome's denominator. */
function guessed(network, trade) {
    const price = entriesOf(network.arrangement.prices).get(trade);
    return typeof price === "bigint" ? price * outcomeOf(network).over : 0n;
}

/** Gives a trade a price by a change of the text, and signs it where contracts are looked at. */
export function setPrice(store, trade, price, mark = null) {
    const change = store.value.view.mode === "sign" ? signed : priced;
    store.act("edited", change(networkOf(store.value.document), new Map([[trade, String(price)]])), mark);
}

/** Turns a trade on or off by a change of the text, all of its units where it has some; or signs it or takes its contract away. */
export function turn(store, trade, isOn = !termsOf(store.value).on.has(trade)) {
    const network = networkOf(store.value.document);
    if (isCounted(store.value)) return store.act("edited", sent(network, trade, isOn ? network.capacity(trade) : 0n));
    if (store.value.view.mode === "guess") return store.act("edited", turned(network, trade, isOn));
    return store.act("edited", isOn ? signed(network, new Map([[trade, String(priceOf(store.value, trade))]])) : unsigned(network, trade));
}

/** Makes a guess of some trades, or entries of trades and their units, and prices; changes with one mark are taken back together. */
export function arrange(store, names, prices, mark = null) {
    const inLetters = new Map(prices.map(([name, price]) => [name, String(price)]));
    store.act("edited", arranged(networkOf(store.value.document), names, inLetters), mark);
}

/** Gives the trades of the guess other prices. */
export function reprice(store, prices) {
    store.act("edited", priced(networkOf(store.value.document), new Map(prices.map(([name, price]) => [name, String(price)]))));
}

/** Signs what takes place in the guess, at its prices, over the denominator that is there. */
export function signGuess(store) {
    const network = networkOf(store.value.document), {on} = termsOf({...store.value, view: {mode: "guess"}});
    const names = network.trades.map(({name}) => name).filter((name) => on.has(name));
    store.act("edited", signedAs(network, outcomeOf(network).over, new Map(names.map((name) => [name, String(guessed(network, name))]))));
}

/** Signs the trades of an answer of `range` at their lowest or highest prices, and answers whether it has these. */
export function signAt(store, said, side) {
    const bounds = new Map(itemsOf(said.ranges).map((range) => [range.trade, range[side]]));
    const isThere = said.answer === "ranges" && said.on.every((name) => typeof bounds.get(name) === "bigint");
    if (isThere) store.act("edited", signedAs(networkOf(store.value.document), 1n, new Map(said.on.map((name) => [name, String(bounds.get(name))]))));
    return isThere;
}

/**
 * Makes what is signed the guess, at its prices where they are whole, and answers whether they are. Trades that aren't signed get the
 * prices that complete it, where the program said such, or else keep those of the guess.
 */
export function guessSigned(store) {
    const {document, judged} = store.value, network = networkOf(document), {over, contracts} = outcomeOf(network);
    const isWhole = [...contracts.values()].every((price) => typeof price === "bigint" && price % over === 0n);
    if (!isWhole) return false;
    const isCompleted = judged?.said?.answer === "completes" && judged.said.over === 1n && !isOld(store.value, judged);
    const known = entriesOf(isCompleted ? judged.said.prices : network.arrangement.prices);
    const priceAt = (name) => contracts.has(name) ? contracts.get(name) / over : known.get(name) ?? 0n;
    arrange(store, [...contracts.keys()], network.trades.map(({name}) => [name, priceAt(name)]));
    return true;
}

/** Counts the prices of what is signed over another denominator, and answers whether they are whole then. */
export function countOver(store, over) {
    const edits = countedOver(networkOf(store.value.document), over);
    if (edits !== null) store.act("edited", edits);
    return edits !== null;
}
