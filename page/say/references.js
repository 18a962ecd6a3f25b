// Faults of names: one that keeps no rule, is taken, is unknown, or isn't one that the firm has there.
import {nearest} from "../read/near.js";
import {itemsOf} from "../read/network.js";
import {shapeAt} from "../read/shapes.js";
import {say} from "../words/say.js";
import {quoted, some} from "./words.js";

export function nameLine(network, place, value) {
    return say("name.rule", {name: quoted(value)});
}

export function takenLine(network, [part, index], value) {
    const first = itemsOf(network.data[part]).findIndex(({name}) => name === value);
    return say(part === "firms" ? "name.taken_firm" : "name.taken_trade", {name: quoted(value), first, index});
}

export function noFirmLine(network, place, value) {
    const firms = network.firms.map(({name}) => name), near = nearest(value, firms), name = quoted(value);
    if (network.byName.has(value)) return say("name.trade_not_firm", {name});
    if (near !== undefined) return say("name.no_firm_near", {name, near: quoted(near)});
    return firms.length === 0 ? say("name.no_firms", {name}) : say("name.no_firm", {name, names: some(firms)});
}

export function noTradeLine(network, place, value) {
    const trades = network.trades.map(({name}) => name), near = nearest(value, trades), name = quoted(value);
    if (network.firms.some((firm) => firm.name === value)) return say("name.firm_not_trade", {name});
    if (near !== undefined) return say("name.no_trade_near", {name, near: quoted(near)});
    return trades.length === 0 ? say("name.no_trades", {name}) : say("name.no_trade", {name, names: some(trades)});
}

/** A trade that isn't the firm's own, or is a sale where a purchase is wanted, or a purchase where a sale is. */
export function notOwnLine(network, place, value) {
    const {seller, buyer} = network.trade(value), firm = ownerAt(network, place), trade = quoted(value);
    if (seller === firm) return say("name.no_purchase", {trade, firm: quoted(firm)});
    if (buyer === firm) return say("name.no_sale", {trade, firm: quoted(firm)});
    const own = network.own(firm, network.trades.map(({name}) => name));
    const values = {trade, firm: quoted(firm), seller: quoted(seller), buyer: quoted(buyer)};
    return own.length === 0 ? say("name.none_own", values) : say("name.not_own", {...values, names: some(own)});
}

/** The firm whose trades are wanted at a place. */
function ownerAt(network, place) {
    if (place[0] === "firms") return network.firms[Number(place[1])].name;
    return place[1] === "plan" ? network.claim.plan[place[2]][0] : network.claim.firm;
}

/** A trade that is named a second time in a list, of trades or of entries. */
export function sameTradeLine(network, place, value) {
    const isEntry = shapeAt(network.data, place.slice(0, -1))?.name === "entry", list = partAt(network, place.slice(0, isEntry ? -2 : -1));
    return say("name.twice", {trade: quoted(value), first: list.findIndex((item) => (isEntry ? item[0] : item) === value)});
}

export function noPriceLine(network, place) {
    return say("name.no_price", {trade: quoted(place[place.length - 1])});
}

/** The part of the document that a place leads to. */
export function partAt(network, place) {
    return place.reduce((value, step) => value[step], network.data);
}
