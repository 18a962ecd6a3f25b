// How sentences name trades, prices and numbers.
import {nameOn, standing} from "../read/standing.js";
import {labelOf} from "../words/labels.js";
import {say} from "../words/say.js";

const MOST_SIGNS = 40, MOST_NAMES = 8;

/** Words in a list: "a, b and c". */
export function listed(words) {
    const shown = words.map(labelOf);
    if (shown.length === 0) return say("list.none");
    if (shown.length === 1) return `${shown[0]}`;
    return say("list.some", {most: shown.slice(0, -1).join(", "), last: shown[shown.length - 1]});
}

export function set(names) {
    return `{${names.map(shortOf).join(", ")}}`;
}

/** A trade in a list, with a colon and its units where it has some. */
function shortOf(entry) {
    return Array.isArray(entry) ? `${labelOf(entry[0])}:${entry[1]}` : labelOf(entry);
}

/** A node of a walk: a trade, or one with +1 or -1 where trades have units, or null. */
export function nodeWord(node) {
    if (node === null) return say("list.no_trade");
    return Array.isArray(node) ? `${labelOf(node[0])} ${node[1] > 0n ? "+" : "\u2212"}1` : node;
}

/** A text of a document as it is named in sentences: between marks, and not at length. */
export function quoted(value) {
    const signs = [...JSON.stringify(String(value)).slice(1, -1)];
    return `\`${signs.length > MOST_SIGNS ? `${signs.slice(0, MOST_SIGNS).join("")}..` : signs.join("")}\``;
}

/** A number as it is written, and not at length. */
export function numeral(value) {
    return quoted(value).slice(1, -1);
}

/** Names in a list, the first of them where there are many. */
export function some(names) {
    const few = names.slice(0, MOST_NAMES).map(quoted);
    return names.length <= MOST_NAMES ? listed(few) : say("list.more", {names: few.join(", "), rest: names.length - MOST_NAMES});
}

/** Numbers from the least to the greatest, once where they are one. */
export function extentOf(numbers) {
    const low = numbers.reduce((least, each) => (each < least ? each : least)), high = numbers.reduce((most, each) => (each > most ? each : most));
    if (low === high) return String(low);
    return low < 0n ? say("extent.from_to", {low, high}) : `${low}\u2013${high}`;
}

/** A whole number with its digits in threes. */
export function large(number) {
    return String(number).replace(/\B(?=(\d{3})+(?!\d))/g, say("list.thousands"));
}

/** The trades and prices that sentences speak of: what takes place, and what a firm does by its trades. */
export class Deals {
    constructor(network, said, stands = standing(network, said)) {
        this.network = network;
        this.on = stands.on ?? [];
        this.prices = stands.prices;
        this.units = stands.units ?? new Map();
    }

    get off() {
        return this.network.trades.map(({name}) => name).filter((name) => !this.on.includes(name));
    }

    /**
     * Names, with parallel ones at one price together, as `{seller, buyer, names, price, units}`; a price is absent where there is
     * none, and so are units, with which a trade stands alone. Names may have units of their own.
     */
    groups(names) {
        const groups = new Map();
        for (const entry of names) {
            const name = nameOn(entry), units = Array.isArray(entry) ? entry[1] : this.units.get(name);
            const {seller, buyer} = this.network.trade(name), price = this.prices.get(name);
            const key = JSON.stringify([seller, buyer, price, units === undefined ? null : name]);
            if (!groups.has(key)) groups.set(key, {seller, buyer, names: [], price, units});
            groups.get(key).names.push(name);
        }
        return [...groups.values()];
    }

    /** "a at 5", or "a, b and c at 5 each". */
    priced(names) {
        return listed(this.groups(names).map((group) => told(group, PRICED)));
    }

    /** A sentence without its point for each lane of trades that take place. */
    clauses(names) {
        return this.groups(names).map((group) => told(group, SELLS));
    }

    /** What a firm does by its trades: "buys a from S at 5 and sells b to B at 7". */
    does(firm, names) {
        return names.length === 0 ? say("deal.does_nothing") : this.acts(firm, names, DOES);
    }

    /** The same after "would". */
    do(firm, names) {
        return names.length === 0 ? say("deal.do_nothing") : this.acts(firm, names, DO);
    }

    acts(firm, names, [sells, buys]) {
        return listed(this.groups(names).map((group) => told(group, group.seller === firm ? sells : buys)));
    }
}

/** The keys of what is said of a lane, with its price and without one, and of a trade with units. */
const PRICED = ["deal.priced", "deal.unpriced"], SELLS = ["deal.sells", "deal.sells_unpriced", "deal.sells_units", "deal.sells_units_unpriced"];
const DOES = [["deal.does_sell", "deal.does_sell_unpriced", "deal.does_sell_units", "deal.does_sell_units_unpriced"],
    ["deal.does_buy", "deal.does_buy_unpriced", "deal.does_buy_units", "deal.does_buy_units_unpriced"]];
const DO = [["deal.do_sell", "deal.do_sell_unpriced", "deal.do_sell_units", "deal.do_sell_units_unpriced"],
    ["deal.do_buy", "deal.do_buy_unpriced", "deal.do_buy_units", "deal.do_buy_units_unpriced"]];

function told({names, price, units, ...ends}, [priced, unpriced, counted, countedUnpriced]) {
    if (units !== undefined && counted) {
        return say(price === undefined ? countedUnpriced : counted, {...ends, trades: listed(names), count: units, price: price ?? ""});
    }
    const values = {...ends, trades: listed(names), count: names.length};
    return price === undefined ? say(unpriced, values) : say(priced, {...values, price});
}
