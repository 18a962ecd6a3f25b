// A document as what pictures and sentences speak of: its firms, its trades, and its other parts. One with a fault is read as far
// as it goes, since faults are told too.
import {NotJson, parse, plain} from "./json.js";

export class Network {
    /**
     * Reads the text of a document. Where it is no JSON, `problem` says so, and there are no firms and no trades; of bytes that are
     * no UTF-8 whoever read them has the problem already.
     */
    constructor(text, problem = null) {
        this.text = text;
        this.problem = problem;
        this.root = {kind: "null", start: 0, end: text.length, value: null};
        try {
            if (problem === null) this.root = parse(text);
        } catch (error) {
            if (!(error instanceof NotJson)) throw error;
            this.problem = error;
        }
        this.data = objectOf(plain(this.root));
        this.firms = itemsOf(this.data.firms).filter(isObject).map(({name, kind, note}) => ({name: String(name ?? ""), kind: String(kind ?? ""), note}));
        this.trades = itemsOf(this.data.trades).filter(isObject)
            .map(({name, seller, buyer, note}) => ({name: String(name ?? ""), seller: String(seller ?? ""), buyer: String(buyer ?? ""), note}));
        this.arrangement = objectOf(this.data.arrangement);
        this.outcome = objectOf(this.data.outcome);
        this.claim = objectOf(this.data.claim);
        this.edits = itemsOf(this.data.edits);
        this.byName = new Map(this.trades.map((trade) => [trade.name, trade]).reverse());
    }

    /** The trade of a name; of one that isn't there, nobody knows the ends. */
    trade(name) {
        return this.byName.get(name) ?? {name: String(name), seller: "?", buyer: "?"};
    }

    isOf(name, firm) {
        const {seller, buyer} = this.trade(name);
        return seller === firm || buyer === firm;
    }

    /** The names, among some, of a firm's own trades, in the order of the document. */
    own(firm, names) {
        const wanted = new Set(names);
        return this.trades.filter(({name}) => wanted.has(name) && this.isOf(name, firm)).map(({name}) => name);
    }

    /** The trades of a firm, in the order of the document, each with whether it is a sale. */
    ownTrades(firm) {
        this.byFirm ??= ownByFirm(this.trades);
        return this.byFirm.get(firm) ?? [];
    }

    /** How many units of a trade may go: one where the document says nothing else. */
    capacity(name) {
        this.capacities ??= new Map(itemsOf(this.data.trades).filter(isObject).map(({name: own, units}) => [own, typeof units === "bigint" ? units : 1n]));
        return this.capacities.get(name) ?? 1n;
    }

    /** The names of the firms that stand before one in the document. */
    before(firm) {
        const names = this.firms.map(({name}) => name);
        return names.slice(0, Math.max(names.indexOf(firm), 0));
    }
}

function ownByFirm(trades) {
    const found = new Map(), add = (firm, trade) => found.set(firm, [...(found.get(firm) ?? []), trade]);
    for (const trade of trades) {
        add(trade.seller, {...trade, isSale: true});
        if (trade.buyer !== trade.seller) add(trade.buyer, {...trade, isSale: false});
    }
    return found;
}

export function isObject(value) {
    return typeof value === "object" && value !== null && Object.getPrototypeOf(value) === null;
}

export function objectOf(value) {
    return isObject(value) ? value : Object.create(null);
}

export function itemsOf(value) {
    return Array.isArray(value) ? value : [];
}

/** The entries of a list of `[name, number]`, as a Map. */
export function entriesOf(value) {
    return new Map(itemsOf(value).filter((entry) => Array.isArray(entry) && typeof entry[0] === "string").map(([name, number]) => [name, number]));
}

/** The greatest common divisor of two whole numbers, which is positive where one of them isn't 0. */
export function gcd(one, other) {
    while (other !== 0n) [one, other] = [other, one % other];
    return one < 0n ? -one : one;
}

/** A numerator over a positive denominator in its lowest terms, as a whole number where it is one. */
export function fraction(numerator, denominator) {
    if (typeof numerator !== "bigint" || typeof denominator !== "bigint" || denominator === 0n) return String(numerator);
    const by = gcd(numerator, denominator), over = denominator / by;
    return over === 1n ? String(numerator / by) : `${numerator / by}/${over}`;
}

/** The text of a document with another member, put at its end, since of equal members the last one counts. */
export function withMember(network, name, value) {
    const end = network.root.end - 1;
    return `${network.text.slice(0, end)}${network.root.value.size > 0 ? "," : ""}"${name}":${value}${network.text.slice(end)}`;
}
