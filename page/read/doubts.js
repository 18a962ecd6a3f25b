// What is likely not meant in a market: a firm without a trade, one that may sell the same thing several times, one that can do nothing with
// what is bought, and a trade that nobody would ever want.
import {hasUnits} from "./limits.js";
import {entriesOf, isObject, itemsOf} from "./network.js";
import {readSets, stepsOf} from "./steps.js";
import {templateOf} from "./templates.js";

/** What is no number: a trade that can't take place. */
const NEVER = Symbol("never");

/** What is doubted of a market: a list of `{kind, firm}` or `{kind, trade, ..}`. */
export function doubtsOf(network) {
    const firms = itemsOf(network.data.firms).filter((firm) => isObject(firm) && typeof firm.name === "string");
    const known = new Map(firms.map((firm) => [firm.name, {firm, own: network.ownTrades(firm.name)}]));
    const ofOne = hasUnits(network.data) ? ofUnitFirm : ofFirm, doubts = [...known.values()].flatMap(({firm, own}) => ofOne(firm, own)), done = new Set(doubts.map(({firm}) => firm));
    return [...doubts, ...network.trades.flatMap((trade) => ofTrade(known, trade)).filter(({firm}) => !done.has(firm))];
}

/** Where trades have units a firm may well sell to several. */
function ofUnitFirm(firm, own) {
    return own.length === 0 ? [{kind: "idle", firm: firm.name}] : [];
}

function ofFirm(firm, own) {
    if (own.length === 0) return [{kind: "idle", firm: firm.name}];
    const isOneSided = new Set(own.map(({isSale}) => isSale)).size === 1, {template} = templateOf(firm, own);
    const passes = ["maker", "dealer"].includes(template) || (template === "middleman" && typeof firm.keep !== "bigint");
    if (isOneSided && passes) return [{kind: "one_sided", firm: firm.name, template: own[0].isSale ? "seller-one" : "buyer-one"}];
    if (template !== "laminar") return [];
    if (!isOneSided) return isApart(firm, own) ? [{kind: "apart", firm: firm.name, template: "middleman"}] : [];
    const buyers = new Set(own.map(({buyer}) => buyer)), isSeveral = own[0].isSale && own.length > 1 && buyers.size === own.length;
    return isSeveral && mayAll(firm, own) ? [{kind: "sells_often", firm: firm.name, count: own.length, template: "seller-one"}] : [];
}

function setsOf(firm) {
    return itemsOf(firm.sets).filter((set) => isObject(set) && typeof set.from === "bigint" && Array.isArray(set.values) && Array.isArray(set.trades));
}

/** Whether nothing that a firm sells has to do with what it buys. */
function isApart(firm, own) {
    const has = ({trades}, isSale) => own.some((trade) => trade.isSale === isSale && trades.includes(trade.name));
    return !setsOf(firm).some((set) => has(set, true) && has(set, false));
}

/** Whether a firm that sells may sell all at once. */
function mayAll(firm, own) {
    return setsOf(firm).every(({trades, from}) => -BigInt(own.filter(({name}) => trades.includes(name)).length) >= from);
}

/** A trade that one of its firms can't have, or for which its buyer would never pay what its seller wants. */
function ofTrade(known, {name, seller, buyer}) {
    const ends = [seller, buyer].filter((end) => known.has(end)), most = new Map(ends.map((end) => [end, mostFor(known.get(end), name)]));
    const never = ends.find((end) => most.get(end) === NEVER), [sale, purchase] = [most.get(seller), most.get(buyer)];
    if (never !== undefined) return [{kind: "never", trade: name, firm: never, isPaired: known.get(never).firm.kind === "dealer"}];
    if (typeof sale !== "bigint" || typeof purchase !== "bigint") return [];
    const isUnwanted = sale + purchase < 0n || (purchase <= 0n && sale <= 0n);
    return isUnwanted ? [{kind: "unwanted", trade: name, seller, buyer, least: -sale, most: purchase}] : [];
}

/** The most that a trade can be worth to its firm beside others, NEVER where it can't be had, or null where that isn't known. */
function mostFor({firm, own}, name) {
    return KINDS[firm.kind]?.(firm, own, name) ?? null;
}

const KINDS = {laminar: mostInSets, table: mostInRows, middleman: mostOfMiddleman, dealer: mostOfDealer};

/** Each set adds at most its steepest step: for a purchase the first, for a sale the last one. */
function mostInSets(firm, own, name) {
    const {isSale} = own.find((trade) => trade.name === name), sets = readSets(firm).filter(({trades}) => trades.includes(name));
    const steps = sets.map((set) => {
        const {trades} = set, most = steepest(set, isSale);
        if (most !== null) return most;
        return own.some((trade) => trade.isSale !== isSale && trades.includes(trade.name)) ? null : NEVER;
    });
    if (steps.includes(NEVER)) return NEVER;
    const numbers = [entriesOf(firm.amounts).get(name) ?? 0n, ...steps];
    return numbers.every((number) => typeof number === "bigint") ? numbers.reduce((sum, number) => sum + number) : null;
}

/** The most that a unit more can add which is sold, or bought; null where none is possible in the set alone. */
function steepest(set, isSale) {
    const [side, other] = (isSale ? ["sold", "bought"] : ["bought", "sold"]).map((each) => stepsOf(set, each));
    return other.length > 0 ? -other.at(-1)[1] : side.length > 0 ? side[0][1] : null;
}

function mostInRows(firm, own, name) {
    const key = (bundle) => JSON.stringify([...bundle].sort()), isRow = (row) => Array.isArray(row) && Array.isArray(row[0]) && typeof row[1] === "bigint";
    const rows = itemsOf(firm.rows).filter(isRow), having = rows.filter(([bundle]) => bundle.includes(name));
    const worths = new Map([[key([]), 0n], ...rows.map(([bundle, worth]) => [key(bundle), worth])]);
    const steps = having.map(([bundle, worth]) => [worth, worths.get(key(bundle.filter((each) => each !== name)))]);
    if (steps.length === 0) return NEVER;
    if (steps.some(([, without]) => without === undefined)) return null;
    return steps.map(([worth, without]) => worth - without).reduce((one, other) => (one > other ? one : other));
}

function mostOfMiddleman(firm, own, name) {
    const {isSale} = own.find((trade) => trade.name === name);
    return own.some((trade) => trade.isSale !== isSale) || (!isSale && typeof firm.keep === "bigint") ? null : NEVER;
}

function mostOfDealer(firm, own, name) {
    return itemsOf(firm.pairs).some((pair) => Array.isArray(pair) && pair.slice(0, 2).includes(name)) ? null : NEVER;
}
