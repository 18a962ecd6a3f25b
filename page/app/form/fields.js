// A form for the firms and trades of a document, as plain data: what can be put in, what stands there, and by which changes
// of the text. One firm is shown at a time, and all trades.
import {hasUnits, limitsOf} from "../../read/limits.js";
import {say} from "../../words/say.js";
import {
    firmAdded, firmRemoved, freeName, itemAdded, itemRemoved, itemsIn, moved, numbered, objectsIn,
    stretched, textAt, toggled, tradeAdded, tradesRemoved,
} from "../document/building.js";
import {memberOf, put, replaced} from "../document/edits.js";
import {asTemplate, kindOf, settled, textOfNew, wouldLose} from "../document/kinds.js";
import {mayHaveUnits, withUnits} from "../document/versions.js";
import {doubtsGroup} from "./doubts.js";
import {doesOf, templateParts, templatesFor} from "./kinds.js";
import {calledBy, shownName, whyNoName} from "./naming.js";
import {between, box, button, choice, number} from "./parts.js";
import {freshSteps, setSteps, stepParts, unitsField} from "./units.js";

/** How many rows of a table, and beyond how many trades only those of the firm, are in the form. */
const MOST_ROWS = 40, MOST_TRADES = 160;

/**
 * The form of a document, as groups `{key, title, hint, lines}`; a line is `{key, says, controls}`. A control has a `key`, a
 * `kind`, what it `says`, its whole `name` for those who listen, its `value`, and `put`, which makes edits of what is put in.
 * It may have `read`, which answers what is put in, or null, with `why` it isn't right, and `then`, which is another view of the page after the change; one
 * with `look`, which answers no null, is such a view alone. `built` is the place of the firm that is shown, `isFree` says whether its
 * amounts and sets are though it is of a template, and `ends` are those of a trade that is to be added.
 */
export function formOf(network, {built, ends, asked, isFree = false}) {
    if (network.root.kind !== "object") return [];
    const firms = objectsIn(network, "firms"), names = firms.map(({name}) => name);
    const place = Math.min(built, firms.length - 1), here = firms[place];
    const parts = here ? ofFirm(network, here, names, asked, isFree) : [];
    return [firmsGroup(network, names, place), ...parts, tradesGroup(network, names, here, ends), ...doubtsGroup(network)];
}

/** What a firm or trade is called, which can be changed. `keys` are of what it says, and of its whole name. */
function nameOf(key, keys, network, list, node, names) {
    const name = textAt(node, "name"), others = names.filter((each) => each !== name);
    return {key, kind: "name", says: say(keys[0]), name: say(keys[1], {name}), value: shownName(node), read: (text) => whyNoName(text, others) === null ? text : null,
        why: (text) => whyNoName(text, others), put: (text) => calledBy(network, list, node, text, others)};
}

/** What may be added at once, each with the first letter of its name; other kinds are chosen then. Where trades have units all are by steps. */
const ADDED = [["seller-one", "S", "form.add_seller"], ["buyer-one", "B", "form.add_buyer"], ["middleman", "M", "form.add_middleman"]];
const BY_STEPS = {"seller-one": "seller-many", "buyer-one": "buyer-many", middleman: "maker"};

/** How another firm is looked at. */
const ANEW = {ends: {}, isFree: false};

function firmsGroup(network, names, place) {
    const options = names.map((name, k) => [`${k}`, name]);
    const add = ADDED.map(([template, letter, says]) => ({
        ...button(`${template} add`, say(says), say(says),
            () => firmAdded(network, textOfNew(network, freeName(names, letter, String), hasUnits(network.data) ? BY_STEPS[template] : template))),
        then: {...ANEW, built: names.length}}));
    const pick = choice("firm", say("head.firm"), say("head.firm"), `${place}`, options,
        {look: (built) => ({...ANEW, built: Number(built)})});
    return {key: "firms", title: say("page.firms"), lines: [{key: "firms", controls: place < 0 ? add : [pick, ...add]}]};
}

/** The parts of the form that are of one firm. */
function ofFirm(network, {node, name}, names, asked, isFree) {
    const known = kindOf(network, node), kind = isFree && known.numbers !== null ? {template: "laminar", numbers: null} : known;
    const remove = () => firmRemoved(network, node), own = network.ownTrades(name);
    const head = [
        nameOf("firm name", ["head.name", "form.name_of"], network, "firms", node, names),
        {...choice("firm kind", say("form.kind"), say("form.kind"), kind.template, templatesFor(own, hasUnits(network.data))), ...kindChosen(network, node, known)},
        button("firm out", say("form.remove_it"), say("form.remove_firm", {name}), remove)];
    const hint = [doesOf(kind, own, hasUnits(network.data)), ...(own.length === 0 ? [say("form.no_trades")] : [])].join(" ");
    const ofFormat = own.length === 0 ? [] : PARTS[kind.template]?.(network, node, own) ?? [];
    const parts = kind.numbers === null ? ofFormat : (hasUnits(network.data) ? stepParts : templateParts)(network, node, own, kind);
    const lines = [{key: "head", controls: head}, ...(asked?.of === network.text && asked.kind !== kind.template ? [askedLine(network, node, asked.kind)] : [])];
    return [{key: "firm", title: say("form.the_firm", {name}), hint, lines}, ...parts];
}

/** Another kind changes the text at once, or is asked about, where numbers would be lost; amounts and sets of a template are only looked at. */
function kindChosen(network, firm, known) {
    const look = (next) => {
        if (next === known.template || (next === "laminar" && known.numbers !== null)) return {isFree: next === "laminar"};
        return wouldLose(network, firm, next) ? {asked: {kind: next, of: network.text}} : null;
    };
    return {look, put: (next) => asTemplate(network, firm, next), then: {isFree: false}};
}

/** Asks before a firm becomes one of another kind. */
function askedLine(network, firm, kind) {
    const keep = {...button("kind keep", say("form.kind_keep"), say("form.kind_keep")), look: () => ({asked: null})};
    return {key: "asked", says: say("form.kind_asked"),
        controls: [button("kind change", say("form.kind_change"), say("form.kind_change"), () => asTemplate(network, firm, kind)), keep]};
}

const PARTS = {table: tableParts, laminar: laminarParts, middleman: middlemanParts, dealer: dealerParts};

function tableParts(network, firm, own) {
    const rows = itemsIn(firm, "rows").filter(({value: [bundle]}) => bundle?.kind === "list"), shown = rows.slice(0, MOST_ROWS);
    const lines = shown.map((row, k) => rowLine(firm, own, row, k)), left = rows.length - shown.length;
    const hint = [say("form.of_rows"), ...(left > 0 ? [say("form.more_rows", {count: left})] : [])].join(" ");
    return [{key: "rows", title: say("form.worths"), hint,
        lines: [...lines, {key: "row add", controls: rowButtons(firm, own, rows)}]}];
}

/** The trades in a list of them. */
function namesIn(list) {
    return list.value.map(({value}) => value);
}

function rowLine(firm, own, row, k) {
    const [bundle, worth] = row.value, names = namesIn(bundle);
    const says = names.length === 0 ? say("list.none") : names.join(", ");
    const boxes = own.map(({name}) => box(`row ${k} ${name}`, name, say("form.in_row", {name, row: k + 1}),
        names.includes(name), (isIn) => toggled(bundle, name, isIn)));
    const now = worth?.kind === "number" ? worth.value.text : "";
    const field = number(`row ${k} worth`, say("form.worth"), say("form.worth_of_row", {row: k + 1}), now,
        (text) => replaced(worth, text));
    const out = button(`row ${k} out`, say("form.remove"), say("form.remove_row", {trades: says}),
        () => itemRemoved(firm, "rows", row));
    return {key: `row ${k}`, controls: worth ? [...boxes, field, out] : [...boxes, out]};
}

/** Rows may be added as long as a bundle has none: first those of one trade. */
function rowButtons(firm, own, rows) {
    const free = freeBundle(own.map(({name}) => name), rows.map(({value: [bundle]}) => namesIn(bundle)));
    const change = () => itemAdded(firm, "rows", `[${JSON.stringify(free)},0]`);
    return free === null ? [] : [button("row add", say("form.add_row"), say("form.add_row"), change)];
}

function freeBundle(names, bundles) {
    const taken = new Set(bundles.map((bundle) => names.filter((name) => bundle.includes(name)).join(" ")));
    const after = (bundle) => names.slice(names.indexOf(bundle[bundle.length - 1]) + 1);
    let some = [[]];
    for (let count = 1; count <= Math.min(names.length, 14); count += 1) {
        some = some.flatMap((bundle) => after(bundle).map((name) => [...bundle, name]));
        const found = some.find((bundle) => !taken.has(bundle.join(" ")));
        if (found) return found;
    }
    return null;
}

/** The number of a trade in a list of entries; 0 where it has none. */
function entryOf(firm, list, trade) {
    const isIts = ({value: [first, second]}) => first?.value === trade && second?.kind === "number";
    return itemsIn(firm, list).find(isIts)?.value[1].value.text ?? "0";
}

function entries(firm, list, trades, what) {
    return trades.map(({name}) => number(`${list} ${name}`, name, say(what, {name}), entryOf(firm, list, name),
        (text) => numbered(firm, list, name, text)));
}

function laminarParts(network, firm, own) {
    const sets = (memberOf(firm, "sets", "list")?.value ?? []).filter(({kind}) => kind === "object"), isByUnits = hasUnits(network.data);
    const amounts = {key: "amounts", controls: entries(firm, "amounts", own, "form.amount_of")};
    const add = button("set add", say("form.add_set"), say("form.add_set"),
        () => itemAdded(firm, "sets", (isByUnits ? freshSteps : freshSet)(own)));
    return [
        {key: "amounts", title: say("form.amounts"), hint: say("form.of_amounts"), lines: [amounts]},
        ...sets.map((set, k) => setGroup(network, firm, own, set, k)),
        {key: "set add", title: say("form.sets"), hint: say(isByUnits ? "form.of_unit_sets" : "form.of_sets"),
            lines: [{key: "set add", controls: [add]}]}];
}

/** A capacity of one trade on each side on which the firm has some. */
function freshSet(own) {
    const from = own.some(({isSale}) => isSale) ? -1 : 0, to = own.every(({isSale}) => isSale) ? 0 : 1;
    const zeros = Array.from({length: to - from + 1}, () => 0);
    return JSON.stringify({trades: own.map(({name}) => name), from, values: zeros});
}

function setGroup(network, firm, own, set, k) {
    const list = memberOf(set, "trades", "list"), key = `set ${k}`, isBySteps = hasUnits(network.data) && !set.value.has("from");
    const boxes = own.map(({name}) => box(`${key} ${name}`, name, say("form.in_set", {name, set: k + 1}),
        list !== null && namesIn(list).includes(name), (isIn) => toggled(list, name, isIn)));
    const out = button(`${key} out`, say("form.remove_it"), say("form.remove_set", {set: k + 1}),
        () => itemRemoved(firm, "sets", set));
    return {key, title: say("form.set", {set: k + 1}), lines: [
        {key: "trades", says: say("page.trades"), controls: list === null ? [] : boxes},
        ...(isBySteps ? setSteps(set, k) : setNumbers(network, set, k)), {key: "out", controls: [out]}]};
}

/** The counts of a set, and a number for each. */
function setNumbers(network, set, k) {
    const values = memberOf(set, "values", "list")?.value ?? [], from = Number(memberOf(set, "from", "number")?.value.text ?? 0);
    const numbers = values.map((value, place) => {
        const says = counted(from + place), now = network.text.slice(value.start, value.end);
        return number(`set ${k} number ${place}`, says, say("form.set_count", {set: k + 1, count: says}), now,
            (text) => replaced(value, text));
    });
    return [{key: "counts", says: say("form.counts"), controls: setEnds(network, set, k, from, from + values.length - 1)},
        {key: "numbers", says: say("form.numbers"), controls: numbers}];
}

/** The least and the greatest net count of a set; 0 stays between them. */
function setEnds(network, set, k, from, to) {
    const {farthest} = limitsOf(network);
    const end = (name, [says, whole], now, [least, most], change) =>
        between(number(`set ${k} ${name}`, say(says), say(whole, {set: k + 1}), `${now}`, (text) => change(Number(text))), least, most);
    return [end("least", ["form.least", "form.least_of"], from, [-farthest, Math.min(0, to)],
        (count) => stretched(network, set, count, to)),
        end("greatest", ["form.greatest", "form.greatest_of"], to, [Math.max(0, from), farthest],
            (count) => stretched(network, set, from, count))];
}

/** A net count in words. */
function counted(count) {
    if (count === 0) return say("form.at_zero");
    return count < 0 ? say("form.at_sold", {count: -count}) : say("form.at_bought", {count});
}

function middlemanParts(network, firm, own) {
    const keep = firm.value.get("keep"), isKept = keep?.kind === "number", says = say("form.keeps");
    const keeps = box("keeps", says, says, isKept, (isOn) => put(firm, "keep", isOn ? "0" : "null"));
    const worth = () => number("keep", say("form.worth"), say("form.worth_of_kept"), keep.value.text,
        (text) => replaced(keep, text));
    const purchases = own.filter(({isSale}) => !isSale), sales = own.filter(({isSale}) => isSale);
    return [{key: "middleman", title: say("form.middleman"), hint: say("form.of_middleman"), lines: [
        {key: "costs", says: say("form.costs"), controls: entries(firm, "costs", purchases, "form.cost_of")},
        {key: "gains", says: say("form.gains"), controls: entries(firm, "gains", sales, "form.gain_of")},
        {key: "keep", controls: isKept ? [keeps, worth()] : [keeps]}]}];
}

function dealerParts(network, firm, own) {
    const purchases = own.filter(({isSale}) => !isSale), sales = own.filter(({isSale}) => isSale), pairs = itemsIn(firm, "pairs");
    const hasBoth = purchases.length > 0 && sales.length > 0;
    const hint = say(hasBoth ? "form.of_pairs" : "form.no_pairs");
    const lines = purchases.map(({name}) => ({key: `pairs ${name}`, says: say("form.as", {name}),
        controls: sales.flatMap((sale) => pairControls(firm, pairs, name, sale.name))}));
    return [{key: "pairs", title: say("form.pairs"), hint, lines: hasBoth ? lines : []}];
}

function pairControls(firm, pairs, purchase, sale) {
    const pair = pairs.find(({value: [one, other]}) => one?.value === purchase && other?.value === sale), cost = pair?.value[2];
    const key = `${purchase} as ${sale}`, says = say("form.pair", {purchase, sale}),
        text = `[${JSON.stringify(purchase)},${JSON.stringify(sale)},0]`;
    const change = (isOn) => isOn ? itemAdded(firm, "pairs", text) : itemRemoved(firm, "pairs", pair);
    const isIn = box(`pair ${key}`, sale, says, pair !== undefined, change);
    if (cost?.kind !== "number") return [isIn];
    return [isIn, number(`cost ${key}`, say("form.costs_it"), say("form.cost_of", {name: says}), cost.value.text,
        (next) => replaced(cost, next))];
}

function tradesGroup(network, names, here, ends) {
    const trades = objectsIn(network, "trades"), all = trades.map(({name}) => name), isAll = trades.length <= MOST_TRADES;
    const isShown = ({node}) => isAll || [textAt(node, "seller"), textAt(node, "buyer")].includes(here?.name);
    const lines = trades.map((trade, k) => [trade, k]).filter(([trade]) => isShown(trade))
        .map(([trade, k]) => tradeLine(network, trade, k, names, all));
    const left = isAll ? "" : say("form.of_trades", {count: trades.length});
    const hint = names.length < 2 ? say("form.two_firms") : left;
    const added = names.length < 2 ? [] : [newTrade(network, names, all, here, ends)];
    const units = mayHaveUnits(network) ? [{key: "units", controls: [button("units", say("form.give_units"), say("form.give_units"), () => withUnits(network))]}] : [];
    return {key: "trades", title: say("page.trades"), hint, lines: [...lines, ...added, ...units]};
}

function tradeLine(network, {node, name}, k, names, all) {
    const options = names.map((each) => [each, each]);
    const end = (side, [says, whole]) => choice(`trade ${k} ${side}`, say(says), say(whole, {name}),
        textAt(node, side), options,
        {put: (firm) => settled(network, moved(network, node, side, firm))});
    return {key: `trade ${k}`, controls: [
        nameOf(`trade ${k} name`, ["head.trade", "form.trade_of"], network, "trades", node, all),
        end("seller", ["form.from", "form.trade_from"]), end("buyer", ["form.to", "form.trade_to"]),
        ...(hasUnits(network.data) ? [unitsField(network, node, name, k)] : []),
        button(`trade ${k} out`, say("form.remove"), say("form.remove_trade", {name}),
            () => tradesRemoved(network, [node]))]};
}

/** What adds a trade: where nobody has chosen its ends, of the firm that is shown with the next one with which it has none yet. */
function newTrade(network, names, all, here, ends) {
    const isThere = (name) => names.includes(name), options = names.map((each) => [each, each]);
    const [seller, buyer] = likelyEnds(network, names, here, Object.fromEntries(Object.entries(ends).filter(([, name]) => isThere(name))));
    const name = freeName(all, `${seller}-${buyer}`.toLowerCase(), (k) => k === 1 ? "" : `-${k}`);
    const end = (side, [says, whole], value) => choice(`new ${side}`, say(says), say(whole), value, options,
        {look: (firm) => ({ends: {...ends, [side]: firm}})});
    const add = button("trade add", say("form.add_trade"), say("form.add_trade"), () => settled(network, tradeAdded(network, name, seller, buyer)));
    return {key: "new", controls: [end("seller", ["form.from", "form.new_from"], seller),
        end("buyer", ["form.to", "form.new_to"], buyer), {...add, then: {ends: {}}}]};
}

/** The ends of a new trade: those that were chosen, and else a seller and a buyer that don't trade yet, one of them the firm that is shown. */
function likelyEnds(network, names, here, {seller, buyer}) {
    const kinds = new Map(objectsIn(network, "firms").map(({node, name}) => [name, kindOf(network, node).template]));
    const may = (side, name) => !kinds.get(name).startsWith({seller: "buyer", buyer: "seller"}[side]);
    const isNew = (from, to) => from !== to && !network.trades.some((trade) => trade.seller === from && trade.buyer === to);
    const next = (side, isFree) => names.find((name) => may(side, name) && isFree(name));
    if (seller !== undefined && buyer !== undefined && seller !== buyer) return [seller, buyer];
    const isBuyer = seller === undefined && (buyer !== undefined || !may("seller", here.name));
    if (isBuyer) return [next("seller", (name) => isNew(name, buyer ?? here.name)) ?? names.find((name) => name !== (buyer ?? here.name)), buyer ?? here.name];
    const from = seller ?? here.name;
    return [from, next("buyer", (name) => isNew(from, name)) ?? names.find((name) => name !== from)];
}
