// What the form has of a firm by its template: which ones it may be, what it does, and the numbers of sellers, buyers and makers.
import {limitsOf} from "../../read/limits.js";
import {asSaid, UNIT_TEMPLATES} from "../../read/steps.js";
import {leastOf, ofTrade, sideOf, TEMPLATES, withCount, withStep} from "../../read/templates.js";
import {extentOf} from "../../say/words.js";
import {say} from "../../words/say.js";
import {eachPut, firstPut, furtherPut} from "../document/kinds.js";
import {between, number} from "./parts.js";

/** What each template is called, and what a firm of it does. */
const SAYS = {
    "seller-one": ["kind.seller_one", "does.seller_one"], "seller-many": ["kind.seller_many", "does.seller_many"],
    "buyer-one": ["kind.buyer_one", "does.buyer_one"], "buyer-many": ["kind.buyer_many", "does.buyer_many"],
    maker: ["kind.maker", "does.maker"], middleman: ["kind.middleman", "does.middleman"], dealer: ["kind.dealer", "does.dealer"],
    laminar: ["kind.laminar", "does.laminar"], table: ["kind.table", "does.table"],
};

/** By which words a number of a side is asked for: of the first unit, of a further one, and of a trade. */
const ASKS = {
    seller: ["form.sells_from", "form.costs_more", "form.sells_to", "form.cost_of"],
    buyer: ["form.pays_up_to", "form.worth_less", "form.buys_from", "form.worth_to"],
    maker: ["form.makes_at", "form.makes_more", "form.adds", "form.cost_of"],
};

/** The templates that a firm may be of, by its trades, as options. */
export function templatesFor(own, isByUnits) {
    const has = (isSale) => own.some((trade) => trade.isSale === isSale);
    const isRight = (template) => !(template.startsWith("seller") && has(false)) && !(template.startsWith("buyer") && has(true));
    return (isByUnits ? UNIT_TEMPLATES : TEMPLATES).filter(isRight).map((template) => [template, say(SAYS[template][0])]);
}

/** In one line what a firm does. */
export function doesOf({template, numbers}, own, isByUnits) {
    if (!(template in SAYS)) return "";
    if (isByUnits) return doesBySteps(template, numbers, own);
    const most = numbers === null ? 0 : numbers.further.length + 1;
    return say(SAYS[template][1], {most, price: numbers === null ? "" : priceOf({template, numbers}, own)});
}

/** The same of a firm by steps: how many units it sells, buys or makes at most, and what each of the first ones costs or is worth. */
function doesBySteps(template, numbers, own) {
    if (numbers === null) return template === "laminar" ? say("does.units") : "";
    const {steps, each} = numbers, [[, adds]] = steps, most = steps.reduce((sum, [count]) => sum + count, 0n);
    const first = template === "maker" || own.length === 0 ? [adds] : own.map(({name}) => adds + (each.get(name) ?? 0n));
    return say(SAYS[template][1], {most, price: extentOf(first.map((number) => asSaid(template, number)))});
}

/** What the first unit costs or is worth: one number, or from the least to the greatest. */
function priceOf({template, numbers}, own) {
    const each = sideOf(template) === "maker" || own.length === 0 ? [numbers.first] : own.map(({name}) => ofTrade(template, numbers, name));
    return extentOf(each);
}

/** The numbers of a seller, a buyer or a maker. */
export function templateParts(network, firm, own, kind) {
    const {template, numbers} = kind, side = sideOf(template), [first, , each, ofOne] = ASKS[side];
    const trades = own.map(({name}) => number(`each ${name}`, name, say(ofOne, {name}), String(ofTrade(template, numbers, name)),
        (text) => eachPut(firm, kind, name, text)));
    return [{key: "numbers", title: say("form.numbers"), lines: [
        {key: "first", controls: [firstOf(network, firm, own, kind, say(first)), ...mostOf(network, firm, kind)]},
        ...furtherLines(network, firm, kind),
        ...(trades.length > 0 ? [{key: "each", says: say(each), controls: trades}] : [])]}];
}

/** The one number of all trades; none where they differ. */
function firstOf(network, firm, own, kind, says) {
    const {template, numbers} = kind, isMaker = sideOf(template) === "maker";
    const found = [...new Set(isMaker || own.length === 0 ? [numbers.first] : own.map(({name}) => ofTrade(template, numbers, name)))];
    return number("first", says, says, found.length === 1 ? String(found[0]) : "", (text) => firstPut(network, firm, kind, text));
}

function mostOf(network, firm, kind) {
    const {template, numbers: {further}} = kind, says = say("form.at_most");
    if (template.endsWith("-one")) return [];
    const field = number("most", says, says, String(further.length + 1), (text) => furtherPut(network, firm, kind, withCount(further, Number(text))));
    return [between(field, leastOf(template), limitsOf(network).farthest)];
}

/** How much more each further unit costs, or how much less it is worth. */
function furtherLines(network, firm, kind) {
    const {template, numbers: {further}} = kind, [, says] = ASKS[sideOf(template)];
    const fields = further.map((step, k) => {
        const put = (text) => furtherPut(network, firm, kind, withStep(further, k, BigInt(text)));
        return between(number(`further ${k}`, say("form.nth", {count: k + 2}), say("form.nth_one", {count: k + 2, says: say(says)}), String(step), put), 0, 999999999);
    });
    return fields.length === 0 ? [] : [{key: "further", says: say(says), controls: fields}];
}
