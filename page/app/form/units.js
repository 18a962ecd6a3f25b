// What the form has where trades have units: how many units a trade has, and the steps of a firm, each with how many units it is for and what
// each of them costs, is worth, or adds.
import {UNIT_LIMITS} from "../../read/limits.js";
import {asSaid, listOf} from "../../read/steps.js";
import {say} from "../../words/say.js";
import {itemAdded, itemsIn, numbered} from "../document/building.js";
import {countingSet} from "../document/kinds.js";
import {memberOf, put, replaced, sent, without} from "../document/edits.js";
import {unitsOf} from "../../read/standing.js";
import {between, button, number} from "./parts.js";

/** How many steps of a list are in the form. */
const MOST_STEPS = 40;

/** How many units a trade has. */
export function unitsField(network, node, name, k) {
    const says = say("form.units"), now = memberOf(node, "units", "number")?.value.text ?? "1";
    const field = number(`trade ${k} units`, says, say("form.units_of", {name}), now, (text) => [...put(node, "units", text), ...loweredTo(network, name, BigInt(text))]);
    return between(field, 1, UNIT_LIMITS.units);
}

/** The edits that let no more units of a trade go than it has then. */
function loweredTo(network, name, most) {
    const now = unitsOf(network.arrangement.on).get(name);
    return typeof now === "bigint" && now > most ? sent(network, name, most) : [];
}

/** The steps of a list of a set, which can be changed, as lines with one that adds a step. `words` are the texts of a step: what each unit does, and its sign. */
function stepLines(set, list, key, {lead, name, each, sign = 1n}) {
    const steps = itemsIn(set, list).filter(({value: [count, adds]}) => count?.kind === "number" && adds?.kind === "number");
    const lines = steps.slice(0, MOST_STEPS).map((step, k) => ({key: `${key} ${k}`, says: k === 0 ? lead : "", controls: stepControls(set, list, step, `${key} ${k}`, {each, sign, named: (says) => name(k + 1, says)})}));
    const last = steps.at(-1)?.value[1].value.text ?? "0";
    const add = button(`${key} add`, say("form.add_step"), name(steps.length + 1, say("form.add_step")), () => itemAdded(set, list, `[1,${last}]`));
    return [...lines, {key: `${key} add`, says: steps.length === 0 ? lead : "", controls: steps.length < UNIT_LIMITS.steps ? [add] : []}];
}

function stepControls(set, list, step, key, {each, sign, named}) {
    const [count, adds] = step.value, many = say("form.how_many"), now = adds.value.text, said = /^-?\d+$/.test(now) ? String(sign * BigInt(now)) : now;
    return [
        between(number(`${key} count`, many, named(many), count.value.text, (text) => replaced(count, text)), 1, UNIT_LIMITS.units),
        number(`${key} adds`, each, named(each), said, (text) => replaced(adds, String(sign * BigInt(text)))),
        button(`${key} out`, say("form.remove"), named(say("form.remove")), () => without(memberOf(set, list, "list"), (item) => item === step))];
}

/** By which words a number of a kind is asked for: of a step, and of a trade. */
const ASKS = {"seller-many": ["form.sells_from", "form.adds", "form.cost_of"], "buyer-many": ["form.pays_up_to", "form.worth_beside", "form.worth_to"],
    maker: ["form.makes_at", "form.adds", "form.cost_of"]};

/** The numbers of a seller, a buyer or a maker by steps. */
export function stepParts(network, firm, own, {template, numbers}) {
    const [asks, beside, ofOne] = ASKS[template], list = listOf(template), each = say(asks), set = countingSet(firm, template);
    const trades = own.map(({name}) => number(`each ${name}`, name, say(ofOne, {name}), String(asSaid(template, numbers.each.get(name) ?? 0n)),
        (text) => numbered(firm, "amounts", name, String(asSaid(template, BigInt(text))))));
    const steps = stepLines(set, list, "step", {lead: say("form.steps"), name: (count, says) => say("form.nth_one", {count, says}), each, sign: asSaid(template, 1n)});
    return [{key: "numbers", title: say("form.numbers"), hint: say("form.of_steps"), lines: [...steps, ...(trades.length > 0 ? [{key: "each", says: say(beside), controls: trades}] : [])]}];
}

/** The steps of a set of any firm: those of what it buys, and of what it sells, net. */
export function setSteps(set, k) {
    return [["bought", "form.bought"], ["sold", "form.sold"]].flatMap(([list, says]) => stepLines(set, list, `set ${k} ${list}`, {
        lead: say(says), each: say("form.each_adds"), name: (count, what) => say("form.in_list", {set: k + 1, list: say(says), says: say("form.nth_one", {count, says: what})})}));
}

/** A set over all of a firm's trades with a step on each side on which it has some. */
export function freshSteps(own) {
    const has = (isSale) => own.some((trade) => trade.isSale === isSale), trades = own.map(({name}) => name);
    return JSON.stringify({trades, ...(has(false) ? {bought: [[1, 0]]} : {}), ...(has(true) ? {sold: [[1, 0]]} : {})});
}
