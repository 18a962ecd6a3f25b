// Changes of the text in its claim: an answer is put in as one, and each name and number of it can be changed.
import {CLAIMS} from "../../read/answer.js";
import {written} from "../../read/json.js";
import {listed} from "../../say/words.js";
import {say} from "../../words/say.js";
import {added, memberAs, memberOf, without} from "./edits.js";

/** Whether an answer can be a claim. */
export function canBeClaimed(said) {
    return CLAIMS.includes(said?.answer);
}

/** The edits that put an answer in as the claim, in place of any other. */
export function claimedAs(network, said) {
    return memberAs(network, "claim", written(said));
}

/** The claim of a document as a node, or null. */
export function claimOf(network) {
    return network.root.kind === "object" ? memberOf(network.root, "claim", "object") : null;
}

/**
 * What can be changed of a claim, in its order: `{key, says, kind, node, ..}`. A `number` has its text, a `choice` what may stand
 * there as `options` of `{value, says}`, where a value is JSON, and a `set` its trades as `{name, isIn}`. A contract can be left out.
 */
export function fieldsOf(network) {
    const claim = claimOf(network);
    if (claim === null) return [];
    return [...claim.value].filter(([name]) => name !== "answer").flatMap(([name, node]) => fieldsAt(network, claim, name, node));
}

function fieldsAt(network, claim, name, node) {
    const all = network.trades.map((trade) => trade.name), field = {key: name, says: name, node};
    if (node.kind === "number") return [{...field, kind: "number"}];
    if (name === "firm") return [{...field, kind: "choice", options: optionsOf(network.firms.map((firm) => firm.name))}];
    if (name === "at") return [{...field, kind: "choice", options: [none(), ...optionsOf(all)]}];
    if (node.kind !== "list") return [];
    if (name === "plan") return node.value.flatMap(partField);
    if (name === "nodes") return node.value.map((each, k) => nodeField(each, k, all));
    return name === "prices" || name === "contracts"
        ? entryFields(name, node)
        : [{...field, kind: "set", trades: setOf(network, claim, node, all)}];
}

const none = () => ({value: "null", says: say("list.no_trade")});

function optionsOf(names) {
    return names.map((name) => ({value: JSON.stringify(name), says: name}));
}

function nodeField(node, k, all) {
    return {key: `nodes ${k}`, says: say("claim.node", {number: k + 1}), kind: "choice", node,
        options: [none(), ...optionsOf(all)]};
}

/** The weight of a part of a plan; nothing where it isn't one. */
function partField({kind, value}, k) {
    const [firm, trades, weight] = kind === "list" ? value : [];
    if (firm?.kind !== "text" || trades?.kind !== "list" || weight?.kind !== "number") return [];
    return [{key: `plan ${k}`, says: `${firm.value}: ${listed(trades.value.map((trade) => String(trade.value)))}`, kind: "number", node: weight}];
}

/** The trades that may stand in a set: those of the claim's firm, where it has one, and what stands there. */
function setOf(network, claim, {value}, all) {
    const firm = claim.value.get("firm")?.value, own = typeof firm === "string" ? network.own(firm, all) : all;
    const now = value.map((item) => String(item.value));
    return [...new Set([...own, ...now])].map((name) => ({name, isIn: now.includes(name)}));
}

function entryFields(name, list) {
    const isEntry = ({kind, value}) => kind === "list" && value[0]?.kind === "text" && value[1]?.kind === "number";
    const entries = list.value.filter(isEntry);
    return entries.map((entry) => {
        const [trade, number] = entry.value;
        const out = name === "contracts" ? {list, entry, trade: trade.value} : null;
        return {key: `${name} ${trade.value}`, says: say("claim.price", {trade: trade.value}), kind: "number",
            node: number, out};
    });
}

/** The edits that put another name or number in the place of a field. */
export function spoilt({node}, text) {
    return [{start: node.start, end: node.end, text}];
}

/** The edits that put a trade into a set of the claim, or take it out. */
export function toggledIn({node}, name, isIn) {
    return isIn ? [added(node, JSON.stringify(name))] : without(node, ({value}) => value === name);
}

/** The edits that leave a contract out of the claim. */
export function leftOut({out: {list, entry}}) {
    return without(list, (each) => each === entry);
}
