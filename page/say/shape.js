// What is wrong with the shape of a value: a member that isn't allowed, one that is missing, or another kind of value than is wanted.
import {hasUnits} from "../read/limits.js";
import {nearest} from "../read/near.js";
import {shapeAt, WORDS} from "../read/shapes.js";
import {say} from "../words/say.js";
import {listed, numeral, quoted} from "./words.js";

const THINGS = {document: "thing.document", firm: "thing.firm", table: "thing.table", laminar: "thing.laminar", middleman: "thing.middleman",
    dealer: "thing.dealer", trade: "thing.trade", set: "thing.set", arrangement: "thing.arrangement", outcome: "thing.outcome", claim: "thing.claim"};

const WANTED = {version: "wanted.version", kind: "wanted.kind", unit_kind: "wanted.unit_kind", steps: "wanted.steps", step: "wanted.step", counts: "wanted.counts", count: "wanted.count", deed: "wanted.deed", answer: "wanted.answer", firms: "wanted.firms",
    trades: "wanted.trades", rows: "wanted.rows", row: "wanted.row", bundle: "wanted.bundle", entries: "wanted.entries", entry: "wanted.entry",
    sets: "wanted.sets", number: "wanted.number", numbers: "wanted.numbers", number_or_null: "wanted.number_or_null", pairs: "wanted.pairs",
    pair: "wanted.pair", edits: "wanted.edits", edit: "wanted.edit", unit_edit: "wanted.unit_edit", nodes: "wanted.nodes", node: "wanted.node", plan: "wanted.plan",
    part: "wanted.part", name: "wanted.name", firm_name: "wanted.firm_name", trade_name: "wanted.trade_name"};

const LARGEST = 2n ** 63n;

/** The sentence about a value of another shape than is wanted, or about one that is missing. */
export function shapeLine(network, place, found) {
    const shape = shapeAt(network.data, place);
    if (!found.whole) return missingLine(network, place);
    if (shape === null) return null;
    const {kind, value} = found.node;
    if (shape.name === "version" && hasUnits(network.data)) return say("shape.no_units");
    if (kind === "object" && shape.needs) return memberLine(shape, [...value.keys()]) ?? formLine(shape, [...value.keys()]);
    const wanted = shape.needs ? say("wanted.object") : wantedOf(shape.name), near = nearOf(shape, kind, value);
    if (kind === "number" && /^-?\d+$/.test(value.text)) return wholeLine(shape, value.text, wanted);
    return near === undefined ? say("shape.wrong", {wanted, found: shown(found.node)})
        : say("shape.wrong_near", {wanted, found: shown(found.node), near: quoted(near)});
}

/** The word that a text may have been meant as; a version is no text. */
function nearOf({name}, kind, value) {
    return kind === "text" && name !== "version" ? nearest(value, WORDS[name] ?? []) : undefined;
}

/** The first member of an object that isn't allowed. */
function memberLine(shape, names) {
    const {needs, may = {}} = shape, allowed = [...Object.keys(needs), ...Object.keys(may)], thing = thingOf(shape);
    const member = names.find((name) => !allowed.includes(name));
    if (member === undefined) return null;
    const near = nearest(member, allowed.filter((name) => !names.includes(name)));
    if (near !== undefined) return say("shape.member_near", {member: quoted(member), thing, near: quoted(near)});
    const values = {member: quoted(member), thing, needs: membersOf(needs)};
    return Object.keys(may).length === 0 ? say("shape.member", values) : say("shape.member_may", {...values, may: membersOf(may)});
}

/** The members of a set that is written in two forms, or in half of one. */
function formLine({name}, names) {
    const form = names.filter((each) => ["bought", "sold", "from", "values"].includes(each));
    return name === "set" ? say("shape.form", {members: listed(form.map(quoted))}) : null;
}

/** A member that is missing, perhaps since its name is written otherwise. */
function missingLine(network, place) {
    const member = String(place[place.length - 1]), around = place.slice(0, -1), shape = shapeAt(network.data, around);
    if (around.length === 0 && Object.hasOwn(shape.may, member)) return say("shape.part", {member: quoted(member)});
    const names = Object.keys(around.reduce((value, step) => value[step], network.data));
    const near = nearest(member, names.filter((name) => !Object.hasOwn({...shape.needs, ...shape.may}, name)));
    const values = {member: quoted(member), thing: thingOf(shape)};
    return near === undefined ? say("shape.missing", values) : say("shape.missing_near", {...values, near: quoted(near)});
}

/** A whole number where none is wanted, or one that isn't written as it has to be. */
function wholeLine(shape, text, wanted) {
    const isWanted = shape.name === "number" || shape.name === "number_or_null", value = BigInt(text);
    if (isWanted && text === "-0") return say("shape.minus_zero");
    if (isWanted && (value >= LARGEST || value < -LARGEST)) return say("shape.too_large", {number: numeral(text)});
    return say("shape.wrong", {wanted, found: numeral(text)});
}

function wantedOf(name) {
    const words = Object.hasOwn(WORDS, name) ? listed(WORDS[name].map(quoted)) : "";
    return say(WANTED[name], {words});
}

function thingOf({name, claimed}) {
    return claimed === undefined ? say(THINGS[name]) : say("thing.claimed", {answer: quoted(claimed)});
}

function membersOf(members) {
    return listed(Object.keys(members).map(quoted));
}

/** A value as sentences name it. */
function shown({kind, value}) {
    if (kind === "object") return say("shown.object");
    if (kind === "list") return say("shown.list", {length: value.length});
    return kind === "text" ? say("shown.text", {text: quoted(value)}) : numeral(value);
}
