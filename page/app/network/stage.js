// The network as it is guessed, or as an answer has it, drawn so that its firms and lanes can be clicked and reached by keys.
import {spanOf} from "../../draw/lanes.js";
import {arrow, escaped, INK, NORMAL, smooth, tag, text, widthOf} from "../../draw/svg.js";
import {hasUnits} from "../../read/limits.js";
import {firmLabel, tradeLabel} from "../../words/labels.js";
import {ownOf} from "../../say/own.js";
import {say} from "../../words/say.js";
import {BELOW, EDGE, labelPlaces, NAME, planOf, PRICE} from "./plan.js";

/** How far lines in a box stand from each other. */
const HIGH = 16;

const OFF = "#64748b", GOOD = "#166534", BAD = "#9a3412", INKS = {content: GOOD, unknown: INK, away: OFF};

/** How many more letters than a number words below a name have where room is kept for them. */
const BESIDE = 3;

/**
 * How long the numbers of a guess are at most, those in boxes and those of lanes, rounded so that they rarely change it. Where trades have
 * units a lane has their numbers beside its price, which is reckoned apart.
 */
function digitsOf(stands, lines, isByUnits) {
    const utilities = lines.flatMap(({utility, best_utility: most}) => [utility ?? 0n, most ?? 0n]);
    const words = lines.flatMap(({below = []}) => below.map((says) => says.slice(BESIDE)));
    const longest = (numbers, least) => Math.max(least, ...numbers.map((number) => String(number).length)), prices = [...stands.prices.values()];
    const ofFirms = longest([...prices, ...utilities, ...words], stands.isSigned ? 6 : 3);
    return {ofFirms, ofPrices: isByUnits ? longest(prices, 2) : ofFirms};
}

/**
 * The picture as SVG, with its size: `{svg, width, height, plan}`. `stands` has the trades that are on and the prices, and where trades have
 * units also these, and how many are `admitted` where that isn't all; `lines` those of `firms`, by name, or `{mood, below, says}` with what
 * is to be said of a firm, `marks` the colours of trades with what they say, `focus` the names of the firms that are spoken of, and
 * `selection` what is chosen.
 */
export function stageOf({network, firm, room, stands, lines, marks, focus, selection, hasOwn}) {
    const digits = digitsOf(stands, [...lines.values()], hasUnits(network.data));
    const own = new Map(hasOwn ? network.firms.map(({name}) => [name, ownOf(network, name)]).filter(([, said]) => said !== null) : []);
    const plan = planOf(network, firm, digits, room, own), on = new Set(stands.on ?? []);
    const flow = hasUnits(network.data) ? flowOf(plan.lanes, stands) : null, lanes = plan.lanes.map((lane) => laneAt(lane, on, stands, marks, selection, flow));
    const named = new Set(plan.lanes.filter((_, k) => lanes[k].isNamed)), labels = labelPlaces(plan, digits, (lane) => named.has(lane));
    const drawn = lanes.map((lane, k) => ({lane, svg: laneSvg(lane, plan.places.arrows[k].points, labels[k], plan.way)}));
    drawn.sort((one, other) => one.lane.rank - other.lane.rank);
    const isChosen = ({name}) => focus.has(name) || (selection?.kind === "firm" && selection.name === name);
    const boxes = plan.boxes.map((box) => firmSvg(box, plan.places.centers.get(box.id), lines.get(box.name), isChosen(box), plan.way, own.get(box.name)));
    const width = plan.places.width + 2 * EDGE, height = plan.places.height + 2 * EDGE;
    const whole = tag("g", {transform: `translate(${EDGE} ${EDGE})`}, drawn.map(({svg}) => svg.line), boxes, drawn.map(({svg}) => svg.label));
    return {width, height, plan, svg: `<svg xmlns="http://www.w3.org/2000/svg" viewBox="0 0 ${width} ${height}">${whole}</svg>`};
}

/** The key by which a lane is chosen and found again. */
export function laneKey({seller, buyer}) {
    return `lane:${seller} ${buyer}`;
}

/** How wide a lane is drawn over which the most units go, and how wide one over which hardly any do. */
const WIDEST = 9, LEAST = 2.5;

/** How much wider letters can be than they are reckoned, so that a wide lane stays away from them. */
const CLEAR = 1.12;

/** Where trades have units: what goes over each lane, and the most that goes over one, as `{units, most}`. */
function flowOf(lanes, {units = new Map()}) {
    const over = new Map(lanes.map(({trades}) => [trades[0], trades.reduce((sum, name) => sum + (units.get(name) ?? 0n), 0n)]));
    const most = [...over.values()].reduce((one, other) => (other > one ? other : one), 1n);
    return {units: over, most};
}

/** What is told of the units of a lane, and how wide it is drawn; where fewer may be admitted than there are, these are the most. */
function countOf({trades, most: all}, {units, most: top}, mark, {admitted}) {
    const count = units.get(trades[0]), then = trades.length === 1 && mark?.counts?.has(trades[0]) ? mark.counts.get(trades[0]) : null;
    const most = admitted ? trades.reduce((sum, name) => sum + admitted.get(name), 0n) : all;
    return {count, most, then, thick: LEAST + (WIDEST - LEAST) * Number(count) / Number(top)};
}

function laneAt(lane, on, stands, marks, selection, flow) {
    const taking = lane.trades.filter((name) => on.has(name)), isOn = taking.length > 0;
    const mark = markOf(lane.trades.map((name) => marks.get(name)).filter(Boolean));
    const isChosen = selection?.kind === "lane" && selection.key === laneKey(lane);
    const price = spanOf(isOn ? taking : lane.trades, shownPrices(stands));
    const isSigned = stands.isSigned ?? false, counts = {on: taking.length, all: lane.trades.length};
    const units = flow === null ? null : countOf(lane, flow, mark, stands);
    const name = lane.trades.length === 1 ? tradeLabel(lane.trades[0]) : say(isSigned ? "stage.signed" : "stage.on", counts);
    const isNamed = isOn || mark !== null || isChosen, rank = (isChosen ? 4 : 0) + (isOn ? 2 : 0) + (mark ? 1 : 0);
    return {...lane, key: laneKey(lane), name, price, units, isOn, mark, isChosen, isNamed, rank, isSigned};
}

/** The mark of a lane: of several that which is drawn widest, as what a step is about is. */
function markOf(found) {
    return found.reduce((widest, mark) => (widest === null || (mark.width ?? 0) > (widest.width ?? 0) ? mark : widest), null);
}

const numbers = new WeakMap();

/** The prices that are numbers; a document that is being typed may have others. */
function shownPrices(stands) {
    const isShown = ([, price]) => /^-?\d+(\/\d+)?$/.test(price);
    if (!numbers.has(stands)) numbers.set(stands, new Map([...stands.prices].filter(isShown)));
    return numbers.get(stands);
}

function laneSvg(lane, points, at, {isLine}) {
    const ink = lane.mark?.ink ?? (lane.isOn ? INK : OFF);
    const width = lane.units !== null && lane.isOn ? lane.units.thick : lane.mark?.width ?? (lane.isOn ? 4 : lane.mark ? 2 : 1.2);
    const drawn = arrow(points, {ink, width, dashes: !lane.isOn && lane.mark ? lane.mark.dashes ?? "7 4" : null});
    const says = laneSays(lane), chosen = lane.isChosen ? " chosen" : "";
    const attributes = {class: `lane${lane.isOn ? " on" : ""}${chosen}`, "data-key": lane.key, "data-trades": lane.trades.join(" ")};
    const words = isLine ? lineLabel : twoLines;
    return {
        line: tag("g", {...attributes, role: "button", tabindex: 0, "aria-pressed": lane.isOn ? "true" : "false", "aria-label": says},
            tag("title", {}, escaped(says)), tag("path", {class: "hit", d: smooth(points)}), drawn),
        label: at && tag("g", {class: `lane-label${chosen}`, "data-of": lane.key, "aria-hidden": "true"}, words(lane, at, ink))};
}

/** What a lane is, for those who hear it: whether it takes place or is signed. */
const STATES = {true: {true: "stage.is_signed", false: "stage.is_not_signed"},
    false: {true: "stage.is_on", false: "stage.is_off"}};

/** A lane in words, for those who hear it. */
function laneSays({trades, seller, buyer, name, price, units, isOn, mark, isSigned}) {
    const priced = price === null ? say("stage.no_price") : say("stage.at", {price});
    const marks = mark === null ? [] : [units !== null && units.then !== null ? say("stage.mark_units", {says: mark.says, count: units.then}) : mark.says];
    const values = {name, seller, buyer, priced, count: trades.length}, goes = units === null ? null : say("stage.units", {count: units.count, most: units.most});
    if (trades.length === 1) return say("stage.trade",
        {...values, state: [goes ?? say(STATES[isSigned][isOn]), ...marks].join(", ")});
    if (goes !== null) return say("stage.trades", {...values, name: goes, trades: [trades.map(tradeLabel).join(", "), ...marks].join("; ")});
    return say("stage.trades", {...values, trades: [trades.map(tradeLabel).join(", "), ...marks].join("; ")});
}

/** The name of a lane, with the sign of what comes or goes. */
function signed({name, mark}) {
    return mark?.sign ? `${mark.sign} ${name}` : name;
}

/** The price of a lane, with the units that go over it, and those that somebody would rather have. */
function priceOf({price, units}) {
    if (units === null) return price;
    const count = units.then === null ? units.count : `${units.count} \u2192 ${units.then}`, {most} = units;
    return price === null ? say("picture.units_bare", {count, most}) : say("picture.units_of", {count, most, price});
}

function twoLines(lane, {x, y}, ink) {
    const {isOn} = lane, price = priceOf(lane), name = signed(lane);
    const width = Math.max(widthOf(name, NORMAL), widthOf(price ?? "", PRICE)) * (lane.units === null ? 1 : CLEAR) + 10, weight = isOn ? "bold" : null;
    return [tag("rect", {x: x - width / 2, y: y - 17, width, height: 34, rx: 4}),
        text(x, y - 4, name, {ink, weight}), price === null ? null : text(x, y + 12, price, {size: PRICE, ink, weight})];
}

function lineLabel(lane, {x, y}, ink) {
    const {isOn, units} = lane, price = priceOf(lane), name = signed(lane);
    const says = price === null ? name : units === null ? say("picture.at", {name, price}) : say("picture.lane_units", {name, units: price});
    const width = widthOf(says, NORMAL) * (units === null ? 1 : CLEAR) + 6;
    return [tag("rect", {x: x - width / 2, y: y - 8, width, height: 16, rx: 3}), text(x, y + 4, says, {ink, weight: isOn ? "bold" : null})];
}

function firmSvg({name, width, height}, {x, y}, line, isChosen, way, own) {
    const mood = moodOf(line), says = firmSays(name, line), label = own ? say("stage.firm_own", {says, own: own.whole}) : says;
    const attributes = {class: `firm ${mood}${isChosen ? " chosen" : ""}`, "data-key": `firm:${name}`, "data-firm": name};
    const box = {x: x - width / 2, y: y - height / 2, width, height, rx: 6};
    return tag("g", {...attributes, role: "button", tabindex: 0, "aria-label": label}, titleOf(name, own), tag("rect", box), inBox(name, {x, y}, line, way, own));
}

/** What stands in a firm's box: its name, its own numbers, and what it has, each in a line, or name and what it has in one. */
function inBox(name, {x, y}, line, way, own) {
    const mood = moodOf(line), state = {size: BELOW, ink: INKS[mood] ?? BAD, weight: INKS[mood] ? null : "bold"};
    const lines = line ? belowOf(line, way.kind) : [], title = [firmLabel(name), {size: NAME, weight: "bold"}];
    if (way.kind === "line") return text(x, y + 5, [firmLabel(name), ...lines].join("  "), {...state, size: BELOW, weight: "bold"});
    const all = [title, ...(own && way.own > 0 ? own.lines.map((says) => [says, {size: BELOW, ink: OFF}]) : []), ...lines.map((says) => [says, state])];
    return all.map(([says, style], k) => text(x, y + 4 - (all.length - 1) * HIGH / 2 + k * (HIGH + 0.5), says, style));
}

/** What a pointer that rests on a box is told: the name behind a label, and all of the firm's own numbers. */
function titleOf(name, own) {
    const says = [...(firmLabel(name) === name ? [] : [name]), ...(own ? [own.whole] : [])].join(": ");
    return says === "" ? null : tag("title", {}, escaped(says));
}

/** Whether a firm is content, objects, or has what is impossible, as a class; "unknown" where nothing is answered of it. */
export function moodOf(line) {
    if (!line || line.mood) return line?.mood ?? "unknown";
    return line.worth === null ? "impossible" : line.gain === 0n ? "content" : "objects";
}

/** What stands below the name of a firm: a sign and its utility, and the best that it could have where there is room. */
function belowOf(line, kind) {
    const all = line.below ?? stateOf(line);
    if (kind === "whole") return all;
    return kind === "close" ? [all.join(", ")] : line.below ? all.slice(-1) : [all[0] === "\u2717" ? `\u2717 ${say("word.none")}` : all[0]];
}

function stateOf(line) {
    const mood = moodOf(line);
    if (mood === "content") return [`\u2713 ${line.utility}`];
    return mood === "impossible" ? ["\u2717", say("word.impossible")] : [`\u2717 ${line.utility}`, say("word.best", {number: line.best_utility})];
}

/** A firm in words. */
function firmSays(name, line) {
    const mood = moodOf(line);
    if (line?.says) return say("stage.firm_says", {name, says: line.says});
    if (mood === "unknown") return say("stage.firm", {name});
    if (mood === "content") return say("stage.firm_content", {name, utility: line.utility});
    if (mood === "impossible") return say("stage.firm_impossible", {name});
    return say("stage.firm_objects", {name, utility: line.utility, most: line.best_utility});
}
