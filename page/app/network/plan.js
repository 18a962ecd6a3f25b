// Where the firms and lanes of a network stand in the picture. A guess doesn't move them: the room for what it changes is kept free.
import {lanesOf} from "../../draw/lanes.js";
import {compact, filled, labelled} from "../../draw/layout.js";
import {NORMAL, widthOf} from "../../draw/svg.js";
import {hasUnits} from "../../read/limits.js";
import {firmLabel, tradeLabel} from "../../words/labels.js";
import {language, say} from "../../words/say.js";

/** Beyond how many lanes there is a table, and only one firm's neighbourhood is drawn. */
const MOST_LANES = 120;

/** Up to how many lanes each has its name and price in a place of its own, and up to how many where there is one left. */
const FEW = 24, SOME = 60;

/** How many of many lanes have a place for their label where they are drawn in a room. */
const MOSTLY = 0.75;

/** The sizes of letters, in pixels of the screen where the picture isn't enlarged. None is smaller. */
export const PRICE = 15, NAME = 15, BELOW = 13;

/** The edge around the picture. */
export const EDGE = 12;

/**
 * How a network may be drawn, the most telling first: how high a box is, and how much more with its firm's own numbers; whether a lane has
 * its name above its price or both in one line; whether that has a place between the layers, or where there is a free one; and how much it
 * may be enlarged. One is there only where trades have units, which own numbers by steps want more room for.
 */
const WAYS = [
    {kind: "whole", high: 58, own: 16, isLine: false, isBetween: true, zooms: [2.2], directions: ["LR"]},
    {kind: "whole", high: 58, own: 16, isLine: true, isBetween: true, zooms: [1.3], directions: ["LR"]},
    {kind: "close", high: 42, own: 16, isLine: true, isBetween: true, zooms: [1.3], directions: ["LR"]},
    {kind: "close", high: 42, own: 16, isLine: true, isBetween: false, zooms: [1.25, 1], directions: ["LR", "TB"]},
    {kind: "close", high: 42, own: 16, isLine: false, isBetween: false, zooms: [1.25, 1], directions: ["LR", "TB"]},
    {kind: "short", high: 38, own: 16, isLine: true, isBetween: true, zooms: [1.5], directions: ["LR"], isOfUnits: true},
    {kind: "short", high: 38, own: 0, isLine: true, isBetween: true, zooms: [1.5], directions: ["LR"]},
    {kind: "short", high: 38, own: 0, isLine: true, isBetween: false, zooms: [1.5, 1.25, 1], directions: ["LR", "TB"]},
    {kind: "line", high: 22, own: 0, isLine: true, isBetween: false, zooms: [1.25, 1], directions: ["LR", "TB"]},
];

const kept = new Map(), MOST_KEPT = 8;

/** Whether a network is shown as a table, with one firm's neighbourhood. */
export function isTable(network) {
    return network.trades.length > MOST_LANES && lanesAt(network).length > MOST_LANES;
}

/** The lanes of the trades that are looked at: one for each pair of a seller and a buyer. Where trades have units each has the `most` that may go. */
function lanesAt(network, firm = null) {
    const trades = firm === null ? network.trades : network.trades.filter(({seller, buyer}) => seller === firm || buyer === firm);
    const names = new Set(network.firms.map(({name}) => name));
    const both = trades.filter(({name, seller, buyer}) => name !== "" && seller !== buyer && names.has(seller) && names.has(buyer));
    const lanes = lanesOf(both, {on: null, prices: new Map()}, new Map(), false);
    return hasUnits(network.data) ? lanes.map((lane) => ({...lane, most: capacityOf(network, lane)})) : lanes;
}

/** How many units of all trades of a lane may go. */
function capacityOf(network, {trades}) {
    return trades.reduce((sum, name) => sum + network.capacity(name), 0n);
}

/**
 * The plan of a network, or of one firm and its neighbours: `{lanes, boxes, places, way, zoom}`, where `places` is a layout and `way` says
 * how it is drawn. `digits` is how long numbers are at most, `ofFirms` and `ofPrices`, `room` has the pixels that there are, of which
 * `isTall` says whether there may be more below, and `own` has what the document says of firms, by their names.
 */
export function planOf(network, firm, digits, room, own) {
    const trades = network.trades.map(({name, seller, buyer}) => [name, seller, buyer, tradeLabel(name), String(network.capacity(name))]);
    const firms = network.firms.map(({name}) => [name, firmLabel(name), own.get(name)?.lines]);
    const key = JSON.stringify([language(), firm, digits, room, firms, trades]);
    if (!kept.has(key)) {
        if (kept.size >= MOST_KEPT) kept.delete(kept.keys().next().value);
        kept.set(key, madePlan(network, firm, digits, room, own));
    }
    return kept.get(key);
}

function madePlan(network, firm, digits, room, own) {
    const lanes = lanesAt(network, firm), near = new Set([firm, ...lanes.flatMap(({seller, buyer}) => [seller, buyer])]);
    const firms = [...new Set(network.firms.map(({name}) => name))].filter((name) => name !== "" && (firm === null || near.has(name)));
    const drafts = waysFor(lanes, room).map(([way, direction]) => draftOf(way, direction, {lanes, firms, digits, own}));
    if (firms.length === 0) return {...drafts[0], zoom: 1, places: NOWHERE};
    const inside = {...room, width: room.width - 2 * EDGE, height: room.height - 2 * EDGE};
    for (const share of sharesFor(lanes)) {
        for (const draft of drafts) {
            const plan = fitting(draft, inside, digits, share);
            if (plan !== null) return plan;
        }
    }
    return beyond(drafts.filter(({direction}) => direction === "LR").pop(), inside);
}

/** The layout of nothing. */
const NOWHERE = {width: 100, height: 100, centers: new Map(), arrows: []};

/** The ways in which lanes may be drawn, with their directions; many lanes go down only where there is no more room below. */
function waysFor(lanes, {isTall}) {
    const isMuch = lanes.length > FEW, isByUnits = lanes.some(({most}) => most !== undefined);
    const ways = WAYS.filter(({isBetween, own, isOfUnits = false}) => (isByUnits || !isOfUnits) && (!isMuch || (own === 0 && !isBetween)));
    return ways.flatMap((way) => way.directions.filter((direction) => !isMuch || !isTall || direction === "LR").map((direction) => [way, direction]));
}

/** A way to draw a network, before it is laid out. */
function draftOf(way, direction, {lanes, firms, digits, own}) {
    const boxes = firms.map((name) => ({id: name, name, ...boxSize(name, digits, way, own.get(name)?.lines ?? [])}));
    const arrows = lanes.map((lane) => ({from: lane.seller, to: lane.buyer, size: way.isBetween ? (way.isLine ? lineSize : labelSize)(lane, digits) : null}));
    return {way, direction, lanes, boxes, arrows};
}

/** How many of all lanes have to have a place for their label; where trades have units, whose labels are long, fewer before nothing fits. */
function sharesFor(lanes) {
    if (lanes.length > FEW) return [MOSTLY];
    return lanes.some(({most}) => most !== undefined) ? [1, MOSTLY, 0] : [1];
}

/** The plan of a draft, enlarged as much as it may be; null where it doesn't fit, or not so many lanes find a place for their labels. */
function fitting(draft, room, digits, share) {
    const {way, direction, lanes, boxes, arrows} = draft, least = compact(boxes, arrows, way.isBetween, direction);
    const most = Math.min(room.width / least.width, room.height / least.height);
    for (const zoom of way.isBetween ? [Math.min(way.zooms[0], most)] : way.zooms) {
        if (zoom > most || zoom < 1) continue;
        const inside = {width: room.width / zoom, height: room.height / zoom};
        const plan = {...draft, zoom, places: filled(least, boxes, arrows, inside)};
        const placed = labelPlaces(plan, digits, () => true).filter((place) => place !== null).length;
        if (placed >= lanes.length * share) return plan;
    }
    return null;
}

/** The plan of a draft that is larger than the room: higher, where it may be, or made smaller. */
function beyond(draft, room) {
    const {boxes, arrows} = draft, least = compact(boxes, arrows, false);
    const needed = {width: Math.max(room.width, least.width), height: Math.max(room.height, least.height)};
    return {...draft, zoom: 1, places: filled(least, boxes, arrows, needed)};
}

/**
 * The places of the labels, null for a lane that finds none. `isNamed` says which lanes have one for sure, as long as there is a free
 * place; these come first, and others only where lanes aren't many.
 */
export function labelPlaces(plan, digits, isNamed) {
    const key = plan.lanes.map((lane) => (isNamed(lane) ? "1" : "0")).join("");
    if (plan.labels?.key !== key) plan.labels = {key, places: madeLabels(plan, digits, isNamed)};
    return plan.labels.places;
}

function madeLabels({lanes, places, boxes, way}, digits, isNamed) {
    if (way.isBetween) return places.arrows.map(({label}) => label);
    const order = [...lanes.keys()].sort((one, other) => isNamed(lanes[other]) - isNamed(lanes[one]) || one - other);
    const sizes = order.map((k) => ({size: isNamed(lanes[k]) || lanes.length <= SOME ? (way.isLine ? lineSize : labelSize)(lanes[k], digits) : null}));
    const found = labelled({...places, arrows: order.map((k) => places.arrows[k])}, boxes, sizes), labels = [];
    order.forEach((k, place) => (labels[k] = found.arrows[place].label));
    return labels;
}

/** How much wider letters can be than they are reckoned: those of DejaVu Sans are. */
const WIDER = 1.12;

function boxSize(name, {ofFirms}, {kind, high, own: ownHigh}, own) {
    const number = "0".repeat(ofFirms), label = firmLabel(name), best = say("word.best", {number});
    const short = [`\u2717 ${say("word.none")}`, `\u2717 ${number}`];
    const below = {whole: [say("word.impossible"), best], close: [`\u2717 ${number}, ${best}`], short, line: []}[kind];
    const first = kind === "line" ? `${label}  \u2717 ${number}` : label;
    const widest = Math.max(widthOf(first, NAME), ...below.map((says) => widthOf(says, BELOW)), ...(ownHigh > 0 ? own.map((says) => widthOf(says, BELOW)) : []));
    return {width: widest * WIDER + 12, height: high + own.length * ownHigh};
}

/** The room for a name above a price. */
function labelSize(lane, digits) {
    return {width: Math.max(widthOf(nameOf(lane.trades), NORMAL), widthOf(priceOf(lane, digits), PRICE)) * WIDER + 8, height: NORMAL + PRICE + 8};
}

/** The longest text that may stand for the price of a lane, and for its units where it has some. */
function priceOf({trades, most}, {ofPrices}) {
    const number = "0".repeat(ofPrices), price = trades.length === 1 ? number : say("extent.from_to", {low: number, high: number});
    return most === undefined ? price : say("picture.units_of", {count: "0".repeat(String(most).length), most, price});
}

/** The room for both in one line. */
function lineSize(lane, digits) {
    const name = nameOf(lane.trades);
    const says = lane.most === undefined ? say("picture.at", {name, price: "0".repeat(digits.ofPrices)}) : say("picture.lane_units", {name, units: priceOf(lane, digits)});
    return {width: widthOf(says, NORMAL) * WIDER + 4, height: NORMAL + 4};
}

function nameOf(trades) {
    return trades.length === 1 ? tradeLabel(trades[0]) : say("stage.on", {on: trades.length, all: trades.length});
}
