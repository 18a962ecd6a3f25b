// The course of prices in an auction: a line for each item, step by step.
import {firmLabel} from "../words/labels.js";
import {say} from "../words/say.js";
import {BOTH, COME, FIRST, GONE, INK, NORMAL, picture, SECOND, tag, text, widthOf} from "./svg.js";

const INKS = [FIRST, SECOND, COME, BOTH, GONE, INK], DASHES = [null, "7 4", "2 4"];

const WIDE = 520, HIGH = 220, TOP = 14, LEFT = 46;

/** The picture as SVG. Prices go upwards, steps to the right; lines that end at one price have their names below each other. */
export function coursePicture(network, items, course) {
    const all = course.flat().map(Number), least = Math.min(...all), most = Math.max(...all, least + 1), steps = course.length - 1;
    const x = (k) => LEFT + k / steps * WIDE, y = (price) => TOP + (most - Number(price)) / (most - least) * HIGH;
    const names = items.map(({seller}) => firmLabel(seller)), right = Math.max(...names.map((name) => widthOf(name, NORMAL))) + 16;
    const lines = items.map((_, item) => tag("polyline", {points: course.flatMap((prices, k) => corners(course, item, k).map((price) => `${x(k)},${y(price)}`)).join(" "),
        fill: "none", stroke: INKS[item % INKS.length], "stroke-width": 2.5, "stroke-dasharray": DASHES[Math.floor(item / INKS.length) % DASHES.length]}));
    const labels = apart(items.map((_, item) => ({item, at: y(course[steps][item])})))
        .map(({item, at}) => text(x(steps) + 8, at + 4, names[item], {anchor: "start", ink: INKS[item % INKS.length], weight: "bold"}));
    const ticks = ticksOf(least, most).map((price) => [tag("line", {x1: LEFT, x2: x(steps), y1: y(price), y2: y(price), stroke: "#cbd5e1"}),
        text(LEFT - 6, y(price) + 4, price, {anchor: "end", ink: "#475569"})]);
    const below = text(LEFT + WIDE / 2, TOP + HIGH + 22, say("auction.steps", {count: steps}), {ink: "#475569"});
    return picture(LEFT + WIDE + right, TOP + HIGH + 34, say("auction.course"), ticks, lines, labels, below);
}

/** The prices at which a line turns at a step: it goes to the right first, and then up. */
function corners(course, item, k) {
    return k === 0 ? [course[0][item]] : [course[k - 1][item], course[k][item]];
}

/** Labels that stand below each other with room between them, the upper ones first. */
function apart(labels) {
    const sorted = [...labels].sort((one, other) => one.at - other.at);
    for (let k = 1; k < sorted.length; k += 1) sorted[k].at = Math.max(sorted[k].at, sorted[k - 1].at + NORMAL + 3);
    return sorted;
}

/** Some round prices from the least to the most. */
function ticksOf(least, most) {
    let tick = 1;
    for (let k = 1; tick * 6 < most - least; k += 1) tick = [1, 2, 5][k % 3] * 10 ** Math.floor(k / 3);
    const first = Math.ceil(least / tick) * tick;
    return Array.from({length: Math.floor((most - first) / tick) + 1}, (_, k) => first + k * tick);
}
