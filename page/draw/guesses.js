// What a class guessed: for each trade how many chose each price, beside the range that the price has in all equilibria.
import {tradeLabel} from "../words/labels.js";
import {say} from "../words/say.js";
import {axisOf} from "./bars.js";
import {COME, FIRST, foot, GONE, NORMAL, picture, tag, text, widthOf} from "./svg.js";

const LINE = 34, LONG = 460;

/** The picture as SVG. `guesses` has a Map from trades to prices for each pupil; `ranges` are those of the network, or empty. */
export function guessesPicture(network, ranges, guesses) {
    const bounds = new Map(ranges.map((range) => [range.trade, range]));
    const rows = network.trades.map(({name}) => ({name, counts: countsOf(guesses, name), range: bounds.get(name) ?? null}));
    const axis = axisOf(rows.flatMap(({counts, range}) => [...counts.keys(), ...(range === null ? [] : [range.low, range.high])]).filter((price) => price !== null).map(Number));
    const indent = Math.max(60, ...rows.map(({name}) => widthOf(tradeLabel(name), NORMAL) * 1.2)) + 20, height = rows.length * LINE + 20;
    const x = (price) => indent + (Number(price) - axis.from) / (axis.to - axis.from) * LONG;
    const ticks = Array.from({length: Math.round((axis.to - axis.from) / axis.tick) + 1}, (_, k) => axis.from + k * axis.tick).map((price) => [
        tag("line", {x1: x(price), x2: x(price), y1: 8, y2: height, stroke: "#cbd5e1"}), text(x(price), height + 16, price, {ink: "#475569"})]);
    const most = Math.max(1, ...rows.flatMap(({counts}) => [...counts.values()]));
    const drawn = rows.map((row, k) => rowAt(row, 26 + k * LINE, {indent, x, most}));
    const {drawn: below, bottom} = foot(height + 26, indent + LONG + 40, [say("results.guesses", {count: guesses.length})], legend());
    return picture(indent + LONG + 40, bottom, say("results.diagram"), ticks, drawn, below);
}

/** How many guessed each price, from the lowest on. */
function countsOf(guesses, name) {
    const counts = new Map();
    for (const prices of guesses) {
        const price = prices.get(name);
        if (typeof price === "bigint") counts.set(price, (counts.get(price) ?? 0) + 1);
    }
    return new Map([...counts].sort(([one], [other]) => (one < other ? -1 : 1)));
}

function rowAt({name, counts, range}, y, {indent, x, most}) {
    const bar = range === null ? null : tag("line", {x1: range.low === null ? indent : x(range.low), x2: range.high === null ? indent + LONG : x(range.high),
        y1: y, y2: y, stroke: FIRST, "stroke-width": 6, "stroke-linecap": "round", "stroke-opacity": 0.45});
    const dots = [...counts].map(([price, count]) => [
        tag("circle", {cx: x(price), cy: y, r: 4 + 9 * Math.sqrt(count / most), fill: isWithin(price, range) ? COME : GONE, "fill-opacity": 0.8}),
        count > 1 ? text(x(price), y + 4, count, {ink: "white", weight: "bold"}) : null]);
    return tag("g", {class: "trades", "data-trades": name}, text(indent - 12, y + 4, tradeLabel(name), {anchor: "end"}), bar, dots);
}

function isWithin(price, range) {
    return range !== null && (range.low === null || range.low <= price) && (range.high === null || price <= range.high);
}

function legend() {
    const dot = (ink) => (x, y) => tag("circle", {cx: x + 18, cy: y, r: 7, fill: ink, "fill-opacity": 0.8});
    return [{sample: (x, y) => tag("line", {x1: x, x2: x + 36, y1: y, y2: y, stroke: FIRST, "stroke-width": 6, "stroke-opacity": 0.45}), says: say("results.range")},
        {sample: dot(COME), says: say("results.within")}, {sample: dot(GONE), says: say("results.beyond")}];
}
