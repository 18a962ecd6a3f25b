// The ranges of prices as bars, from the lowest to the highest price of each trade.
import {namesOn} from "../read/standing.js";
import {tradeLabel} from "../words/labels.js";
import {say} from "../words/say.js";
import {FIRST, foot, NORMAL, picture, tag, text, widthOf} from "./svg.js";

const LINE = 20, MOST_LINES = 42, ACROSS = 1590;

/** The picture as SVG. Parallel trades with the same range have one bar; there are as many columns as it takes. */
export function barsPicture(network, said) {
    const bars = barsOf(network, said);
    const axis = axisOf(said.ranges.flatMap(({low, high}) => [low, high]).filter((bound) => bound !== null).map(Number));
    const count = Math.max(1, Math.ceil(bars.length / MOST_LINES)), lines = Math.ceil(bars.length / count);
    const columns = Array.from({length: count}, (_, k) => bars.slice(k * lines, (k + 1) * lines));
    const indent = Math.max(60, ...bars.map(({title}) => widthOf(title, NORMAL) * 1.2)) + 22;
    const long = Math.max(120, Math.min(360, ACROSS / count - indent - 30)), wide = indent + long + 30, height = lines * LINE + 16;
    const drawn = columns.map((column, k) => columnAt(column, {left: k * wide, indent, long, height}, axis));
    const {drawn: below, bottom} = foot(height + 30, columns.length * wide, [], legendOf(bars));
    return picture(columns.length * wide, bottom, say("picture.ranges"), drawn, below);
}

function barsOf(network, {on, ranges}) {
    const bars = new Map(), going = new Set(namesOn(on));
    for (const {trade, low, high} of ranges) {
        const {seller, buyer} = network.trade(trade);
        const key = JSON.stringify([seller, buyer, String(low), String(high)]);
        const bar = bars.get(key) ?? {seller, buyer, low, high, trades: [], on: 0};
        bar.trades.push(trade);
        bar.on += going.has(trade) ? 1 : 0;
        bars.set(key, bar);
    }
    return [...bars.values()].map((bar) => ({...bar, title: titleOf(bar)}));
}

function titleOf({seller, buyer, trades, on}) {
    const name = trades.length === 1 ? tradeLabel(trades[0]) : `${on}/${trades.length}`;
    return `${name}, ${say("picture.ends", {seller, buyer})}`;
}

/** Where an axis begins and ends, and the round distance of its ticks, of which there are at most ten. */
export function axisOf(bounds) {
    const least = bounds.length > 0 ? Math.min(...bounds) : 0, most = bounds.length > 0 ? Math.max(...bounds) : 1;
    let tick = 1;
    for (let k = 1; tick * 8 < most - least; k += 1) tick = [1, 2, 5][k % 3] * 10 ** Math.floor(k / 3);
    const from = Math.floor(least / tick) * tick;
    return {from, to: Math.max(Math.ceil(most / tick) * tick, from + tick), tick};
}

function columnAt(bars, {left, indent, long, height}, {from, to, tick}) {
    const x = (price) => left + indent + (Number(price) - from) / (to - from) * long;
    const ticks = Array.from({length: Math.round((to - from) / tick) + 1}, (_, k) => from + k * tick);
    const every = Math.max(1, Math.ceil(Math.max(...ticks.map((price) => widthOf(`${price}`, NORMAL) + 8)) * ticks.length / long / 1.1));
    return [
        ticks.map((price, k) => [
            tag("line", {x1: x(price), x2: x(price), y1: 8, y2: height, stroke: "#cbd5e1"}),
            k % every === 0 ? text(x(price), height + 16, price, {ink: "#475569"}) : null]),
        text(left + indent + long / 2, height + 32, say("picture.price"), {ink: "#475569"}),
        bars.map((bar, k) => barAt(bar, 22 + k * LINE, {left: left + indent, right: left + indent + long}, x))];
}

function barAt({title, trades, on, low, high}, y, {left, right}, x) {
    const isOpen = low === null || high === null;
    return tag("g", {class: "trades", "data-trades": trades.join(" ")},
        text(left - 12, y + 4, title, {anchor: "end", weight: on > 0 ? "bold" : null}),
        tag("line", {x1: low === null ? left : x(low), x2: high === null ? right : x(high), y1: y, y2: y,
            stroke: FIRST, "stroke-width": on > 0 ? 7 : 2, "stroke-dasharray": isOpen ? "6 4" : null}),
        [low, high].filter((bound) => bound !== null).map((bound) => tag("circle", {cx: x(bound), cy: y, r: 4, fill: FIRST})));
}

function legendOf(bars) {
    const bar = (width, dashes) => (x, y) => tag("line", {x1: x, x2: x + 36, y1: y, y2: y, stroke: FIRST, "stroke-width": width, "stroke-dasharray": dashes});
    return [
        bars.some(({on}) => on > 0) ? {sample: bar(7, null), says: say("picture.takes_place")} : null,
        bars.some(({on}) => on === 0) ? {sample: bar(2, null), says: say("picture.takes_no_place")} : null,
        bars.some(({low, high}) => low === null || high === null)
            ? {sample: bar(2, "6 4"), says: say("picture.beyond")} : null]
        .filter((entry) => entry !== null);
}
