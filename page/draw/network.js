// The picture of a network, with or without an answer: a box for each firm, and an arrow from seller to buyer.
import {hasUnits} from "../read/limits.js";
import {extent, standing} from "../read/standing.js";
import {captionOf} from "../say/captions.js";
import {say} from "../words/say.js";
import {layout} from "./layout.js";
import {laneLine, lanesOf, wordsOf} from "./lanes.js";
import {changesOf, marksOf} from "./marks.js";
import {arrow, boxWidth, FAINT, foot, FIRST, INK, label, LARGE, namedBox, picture, sizeOf, tag, widthOf} from "./svg.js";
import {tableOf} from "./table.js";

const ROOM = {width: 1580, height: 880}, MOST_ARROWS = 120, FEW = 24, MANY_FIRMS = 40, MOST_IN_LEGEND = 6.7;

/**
 * The picture as SVG. `before` is an earlier answer, of which is shown what changed; `firm` is the one whose neighbourhood alone is
 * drawn. A network of very many arrows is a table.
 */
export function networkPicture(network, said, {before = null, firm = null} = {}) {
    const stands = standingOf(network, said);
    const earlier = before && standingOf(network, before);
    const marks = earlier ? changesOf(earlier, stands) : marksOf(network, said).trades;
    const trades = network.trades.filter(({seller, buyer}) => firm === null || seller === firm || buyer === firm);
    const lanes = lanesOf(trades, stands, marks, said.answer === "session");
    const caption = captionOf(network, said);
    if (lanes.length > MOST_ARROWS) return tableOf(lanes, stands, caption);
    const near = new Set([firm, ...trades.flatMap(({seller, buyer}) => [seller, buyer])]);
    const firms = firm === null ? network.firms : network.firms.filter(({name}) => near.has(name));
    const boxes = boxesOf(firms, hasUnits(network.data), said, marksOf(network, said).firms);
    const most = Math.max(...lanes.map(({units}) => units ?? 0), 1);
    const ends = new Set(boxes.map(({id}) => id));
    const arrows = lanes.filter(({seller, buyer}) => ends.has(seller) && ends.has(buyer)).map((lane) => {
        const lines = isNamed(lane, lanes, earlier, stands) ? shortened(wordsOf(lane, stands, earlier), lanes) : [];
        return {from: lane.seller, to: lane.buyer, lane, lines, size: lines.length > 0 ? sizeOf(lines) : null, style: styleOf(lane, stands, most)};
    });
    return drawn(boxes, arrows, layout(boxes, arrows, ROOM), caption);
}

/** What takes place and at which prices; of ranges the bounds stand for the price. */
function standingOf(network, said) {
    const stands = standing(network, said);
    if (said.answer === "cycle") return {...stands, prices: new Map()};
    return said.answer === "ranges" ? {...stands, prices: new Map(said.ranges.map((range) => [range.trade, extent(range)]))} : stands;
}

/** Whether a lane has words: all have where there are few, and otherwise those that take place, are in colour or changed. */
function isNamed(lane, lanes, earlier, stands) {
    const changed = earlier !== null && lane.trades.some((name) => earlier.prices.get(name) !== stands.prices.get(name));
    return lanes.length <= FEW || lane.on === null || lane.on > 0 || lane.mark !== null || (changed && lanes.length <= 2 * FEW);
}

/** Words in one line where there are many. */
function shortened(lines, lanes) {
    return lanes.length <= FEW ? lines : [lines.join(" ")];
}

/** A box for each firm, with its kind where they have several. */
function boxesOf(firms, areLaminar, said, inColour) {
    const lines = new Map(said.answer === "firms" ? said.firms.map((line) => [line.firm, line]) : []);
    const isClose = (firms.length > MANY_FIRMS || areLaminar) && lines.size === 0;
    return firms.map(({name, kind}) => {
        const line = lines.get(name), below = line ? utilityOf(line) : isClose ? null : kind;
        const style = inColour.has(name) ? {fill: "#ffedd5", stroke: FIRST, thick: 2} : {};
        const inkBelow = line && line.gain !== 0n ? FIRST : undefined;
        return {id: name, name, below, width: boxWidth(name, below), height: below === null ? 20 : 36, style: {...style, inkBelow}};
    });
}

/** The utility of a firm, with a sign where it isn't content. */
function utilityOf({utility, gain}) {
    if (utility === null) return `\u2717 ${say("word.impossible")}`;
    return gain === 0n ? `${utility}` : `\u2717 ${say("picture.could_have", {utility, most: utility + gain})}`;
}

function drawn(boxes, arrows, places, caption) {
    const width = Math.max(places.width, ...caption.map((line) => Math.min(widthOf(line, LARGE), 900)), 420) + 32;
    const left = (width - places.width) / 2, top = 16;
    const moved = ({x, y}) => ({x: x + left, y: y + top});
    const lines = arrows.map(({lane, style}, k) => ({lane, drawn: tag("g", {class: "trades", "data-trades": lane.trades.join(" ")},
        tag("title", {}, titleOf(arrows[k])), arrow(places.arrows[k].points.map(moved), style))}));
    const labels = arrows.map(({lines: words, style}, k) => places.arrows[k].label &&
        label(moved(places.arrows[k].label), words, {ink: style.mark ?? style.textInk}));
    const {drawn: below, bottom} = foot(top + places.height, width, caption, legendOf(arrows.map(({style}) => style)));
    return picture(width, bottom, caption[0] ?? say("picture.network"),
        lines.sort((one, other) => (one.lane.on ?? 0) - (other.lane.on ?? 0)).map((line) => line.drawn),
        boxes.map((box) => namedBox("firm", box, moved(places.centers.get(box.id)), box.style)), labels, below);
}

function titleOf({lane, lines}) {
    if (lane.units > 0 && lines.length > 0) return laneLine(lane, lines);
    const [name = "", price] = lines, says = price === undefined ? name : say("picture.at", {name, price});
    return `${say("picture.ends", lane)}: ${lane.trades.length > 1 ? `${lane.trades.join(", ")}: ` : ""}${says}`;
}

/** How a lane is drawn, and what that says; with units it is as wide as its share of the most that go by a lane. */
function styleOf({on, units, mark, isAdmitted}, stands, most) {
    const common = {ink: mark?.ink ?? INK, mark: mark?.ink ?? null, says: mark?.says ?? null, textInk: INK, dashes: null};
    if (stands.on === null) return {...common, width: 1.5, state: null};
    if (on > 0) return {...common, width: units === null ? 2.5 + Math.min(on, 6) * 0.7 : 2 + 8 * units / most,
        state: say(stands.isSigned ? "picture.is_signed" : "picture.takes_place")};
    const faint = {...common, ink: mark?.ink ?? FAINT, textInk: "#64748b"};
    if (!isAdmitted) return {...faint, width: 1, dashes: "2 4", state: say("picture.not_admitted")};
    return {...faint, width: mark ? 1.8 : 1, dashes: mark ? "7 4" : null,
        state: say(stands.isSigned ? "picture.not_signed" : "picture.takes_no_place")};
}

/** What the lines mean that really occur: each state and each colour once. */
function legendOf(styles) {
    const entries = new Map();
    for (const style of styles) {
        const meaning = [style.says, style.state].filter(Boolean).join(", ");
        if (meaning !== "" && !entries.has(meaning)) entries.set(meaning, style);
    }
    return [...entries].map(([says, style]) => ({says, sample: (x, y) => arrow([{x, y}, {x: x + 36, y}], {...style, width: Math.min(style.width, MOST_IN_LEGEND)})}));
}
