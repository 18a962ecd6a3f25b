// A plan in parts that is worth more than any set of trades: what each firm has shares of, and how much of each trade is sold.
import {itemsOf} from "../read/network.js";
import {sharesOf} from "../read/plan.js";
import {comparedWith, shareOf} from "../say/plan.js";
import {set} from "../say/words.js";
import {firmLabel, tradeLabel} from "../words/labels.js";
import {say} from "../words/say.js";
import {layout} from "./layout.js";
import {arrow, FIRST, foot, INK, label, NORMAL, picture, sizeOf, SMALL, tag, text, widthOf} from "./svg.js";

/** How many parts of a firm, and trades of a part, are told; of more it is told how many there are. */
const MOST_PARTS = 5, MOST_NAMES = 3;

/** Whether an answer is that a plan in parts is valid. */
export function isPlan(network, said) {
    return said.answer === "valid" && network.claim.answer === "none";
}

/** The picture as SVG. */
export async function planPicture(network, ask) {
    const {claim} = network, shares = await sharesOf(network, claim, ask), {sum, most} = await comparedWith(network, shares, ask);
    const arrows = network.trades.flatMap(({name, seller, buyer}) => arrowOf(name, seller, buyer, claim));
    const told = new Map(shares.map(({firm, parts}) => [firm, partLines(parts, claim.over)]));
    const boxes = network.firms.filter(({name}) => told.has(name)).map(({name}) => boxOf(name, told.get(name)));
    return drawn(boxes, arrows, layout(boxes, arrows, {width: 1560, height: 800}), captionOf(sum, most));
}

function captionOf(sum, most) {
    const line = sum === null ? say("plan.drawn")
        : most === null ? say("plan.drawn_sum", {sum}) : say("plan.drawn_most", {sum, most});
    return [line, say("plan.below")];
}

/** The arrow of a trade of which something is sold, in a list. */
function arrowOf(name, seller, buyer, {plan, over}) {
    const weight = plan.reduce((sum, [firm, names, each]) => (firm === buyer && itemsOf(names).includes(name) ? sum + each : sum), 0n);
    const lines = [tradeLabel(name), shareOf(weight, over)];
    return weight === 0n ? [] : [{from: seller, to: buyer, name, lines, size: sizeOf(lines), isWhole: weight === over}];
}

function partLines(parts, over) {
    const told = parts.slice(0, parts.length > MOST_PARTS ? MOST_PARTS - 1 : MOST_PARTS).map((part) => partLine(part, over));
    return told.length === parts.length ? told : [...told, say("plan.others", {count: parts.length - told.length})];
}

function partLine({names, weight, worth}, over) {
    const many = () => say("plan.trades", {count: names.length});
    const bundle = names.length === 0 ? say("list.none") : names.length > MOST_NAMES ? many() : set(names);
    const values = {share: shareOf(weight, over), bundle};
    return worth === null ? say("plan.part", values) : say("plan.part_drawn", {...values, worth});
}

function boxOf(name, lines) {
    const width = Math.max(widthOf(firmLabel(name), NORMAL + 1) + 4, ...lines.map((line) => widthOf(line, SMALL))) + 14;
    return {id: name, name, lines, width, height: 24 + 13 * lines.length};
}

function firmBox({name, lines, width, height}, {x, y}) {
    const top = y - height / 2;
    return tag("g", {class: "firm", "data-firm": name},
        tag("rect", {x: x - width / 2, y: top, width, height, rx: 5, fill: "#f8fafc", stroke: "#475569"}),
        text(x, top + 16, firmLabel(name), {size: NORMAL + 1, weight: "bold"}),
        lines.map((line, k) => text(x, top + 30 + 13 * k, line, {size: SMALL})));
}

function drawn(boxes, arrows, places, caption) {
    const width = Math.max(places.width + 32, 560), left = (width - places.width) / 2;
    const moved = ({x, y}) => ({x: x + left, y: y + 16});
    const styleOf = ({isWhole}) => ({ink: isWhole ? INK : FIRST, width: isWhole ? 3 : 2});
    const lines = arrows.map((each, k) => tag("g", {class: "trades", "data-trades": each.name}, arrow(places.arrows[k].points.map(moved), styleOf(each))));
    const labels = arrows.map((each, k) => places.arrows[k].label && label(moved(places.arrows[k].label), each.lines, {ink: styleOf(each).ink}));
    const {drawn: below, bottom} = foot(16 + places.height, width, caption, []);
    const firms = boxes.map((box) => firmBox(box, moved(places.centers.get(box.id))));
    return picture(width, bottom, say("plan.title"), lines, firms, labels, below);
}
