// A walk along nodes, or around them, in lines that go to and fro, with words at each arrow.
import {arrow, boxWidth, label, namedBox, sizeOf} from "./svg.js";

const BOX = 38, ACROSS = 1560;

/**
 * Draws nodes `{name, below, isOn}` with an arrow from each to the next, and where `isRound` from the last to the first, each with
 * its lines of words: as `{drawn, width, height}`, from a left and a top edge on.
 */
export function walk(nodes, words, {left, top, ink, isRound}) {
    const box = Math.max(...nodes.map(({name, below}) => boxWidth(name, below)));
    const gap = Math.max(60, ...words.map((lines) => sizeOf(lines).width)) + 26;
    const isOneLine = nodes.length * (box + gap) - gap <= ACROSS;
    const most = Math.max(2, Math.floor((isOneLine ? ACROSS + gap : ACROSS) / (box + gap)));
    const perLine = columnsOf(nodes.length, most, isRound);
    const high = Math.max(0, ...words.map((lines) => sizeOf(lines).height));
    const aside = nodes.length > 2 * perLine ? gap : 0;
    const centers = nodes.map((_, k) => {
        const line = Math.floor(k / perLine), column = line % 2 === 0 ? k % perLine : perLine - 1 - k % perLine;
        const down = line * (BOX + high + 26) + Math.floor(line / 2) * high;
        return {x: left + aside + box / 2 + column * (box + gap), y: top + high + BOX / 2 + down, line};
    });
    const sides = {x: box / 2, y: BOX / 2};
    const arrows = words.map((lines, k) => {
        const isClosing = k === nodes.length - 1;
        const points = isClosing ? closing(centers, sides, left + 6) : between(centers[k], centers[k + 1], sides, isRound && nodes.length === 2);
        return {points, lines, at: besides(points, lines, aside > 0 && centers[k].line % 2 === 1)};
    });
    const edge = Math.max(...centers.map(({x}) => x + box / 2), ...arrows.map(({at, lines: said}) => at.x + sizeOf(said).width / 2));
    const bottom = Math.max(centers[centers.length - 1].y + BOX / 2 + 8, ...arrows.map(({at, lines: said}) => at.y + sizeOf(said).height / 2));
    return {
        drawn: [arrows.map(({points}) => arrow(points, {ink})),
            nodes.map((node, k) => namedBox("node", {...node, width: box, height: BOX}, centers[k], {thick: node.isOn ? 3 : 1})),
            arrows.map(({at, lines: said}) => label(at, said, {ink}))],
        width: edge - left, height: bottom - top};
}

/** How many nodes stand in a line: around, an even number of lines, so that the way back is short. */
function columnsOf(count, most, isRound) {
    if (!isRound || count === 2) return Math.min(count, most);
    return Math.ceil(count / (2 * Math.ceil(count / (2 * most))));
}

function between(from, to, sides, isBowed) {
    if (from.line !== to.line) return [{x: from.x, y: from.y + sides.y}, {x: to.x, y: to.y - sides.y}];
    const way = Math.sign(to.x - from.x);
    const start = {x: from.x + way * sides.x, y: from.y}, end = {x: to.x - way * sides.x, y: to.y};
    return isBowed ? [{...start, y: start.y - 8}, {...end, y: end.y - 8}] : [start, end];
}

/** The arrow from the last node to the first; around what stands between them, it goes along the edge. */
function closing(centers, sides, edge) {
    const last = centers[centers.length - 1], [first] = centers;
    if (last.line === first.line) return [{x: last.x - sides.x, y: last.y + 8}, {x: first.x + sides.x, y: first.y + 8}];
    if (last.line > 1) {
        return [{x: last.x - sides.x, y: last.y}, {x: edge, y: last.y}, {x: edge, y: first.y}, {x: first.x - sides.x, y: first.y}];
    }
    if (last.x === first.x) return [{x: last.x, y: last.y - sides.y}, {x: first.x, y: first.y + sides.y}];
    return [{x: last.x - sides.x, y: last.y}, {x: first.x, y: last.y}, {x: first.x, y: first.y + sides.y}];
}

/** Where words stand: above an arrow to the right, below one to the left, and beside one up or down, away from the other arrows. */
function besides(points, lines, isLeft) {
    const {width, height} = sizeOf(lines);
    const [from, to] = points;
    if (points.length > 2) return {x: (points[0].x + points[1].x) / 2, y: points[0].y + height / 2 + 6};
    const middle = {x: (from.x + to.x) / 2, y: (from.y + to.y) / 2};
    if (Math.abs(to.x - from.x) < 2) return {x: middle.x + (isLeft ? -1 : 1) * (width / 2 + 6), y: middle.y};
    return {x: middle.x, y: middle.y + Math.sign(from.x - to.x) * (height / 2 + 6)};
}
