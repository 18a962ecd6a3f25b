// Where the boxes and arrows of a picture stand: in layers from left to right, by dagre.
import "../vendor/dagre-0.8.5/dagre.min.js";

const {dagre} = globalThis;

/** Up to how many arrows labels may fit between the layers. */
const MOST_ROOMY = 60;

/**
 * Boxes are `{id, width, height}` and arrows `{from, to, size}`, where a size is that of the label, or null. The answer has the
 * center of each box by its id, and for each arrow its points and the center of its label. It fits the room, if it can, with the
 * labels between the layers; otherwise labels are put where there is a free place on their arrows, and one that finds none is null.
 */
export function layout(boxes, arrows, room) {
    const roomy = arrows.length <= MOST_ROOMY ? placed(boxes, arrows, room, true) : null;
    if (roomy && roomy.width <= room.width && roomy.height <= room.height) return roomy;
    return labelled(closely(boxes, arrows, room), boxes, arrows);
}

/** A layout that leaves no room for labels. */
function closely(boxes, arrows, room) {
    return placed(boxes, arrows, room, false);
}

/**
 * A layout as small as it can be, to be made as large as a room by `filled`. With `withLabels` labels stand between the layers; `rankdir`
 * says whether these go from left to right or from top to bottom.
 */
export function compact(boxes, arrows, withLabels, rankdir = "LR") {
    const gaps = withLabels ? {nodesep: 12, edgesep: 6, ranksep: 44} : {nodesep: 8, edgesep: 1, ranksep: rankdir === "LR" ? 56 : 24, ranker: "tight-tree"};
    const found = {...ranked(boxes, arrows, {rankdir, ...gaps}, withLabels), isDown: rankdir === "TB"};
    if (withLabels || found.isDown || found.arrows.some(({bends}) => bends.length > 0)) return found;
    const most = Math.max(...layersOf(found.centers).map((layer) => layer.length)), high = Math.max(...boxes.map((box) => box.height)) + gaps.nodesep;
    return most * high < found.height ? {...found, height: most * high, centers: evenly(found.centers, most * high)} : found;
}

/** A compact layout that is made as large as a room. */
export function filled(found, boxes, arrows, room) {
    return ended(stretched(found, boxes, room), boxes, arrows, found.isDown);
}

/** A layout with each label at the first free place of its arrow; one that finds none is null. */
export function labelled(found, boxes, arrows) {
    const taken = boxes.map(({id, width, height}) => ({...found.centers.get(id), width, height}));
    const labels = arrows.map(({size}, k) => size && freePlace(found.arrows[k].points, size, taken, found));
    return {...found, arrows: found.arrows.map((arrow, k) => ({...arrow, label: labels[k]}))};
}

function placed(boxes, arrows, room, withLabels) {
    const found = ranked(boxes, arrows, {rankdir: "LR", nodesep: withLabels ? 28 : 8, edgesep: withLabels ? 10 : 1, ranksep: withLabels ? 80 : 120,
        ranker: withLabels ? "network-simplex" : "tight-tree"}, withLabels);
    const whole = {width: room.width, height: Math.min(room.height, 0.6 * room.width)};
    return ended(stretched(found, boxes, withLabels ? {width: 1.5 * found.height, height: found.height} : whole), boxes, arrows);
}

/** What dagre makes of boxes and arrows, with the bends of each arrow that it needs. */
function ranked(boxes, arrows, options, withLabels) {
    const graph = new dagre.graphlib.Graph({multigraph: true});
    graph.setGraph(options);
    for (const {id, width, height} of boxes) graph.setNode(nodeOf(id), {width, height});
    arrows.forEach(({from, to, size}, k) => {
        graph.setEdge(nodeOf(from), nodeOf(to), withLabels && size ? {...size, labelpos: "c"} : {width: 0, height: 0}, `${k}`);
    });
    dagre.layout(graph);
    const twins = countsOf(arrows);
    const drawn = arrows.map((arrow, k) => {
        const {points, x, y} = graph.edge(nodeOf(arrow.from), nodeOf(arrow.to), `${k}`);
        const bends = points.slice(1, -1), label = withLabels && arrow.size ? {x, y} : null;
        return {bends: twins.get(pairOf(arrow)) === 1 && bends.length === 1 && label === null ? [] : bends, label};
    });
    return {...graph.graph(), centers: new Map(boxes.map(({id}) => [id, graph.node(nodeOf(id))])), arrows: drawn};
}

/** A layout whose arrows go from side to side, or from below to above. */
function ended(found, boxes, arrows, isDown = false) {
    const sides = new Map(boxes.map((box) => [box.id, box]));
    return {...found, arrows: found.arrows.map(({bends, label}, k) => ({points: joined(found.centers, sides, arrows[k], bends, isDown), label}))};
}

/** The name of a box in a graph, where names such as __proto__ can't stand as they are. */
function nodeOf(id) {
    return `=${id}`;
}

/** A layout that is made larger, up to a room, while its boxes keep their sizes. Without bends the boxes of a layer go far apart. */
function stretched(found, boxes, room) {
    const width = Math.max(found.width, room.width), height = Math.max(found.height, room.height);
    const half = {x: Math.max(...boxes.map((box) => box.width)) / 2, y: Math.max(...boxes.map((box) => box.height)) / 2};
    const spread = (values, from, to) => {
        const least = Math.min(...values), most = Math.max(...values);
        return (value) => (most === least ? (from + to) / 2 : from + (value - least) * (to - from) / (most - least));
    };
    const points = [...found.centers.values(), ...found.arrows.flatMap(({bends, label}) => (label ? [...bends, label] : bends))];
    const x = width === found.width ? (value) => value : spread(points.map((point) => point.x), half.x, width - half.x);
    const y = height === found.height ? (value) => value : spread(points.map((point) => point.y), half.y, height - half.y);
    const at = (point) => ({x: x(point.x), y: y(point.y)});
    const centers = new Map([...found.centers].map(([id, center]) => [id, at(center)]));
    const hasBends = found.arrows.some(({bends}) => bends.length > 0);
    return {width, height, centers: hasBends || found.isDown || height === found.height ? centers : evenly(centers, height),
        arrows: found.arrows.map(({bends, label}) => ({bends: bends.map(at), label: label && at(label)}))};
}

/** The centers of each layer, in their order, at equal distances. */
function evenly(centers, height) {
    const spaced = new Map(centers);
    for (const layer of layersOf(centers)) {
        layer.sort(([, one], [, other]) => one.y - other.y).forEach(([id, {x}], k) => spaced.set(id, {x, y: height * (k + 0.5) / layer.length}));
    }
    return spaced;
}

/** The boxes that stand above each other. */
function layersOf(centers) {
    const layers = new Map();
    for (const entry of centers) {
        const key = Math.round(entry[1].x);
        layers.set(key, [...(layers.get(key) ?? []), entry]);
    }
    return [...layers.values()];
}

function pairOf({from, to}) {
    return JSON.stringify([from, to].sort());
}

function countsOf(arrows) {
    const counts = new Map();
    for (const arrow of arrows) counts.set(pairOf(arrow), (counts.get(pairOf(arrow)) ?? 0) + 1);
    return counts;
}

/** An arrow's points, from the side of one box over its bends to the side of the other. */
function joined(centers, sides, {from, to}, bends, isDown) {
    const start = centers.get(from), end = centers.get(to);
    return [edgeOf(start, sides.get(from), bends[0] ?? end, isDown), ...bends, edgeOf(end, sides.get(to), bends[bends.length - 1] ?? start, isDown)];
}

/** Where an arrow leaves a box towards a point: in the middle of its side where that lies to the side of it, or below or above where it goes down. */
function edgeOf(center, {width, height}, towards, isDown) {
    const dx = towards.x - center.x, dy = towards.y - center.y;
    if (isDown && Math.abs(dy) > height / 2 + 8) return {x: center.x, y: center.y + Math.sign(dy) * height / 2};
    if (Math.abs(dx) > width / 2 + 8) return {x: center.x + Math.sign(dx) * width / 2, y: center.y};
    const scale = Math.min(dx === 0 ? Infinity : width / 2 / Math.abs(dx), dy === 0 ? Infinity : height / 2 / Math.abs(dy));
    return Number.isFinite(scale) ? {x: center.x + dx * scale, y: center.y + dy * scale} : center;
}

const PARTS = [0.5, 0.42, 0.58, 0.34, 0.66, 0.26, 0.74, 0.2, 0.8, 0.46, 0.54, 0.38, 0.62, 0.3, 0.7, 0.23, 0.77, 0.16, 0.84];

/** A place on a line for a label that meets nothing that is taken; it is taken then. */
function freePlace(points, size, taken, {width, height}) {
    for (const part of PARTS) {
        const box = {...along(points, part), ...size};
        const isIn = box.x > size.width / 2 && box.x < width - size.width / 2 && box.y > size.height / 2 && box.y < height - size.height / 2;
        if (!isIn || taken.some((other) => overlap(box, other))) continue;
        taken.push(box);
        return {x: box.x, y: box.y};
    }
    return null;
}

function overlap(one, other) {
    return Math.abs(one.x - other.x) * 2 < one.width + other.width + 2 && Math.abs(one.y - other.y) * 2 < one.height + other.height + 2;
}

/** The point at a part of a line's length. */
function along(points, part) {
    const steps = points.slice(1).map((point, k) => Math.hypot(point.x - points[k].x, point.y - points[k].y));
    let left = part * steps.reduce((sum, step) => sum + step, 0);
    for (const [k, step] of steps.entries()) {
        if (left <= step && step > 0) {
            return {x: points[k].x + (points[k + 1].x - points[k].x) * left / step, y: points[k].y + (points[k + 1].y - points[k].y) * left / step};
        }
        left -= step;
    }
    return points[points.length - 1];
}
