// Pieces of a picture as text of SVG.
import {firmLabel, labelOf} from "../words/labels.js";

/** The sizes of letters, in units of the picture, which are pixels at its full size. None is smaller. */
export const SMALL = 11, NORMAL = 12, LARGE = 14;

export const INK = "#334155", FAINT = "#94a3b8", FIRST = "#b45309", SECOND = "#1d4ed8", BOTH = "#7e22ce", GONE = "#b91c1c", COME = "#15803d";

const FONT = "Helvetica, Arial, sans-serif";

export function escaped(text) {
    return String(text).replace(/[&<>"]/g, (sign) => ({"&": "&amp;", "<": "&lt;", ">": "&gt;", '"': "&quot;"})[sign]);
}

/** An element: attributes that are null are left out, and so are children. */
export function tag(name, attributes = {}, ...children) {
    const written = Object.entries(attributes).filter(([, value]) => value !== null && value !== undefined)
        .map(([key, value]) => ` ${key}="${escaped(typeof value === "number" ? Math.round(value * 10) / 10 : value)}"`).join("");
    const inside = children.flat(Infinity).filter((child) => child !== null && child !== undefined && child !== "").join("");
    return inside === "" ? `<${name}${written}/>` : `<${name}${written}>${inside}</${name}>`;
}

const WIDTHS = [[/[ijlI.,:;'|!()[\] ]/, 0.32], [/[mwMW]/, 0.9], [/[A-Z]/, 0.72], [/./s, 0.57]];

/** How wide a text is at a size, rather more than less. */
export function widthOf(text, size) {
    let sum = 0;
    for (const sign of String(text)) sum += WIDTHS.find(([signs]) => signs.test(sign))[1];
    return sum * size;
}

export function text(x, y, content, {size = NORMAL, ink = INK, anchor = "middle", weight = null} = {}) {
    return tag("text", {x, y, "font-size": size, fill: ink, "text-anchor": anchor, "font-weight": weight}, escaped(content));
}

/** The room that lines of text take. */
export function sizeOf(lines, size = NORMAL) {
    return {width: Math.max(0, ...lines.map((line) => widthOf(line, size))) + 6, height: lines.length * (size + 2) + 2};
}

/** Lines of text in a white box around a point. */
export function label(at, lines, {size = NORMAL, ink = INK} = {}) {
    const {width, height} = sizeOf(lines, size);
    const left = at.x - width / 2, top = at.y - height / 2;
    return tag("g", {class: "label"},
        tag("rect", {x: left, y: top, width, height, fill: "white", "fill-opacity": 0.9}),
        lines.map((line, k) => text(at.x, top + (k + 1) * (size + 2) - 1.5, line, {size, ink})));
}

/**
 * A box around a point, with a name and a smaller line below it, or none. `kind` is what it is of, a firm or a node; `style` has its
 * `fill`, `stroke` and `thick`, and the ink of the line below.
 */
export function namedBox(kind, {name, below, width, height}, {x, y}, style = {}) {
    const {fill = "#f8fafc", stroke = "#475569", thick = 1, inkBelow = "#475569"} = style;
    return tag("g", {class: kind, [`data-${kind}`]: name},
        tag("rect", {x: x - width / 2, y: y - height / 2, width, height, rx: 5, fill, stroke, "stroke-width": thick}),
        labelOfBox(kind, name) === name ? null : tag("title", {}, escaped(name)),
        text(x, below ? y - 2 : y + 4.5, labelOfBox(kind, name), {size: NORMAL + 1, weight: "bold"}),
        below ? text(x, y + 12, below, {size: SMALL, ink: inkBelow}) : null);
}

/** What stands in a box: the label of a firm, or of what else it is of. */
function labelOfBox(kind, name) {
    return kind === "firm" ? firmLabel(name) : labelOf(name);
}

/** The width of a box for a name and the line below it. */
export function boxWidth(name, below) {
    return Math.max(widthOf(labelOf(name), NORMAL + 1) + 4, widthOf(below ?? "", SMALL), 30) + 14;
}

/** A line through points, with a head at its end. */
export function arrow(points, {ink = INK, width = 1.5, dashes = null} = {}) {
    const end = points[points.length - 1], before = points[points.length - 2];
    const long = Math.hypot(end.x - before.x, end.y - before.y) || 1, size = 6 + width;
    const back = {x: (before.x - end.x) / long, y: (before.y - end.y) / long};
    const foot = {x: end.x + back.x * size, y: end.y + back.y * size}, half = size * 0.45;
    const corners = [end, ...[half, -half].map((side) => ({x: foot.x - back.y * side, y: foot.y + back.x * side}))];
    return [
        tag("path", {d: smooth([...points.slice(0, -1), foot]), fill: "none", stroke: ink, "stroke-width": width, "stroke-dasharray": dashes}),
        tag("polygon", {points: corners.map(({x, y}) => `${x.toFixed(1)},${y.toFixed(1)}`).join(" "), fill: ink})];
}

/** A curve through points that goes on to the right, or to the left, and never beyond the heights of its points. */
export function smooth(points) {
    const at = ({x, y}) => `${x.toFixed(1)},${y.toFixed(1)}`;
    const steps = points.slice(1).map((point, k) => ({x: point.x - points[k].x, y: point.y - points[k].y}));
    const isOneWay = steps.every(({x}) => x > 1) || steps.every(({x}) => x < -1);
    if (points.length === 2 || !isOneWay) return `M${points.map(at).join("L")}`;
    const slopes = steps.map(({x, y}) => y / x);
    const tangents = points.map((_, k) => k === 0 ? slopes[0] : k === steps.length ? slopes[k - 1]
        : slopes[k - 1] * slopes[k] <= 0 ? 0 : 2 / (1 / slopes[k - 1] + 1 / slopes[k]));
    return `M${at(points[0])}` + steps.map(({x}, k) => {
        const from = points[k], to = points[k + 1];
        const first = {x: from.x + x / 3, y: from.y + tangents[k] * x / 3}, second = {x: to.x - x / 3, y: to.y - tangents[k + 1] * x / 3};
        return `C${at(first)} ${at(second)} ${at(to)}`;
    }).join("");
}

/** A whole picture. */
export function picture(width, height, title, ...children) {
    const size = {xmlns: "http://www.w3.org/2000/svg", width, height, viewBox: `0 0 ${Math.ceil(width)} ${Math.ceil(height)}`, "font-family": FONT};
    return tag("svg", size, tag("title", {}, escaped(title)), tag("rect", {width: "100%", height: "100%", fill: "white"}), ...children)
        .replace(/<(g|text|path|line|\/g|\/svg)\b/g, "\n<$1") + "\n";
}

/** Lines of text and samples of lines below a picture: what is said, and what the lines mean. */
export function foot(top, width, lines, legend) {
    const parts = [];
    let y = top + 8;
    for (const line of lines.flatMap((each) => wrapped(each, width - 32))) parts.push(text(width / 2, (y += LARGE + 4), line, {size: LARGE}));
    let x = 16;
    y += legend.length > 0 ? 24 : 8;
    for (const {sample, says} of legend) {
        const wide = 46 + widthOf(says, NORMAL) + 20;
        if (x > 16 && x + wide > width) [x, y] = [16, y + 20];
        parts.push(sample(x, y - 4), text(x + 44, y, says, {anchor: "start"}));
        x += wide;
    }
    return {drawn: parts, bottom: y + 12};
}

/** Text in lines of a width. */
function wrapped(content, width, size = LARGE) {
    const lines = [""];
    for (const word of content.split(" ")) {
        const longer = lines[lines.length - 1] === "" ? word : `${lines[lines.length - 1]} ${word}`;
        if (widthOf(longer, size) > width && lines[lines.length - 1] !== "") lines.push(word);
        else lines[lines.length - 1] = longer;
    }
    return lines;
}
