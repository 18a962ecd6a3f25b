// The bounds of a price as a bar, with the guess on it, and a button at each end that shows what holds it.
import {language, say} from "../../words/say.js";
import {made} from "../shell/page.js";

const NAMESPACE = "http://www.w3.org/2000/svg", LONG = 80, HIGH = 16, EDGE = 6;

/** Where the bars of all prices begin and end: at the least and greatest number that one of them shows. */
export function scaleOf({ranges}) {
    const bounds = (ranges?.said?.ranges ?? []).flatMap(({low, high}) => [low, high]).filter((bound) => bound !== null).map(Number);
    const least = bounds.length > 0 ? Math.min(...bounds) : 0, most = bounds.length > 0 ? Math.max(...bounds) : 1;
    const edge = Math.max(1, (most - least) / 8);
    return {from: least - edge, to: most + edge};
}

/** Whether a price lies between bounds; one that is null holds nothing. */
export function isWithin({low, high}, price) {
    return (low === null || price >= low) && (high === null || price <= high);
}

/** Shows bounds in a cell. */
export function boundsAt(cell, {range, price, scale, isOld, selection, choose}) {
    const side = selection?.kind === "bound" && selection.trade === range?.trade ? selection.side : null;
    const key = range ? JSON.stringify([language(), String(range.low), String(range.high), String(price), scale, side])
        : "";
    cell.classList.toggle("old", isOld);
    if (cell.dataset.shown === key) return;
    const focused = cell.contains(document.activeElement) ? document.activeElement.dataset.key : null;
    cell.dataset.shown = key;
    const [low, high] = range ? ["low", "high"].map((end) => bound(range, end, end === side, choose)) : [];
    cell.replaceChildren(...(range ? [low, bar(range, price, scale), high] : []));
    for (const child of cell.children) if (focused !== null && child.dataset.key === focused) child.focus({preventScroll: true});
}

const NONE = {low: "bound.no_lowest", high: "bound.no_highest"}, SAYS = {low: "bound.at_least", high: "bound.at_most"};

function bound(range, side, isChosen, choose) {
    if (range[side] === null) return made("span", say(NONE[side]), {class: "quiet"});
    const names = {"data-key": `${side}:${range.trade}`,
        "aria-label": say(SAYS[side], {trade: range.trade, price: range[side]}), "aria-pressed": `${isChosen}`};
    const button = made("button", String(range[side]), {type: "button", class: "bound", ...names});
    button.addEventListener("click", () => choose(side));
    return button;
}

function bar(range, price, {from, to}) {
    const {low, high} = range;
    const x = (number) => Math.max(0, Math.min(1, (Number(number) - from) / (to - from))) * (LONG - 2 * EDGE) + EDGE;
    const svg = element("svg", {width: LONG, height: HIGH, viewBox: `0 0 ${LONG} ${HIGH}`, "aria-hidden": "true"});
    svg.append(element("line", {x1: 0, x2: LONG, y1: 8, y2: 8, class: "axis"}),
        element("line", {x1: low === null ? 0 : x(low) - 0.5, x2: high === null ? LONG : x(high) + 0.5, y1: 8, y2: 8, class: "span"}));
    if (typeof price !== "bigint") return svg;
    const at = x(price), isIn = isWithin(range, price);
    svg.append(isIn ? element("circle", {cx: at, cy: 8, r: 5, class: "guess"})
        : element("path", {d: `M${at - 5},3L${at + 5},13M${at + 5},3L${at - 5},13`, class: "guess beyond"}));
    return svg;
}

function element(name, attributes) {
    const made = document.createElementNS(NAMESPACE, name);
    for (const [key, value] of Object.entries(attributes)) made.setAttribute(key, value);
    return made;
}
