// Two bundles between which the exchange property fails, trade by trade, with what each is worth.
import {worths} from "../read/firms.js";
import {tradeLabel} from "../words/labels.js";
import {say} from "../words/say.js";
import {BOTH, FIRST, foot, INK, LARGE, NORMAL, picture, SECOND, tag, text, widthOf} from "./svg.js";

/** The failing triple that an answer tells, as `{firm, x, y, at}`, or null. */
export function failingOf(network, said) {
    if (!Array.isArray(said.x) || !Array.isArray(said.y)) return null;
    const firm = said.firm ?? network.firms[Number(said.place?.[1])]?.name;
    return firm === undefined ? null : {firm, x: said.x, y: said.y, at: said.at};
}

/** The picture as SVG. */
export async function triplePicture(network, said, ask) {
    const {firm, x, y, at} = failingOf(network, said);
    const [ofX, ofY] = await worths(ask, network, firm, [x, y]);
    const names = network.trades.map(({name}) => name).filter((name) => network.isOf(name, firm));
    const wide = Math.max(60, ...names.map((name) => Math.max(widthOf(tradeLabel(name), NORMAL), widthOf(endsOf(network, name, firm), NORMAL)) + 18));
    const parts = names.map((name, k) => [
        text(90 + (k + 0.5) * wide, 60, tradeLabel(name), {weight: name === at ? "bold" : null, ink: name === at ? FIRST : INK}),
        text(90 + (k + 0.5) * wide, 76, endsOf(network, name, firm), {ink: "#475569"}),
        [x, y].map((bundle, line) => cell(bundle.includes(name), 90 + k * wide, 90 + line * 40, wide, inkOf(x.includes(name), y.includes(name))))]);
    const right = 90 + names.length * wide + 16;
    const rows = [["x", ofX], ["y", ofY]].map(([name, worth], line) => [
        text(74, 114 + line * 40, name, {size: LARGE, weight: "bold", anchor: "end"}),
        worth === null ? null : text(right, 114 + line * 40, say("picture.worth", {worth}),
            {size: LARGE, anchor: "start"})]);
    const width = Math.max(right + 140, 560);
    const {drawn, bottom} = foot(176, width, captionOf(at, ofX, ofY), []);
    const title = say("picture.fails", {firm});
    return picture(width, bottom, title, text(16, 30, title, {size: LARGE, weight: "bold", anchor: "start"}), parts, rows, drawn);
}

function captionOf(at, ofX, ofY) {
    const isKnown = ofX !== null && ofY !== null, sum = isKnown ? ofX + ofY : "";
    if (at === null) return [isKnown ? say("picture.no_trade_sum", {sum}) : say("picture.no_trade")];
    return [isKnown ? say("picture.trade_sum", {trade: at, sum}) : say("picture.trade", {trade: at})];
}

function endsOf(network, name, firm) {
    const {seller, buyer} = network.trade(name);
    return seller === firm ? say("picture.to", {firm: buyer}) : say("picture.from", {firm: seller});
}

function inkOf(inX, inY) {
    return inX && inY ? BOTH : inX ? FIRST : SECOND;
}

function cell(isIn, left, top, wide, ink) {
    const paint = isIn ? {fill: ink, "fill-opacity": 0.75, stroke: ink} : {fill: "white", stroke: "#cbd5e1"};
    return tag("rect", {x: left + 4, y: top, width: wide - 8, height: 34, rx: 5, ...paint});
}
