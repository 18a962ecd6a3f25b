// A network of very many arrows as a table: a line for each pair of firms with trades from one to the other.
import {say} from "../words/say.js";
import {laneLine, wordsOf} from "./lanes.js";
import {foot, INK, NORMAL, picture, tag, text, widthOf} from "./svg.js";

const LINE = 17, MOST_LINES = 52;

/** The table as SVG, in as many columns as it takes; what takes place is bold. */
export function tableOf(lanes, stands, caption) {
    const lines = lanes.map((lane) => ({lane, says: laneLine(lane, wordsOf(lane, stands))}));
    const columns = [];
    for (let k = 0; k < lines.length; k += MOST_LINES) columns.push(lines.slice(k, k + MOST_LINES));
    let left = 16;
    const parts = [];
    for (const column of columns) {
        column.forEach(({lane, says}, k) => parts.push(tag("g", {class: "trades", "data-trades": lane.trades.join(" ")},
            text(left, 28 + k * LINE, says, {anchor: "start", ink: lane.on === 0 ? "#64748b" : INK, weight: lane.on > 0 ? "bold" : null}))));
        left += Math.max(...column.map(({says}) => widthOf(says, NORMAL))) * 1.05 + 24;
    }
    const told = [...caption, say("picture.too_many")];
    const {drawn, bottom} = foot(20 + Math.min(lines.length, MOST_LINES) * LINE, left, told, []);
    return picture(left, bottom, caption[0] ?? say("picture.network"), parts, drawn);
}
