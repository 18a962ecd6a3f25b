// What holds a bound of a price: the changes along its path, in sentences and as a picture.
import {whyPicture} from "../../draw/why.js";
import {changesAlong} from "../../read/changes.js";
import {costs} from "../../read/firms.js";
import {changeWith} from "../../say/changes.js";
import {say} from "../../words/say.js";
import {isOld, networkOf} from "../document/state.js";
import {Ended, inText} from "../program/ask.js";
import {drawing, made, part} from "../shell/page.js";

let shown = null;

/** Traces the path of the bound that is chosen, and keeps what it is. The program is asked what each change costs. */
export async function trace(store, program) {
    const {selection, ranges, path} = store.value;
    const range = selection?.kind === "bound" && ranges?.said?.ranges?.find(({trade}) => trade === selection.trade);
    if (!range || isOld(store.value, ranges) || path?.selection === selection) return;
    const {document} = ranges, network = networkOf(document), ask = inText(program.turn());
    store.act("traced", {selection, document, lines: null, svg: null});
    try {
        const changes = changesAlong(network, ranges.said.on, selection.side === "high" ? range.high_path : range.low_path);
        const known = await costs(ask, network, ranges.said.on, changes);
        const lines = [headOf(range, selection.side), ...changes.map((change, k) => `${changeWith(change, known[k])}.`)];
        const svg = await whyPicture(network, {answer: "ranges", on: ranges.said.on, ranges: [range]}, ask);
        if (store.value.selection === selection) store.act("traced", {selection, document, lines, svg});
    } catch (error) {
        if (!(error instanceof Ended)) throw error;
    }
}

function headOf({trade, low, high}, side) {
    return side === "high" ? say("bound.above", {trade, price: high}) : say("bound.below", {trade, price: low});
}

/** Shows the path of a value. */
export function showPath(value) {
    const {path, selection} = value, isThere = path !== null && path.selection === selection && path.lines !== null;
    part("path").hidden = !isThere;
    part("path").classList.toggle("old", isThere && isOld(value, path));
    if (!isThere || shown === path) return;
    shown = path;
    const figure = made("figure");
    if (path.svg !== null) figure.append(drawing(path.svg));
    part("path").replaceChildren(...path.lines.map((line) => made("p", line)), figure);
}
