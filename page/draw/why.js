// The picture of why an answer is so: the changes of a cycle or of ranges, contracts that block, a plan in parts, or a failing triple.
import {changesAlong} from "../read/changes.js";
import {costs} from "../read/firms.js";
import {itemsOf} from "../read/network.js";
import {extent, nameOn, namesOn} from "../read/standing.js";
import {nodeWord} from "../say/words.js";
import {say} from "../words/say.js";
import {chainPicture} from "./chain.js";
import {isPlan, planPicture} from "./plan.js";
import {FIRST, foot, INK, LARGE, picture, SECOND, tag, text, widthOf} from "./svg.js";
import {failingOf, triplePicture} from "./triple.js";
import {walk} from "./walk.js";

/** The picture as SVG, or null where an answer has no reason that is drawn. */
export async function whyPicture(network, said, ask) {
    if (said.answer === "cycle") return cyclePicture(network, said, ask);
    if (said.answer === "ranges" && said.ranges.length > 0) return rangesPicture(network, said, ask);
    if (said.answer === "blocks") return chainPicture(network, said, ask);
    if (isPlan(network, said)) return planPicture(network, ask);
    return failingOf(network, said) === null ? null : triplePicture(network, said, ask);
}

async function cyclePicture(network, said, ask) {
    const on = itemsOf(network.arrangement.on);
    const changes = changesAlong(network, on, [...said.nodes, said.nodes[0]]);
    const known = await costs(ask, network, on, changes), words = wordsOf(changes, known);
    const round = {words, isPriced: known.some((cost) => cost !== null), nodes: said.nodes, ink: FIRST, isRound: true,
        says: ""};
    return framed([round], network, on, say("picture.round", {cost: said.cost}));
}

async function rangesPicture(network, said, ask) {
    const paths = said.ranges.flatMap((range) => {
        const {trade, low, high} = range;
        const above = high === null ? say("picture.no_highest") : say("picture.not_above", {price: high});
        const below = low === null ? say("picture.no_lowest") : say("picture.not_below", {price: low, sum: -low});
        return [{nodes: range.high_path, ink: FIRST, title: `${trade}: ${extent(range)}`, says: above}, {nodes: range.low_path, ink: SECOND, says: below}];
    });
    const changes = paths.map(({nodes}) => changesAlong(network, said.on, nodes));
    const known = await costs(ask, network, said.on, changes.flat());
    let used = 0;
    const parts = paths.map((path, k) => {
        const ofPath = known.slice(used, (used += changes[k].length));
        return {...path, isRound: false, isPriced: ofPath.some((cost) => cost !== null),
            words: wordsOf(changes[k], ofPath)};
    });
    return framed(parts, network, said.on, "");
}

/** The words of arrows: the firm, what it would do, and what that costs it. */
function wordsOf(changes, known) {
    return changes.map(({firm, acts}, k) => {
        const ends = (place) => (place < acts.length - 1 ? "," : "");
        const told = acts.map(({does, trade}, place) => say(ACTS[does], {trade}) + ends(place));
        return [say("picture.would", {firm}), ...told,
            ...(known[k] === null ? [] : [say("picture.cost", {cost: known[k]})])];
    });
}

/** What a firm would do, in short. */
const ACTS = {buy: "picture.buy", sell: "picture.sell", "keep back": "picture.keep_back", "give up": "picture.give_up", "buy more": "picture.buy_more",
    "buy fewer": "picture.buy_fewer", "sell more": "picture.sell_more", "sell fewer": "picture.sell_fewer"};

/** Walks below each other, each under its title and over what it says. */
function framed(parts, network, on, caption) {
    const going = new Set(namesOn(on));
    let top = 10, width = 300;
    const drawn = [];
    for (const {nodes, words, ink, isRound, title, says} of parts) {
        if (title) drawn.push(text(16, (top += 22), title, {size: LARGE, anchor: "start", weight: "bold"}));
        if (says !== "") drawn.push(text(16, (top += 20), says, {ink, anchor: "start"}));
        width = Math.max(width, widthOf(title ?? "", LARGE) + 32, widthOf(says, 12) + 40);
        if (nodes.length === 0) continue;
        const part = walk(nodes.map((node) => nodeOf(network, going, node)), words, {left: 16, top: top + 8, ink, isRound});
        drawn.push(part.drawn);
        top += part.height + 8;
        width = Math.max(width, part.width + 32);
    }
    const isOn = parts.some(({nodes}) => nodes.some((node) => going.has(nameOn(node))));
    const thick = (x, y) => tag("rect", {x, y: y - 7, width: 36, height: 14, rx: 4, fill: "#f8fafc", stroke: INK, "stroke-width": 3});
    const legend = isOn ? [{sample: thick, says: say("picture.takes_place")}] : [];
    const lines = [caption, parts.some(({isPriced}) => isPriced) ? say("picture.costs") : ""].filter(Boolean);
    const {drawn: below, bottom} = foot(top, Math.max(width, 420), lines, legend);
    return picture(Math.max(width, 420), bottom, caption || say("picture.ranges"), drawn, below);
}

function nodeOf(network, going, node) {
    if (node === null) return {name: nodeWord(node), below: "", isOn: false};
    const {seller, buyer} = network.trade(nameOn(node));
    return {name: nodeWord(node), below: say("picture.ends", {seller, buyer}), isOn: going.has(nameOn(node))};
}
