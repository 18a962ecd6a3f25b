// Contracts that block an outcome, between the firms that would rather sign them, with what each has and could have.
import {gains} from "../read/firms.js";
import {fraction} from "../read/network.js";
import {tradeLabel} from "../words/labels.js";
import {say} from "../words/say.js";
import {layout} from "./layout.js";
import {arrow, boxWidth, FIRST, foot, INK, label, namedBox, picture, sizeOf, tag} from "./svg.js";

/** The picture as SVG. */
export async function chainPicture(network, said, ask) {
    const found = await gains(ask, network, said);
    const endsOf = (name) => [network.trade(name).seller, network.trade(name).buyer];
    const actors = new Set(said.contracts.flatMap(([name]) => endsOf(name)));
    const signed = network.outcome.contracts.filter(([name]) => endsOf(name).some((firm) => actors.has(firm)));
    const isLeft = (name) => endsOf(name).some((firm) => found.has(firm) && !found.get(firm).keeps.includes(name));
    const arrows = [...said.contracts.map(([name, price]) => arrowOf(network, name, fraction(price, said.over), "new")),
        ...signed.map(([name, price]) => arrowOf(network, name, fraction(price, network.outcome.over), isLeft(name) ? "left" : "signed"))];
    const boxes = network.firms.filter(({name}) => arrows.some(({from, to}) => name === from || name === to))
        .map(({name}) => boxOf(name, actors.has(name), found.get(name)));
    return drawn(boxes, arrows, layout(boxes, arrows, {width: 1560, height: 800}), boxes.some(({below}) => below !== null));
}

function arrowOf(network, name, price, state) {
    const {seller, buyer} = network.trade(name), lines = [tradeLabel(name), price];
    return {from: seller, to: buyer, name, lines, size: sizeOf(lines), state};
}

function boxOf(name, isActor, gain) {
    const isKnown = gain !== undefined && gain.now !== null;
    const below = isKnown ? say("picture.now_then", {now: fraction(gain.now, gain.over), then: fraction(gain.then, gain.over)})
        : null;
    const style = isActor ? {fill: "#ffedd5", stroke: FIRST, inkBelow: INK} : {};
    return {id: name, name, below, style, width: boxWidth(name, below), height: below === null ? 24 : 36};
}

const STYLES = {
    new: {ink: FIRST, width: 3, says: "picture.rather_sign"},
    signed: {ink: INK, width: 3, says: "picture.signed"},
    left: {ink: INK, width: 2, dashes: "7 4", says: "picture.signed_left"},
};

function drawn(boxes, arrows, places, hasGains) {
    const width = Math.max(places.width + 32, 560), left = (width - places.width) / 2;
    const moved = ({x, y}) => ({x: x + left, y: y + 16});
    const lines = arrows.map(({name, state}, k) => tag("g", {class: "trades", "data-trades": name},
        arrow(places.arrows[k].points.map(moved), STYLES[state])));
    const labels = arrows.map(({lines: words, state}, k) => places.arrows[k].label &&
        label(moved(places.arrows[k].label), words, {ink: STYLES[state].ink}));
    const legend = Object.entries(STYLES).filter(([state]) => arrows.some((each) => each.state === state))
        .map(([, style]) => ({says: say(style.says), sample: (x, y) => arrow([{x, y}, {x: x + 36, y}], style)}));
    const caption = hasGains ? [say("picture.below_name")] : [];
    const {drawn: below, bottom} = foot(16 + places.height, width, caption, legend);
    const firms = boxes.map((box) => namedBox("firm", box, moved(places.centers.get(box.id)), box.style));
    return picture(width, bottom, say("mark.blocks"), lines, firms, labels, below);
}
