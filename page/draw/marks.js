// Which trades and firms an answer speaks of, with the colour and the meaning of each.
import {itemsOf} from "../read/network.js";
import {nameOn} from "../read/standing.js";
import {say} from "../words/say.js";
import {BOTH, COME, FIRST, GONE, SECOND} from "./svg.js";

/** As `{trades, firms}`: a Map from names of trades to `{ink, says}`, and the set of the firms that are in colour. */
export function marksOf(network, said) {
    const trades = new Map();
    const mark = (names, ink, says) => {
        for (const name of itemsOf(names).map(nameOn)) if (name !== null && !trades.has(name)) trades.set(name, {ink, says});
    };
    if (said.answer === "cycle") mark(said.nodes, FIRST, say("mark.cycle"));
    if (said.answer === "blocks") mark(said.contracts.map(([name]) => name), FIRST, say("mark.blocks"));
    if (said.bundle) mark(said.bundle, FIRST, say("mark.rather", {firm: said.firm}));
    if (said.keeps) mark(said.keeps, FIRST, say("mark.keep", {firm: said.firm}));
    if (said.answer === "invalid" && said.trade) mark([said.trade], FIRST, say("mark.reason"));
    if (said.x) markBoth(mark, said.x, said.y, say("mark.x_alone"), say("mark.y_alone"), say("mark.both"));
    if (said.answer === "ranges" && said.ranges.length === 1) {
        const [{high_path: above, low_path: below}] = said.ranges;
        markBoth(mark, above.map(nameOn), below.map(nameOn), say("mark.above"), say("mark.below"), say("mark.above_below"));
    }
    const [part, index] = itemsOf(said.place);
    const isOfTrade = said.answer === "fault" && part === "trades" && index !== undefined;
    if (isOfTrade) mark([network.trades[Number(index)]?.name], GONE, say("mark.fault"));
    return {trades, firms: firmsIn(network, said)};
}

function markBoth(mark, ones, others, first, second, both) {
    mark(ones.filter((name) => others.includes(name)), BOTH, both);
    mark(ones, FIRST, first);
    mark(others, SECOND, second);
}

function firmsIn(network, said) {
    const firms = new Set(typeof said.firm === "string" ? [said.firm] : []);
    const [part, index] = itemsOf(said.place);
    if (part === "firms" && index !== undefined) firms.add(network.firms[Number(index)]?.name);
    if (said.answer === "firms") for (const line of said.firms) if (line.gain !== 0n) firms.add(line.firm);
    return firms;
}

/** What changed from one standing to another, as marks of the trades that came and went. */
export function changesOf(before, now) {
    const came = (now.on ?? []).filter((name) => !before.on?.includes(name));
    const went = (before.on ?? []).filter((name) => !now.on?.includes(name));
    return new Map([...came.map((name) => [name, {ink: COME, says: say("mark.came")}]),
        ...went.map((name) => [name, {ink: GONE, says: say("mark.went")}])]);
}
