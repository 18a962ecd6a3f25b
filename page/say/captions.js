// What stands below a picture: an answer in a line or two.
import {extent} from "../read/standing.js";
import {fraction, itemsOf} from "../read/network.js";
import {say} from "../words/say.js";
import {cause, wayTo} from "./faults.js";
import {nodeWord, set} from "./words.js";

/** The lines below the picture of a network; none without an answer. */
export function captionOf(network, said) {
    return CAPTIONS[said.answer]?.(said, network) ?? (said.answer ? [said.answer] : []);
}

function path(nodes) {
    return nodes.map(nodeWord).join(", ");
}

const CAPTIONS = {
    equilibrium: ({surplus}) => [say("caption.equilibrium", {surplus})],
    solved: ({surplus}) => [say("caption.solved", {surplus})],
    prices: () => [say("caption.prices")],
    cycle: ({nodes, cost}) => [say("caption.cycle", {nodes: path(nodes), cost})],
    better: ({firm, gain, bundle}) => [say("caption.better", {firm, gain, bundle: set(bundle)})],
    impossible: ({firm}) => [say("caption.impossible", {firm})],
    accepted: () => [say("caption.accepted")],
    exchange_fails: ({firm, at, x, y}) => [
        at === null ? say("caption.fails", {firm}) : say("caption.fails_at", {firm, at}),
            `x = ${set(x)}, y = ${set(y)}`],
    ranges: ({ranges}) => ranges.length !== 1 ? [say("caption.ranges")] : [`${ranges[0].trade}: ${extent(ranges[0])}`],
    session: ({edits}, network) => edits.length === 0 ? [say("caption.no_edits")]
        : [say("caption.session", {edit: itemsOf(network.edits.at(-1)).join(" "), surplus: edits.at(-1).surplus})],
    firms: ({firms, content: count, surplus}) => {
        const values = {count, all: firms.length};
        return [surplus === null ? say("caption.firms_impossible", values)
            : say("caption.firms", {...values, surplus})];
    },
    drops: ({firm, keeps, gain, over}) => {
        const values = {firm, bundle: set(keeps)};
        return [gain === null ? say("caption.drops_impossible", values)
            : say("caption.drops", {...values, gain: fraction(gain, over)})];
    },
    completes: () => [say("caption.completes")],
    blocks: ({contracts}) => [say("caption.blocks", {trades: path(contracts.map(([name]) => name))})],
    valid: (said, {claim}) => [say("caption.valid", {claim: claim.answer})],
    invalid: ({reason, trade}, {claim}) => {
        const values = {claim: claim.answer, reason};
        return [trade ? say("caption.invalid_at", {...values, trade}) : say("caption.invalid", values)];
    },
    fault: ({fault, name, place}) => {
        const at = place.length > 0 ? [say("caption.fault_at", {place: wayTo(place)})] : [];
        return [say("caption.fault", {fault, name, cause: cause(fault, place)}), ...at];
    },
};
