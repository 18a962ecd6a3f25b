// The changes of cycles and paths in sentences.
import {say} from "../words/say.js";
import {listed} from "./words.js";

const ACTS = {buy: "change.buy", sell: "change.sell", "keep back": "change.keep_back", "give up": "change.give_up", "buy more": "change.buy_more",
    "buy fewer": "change.buy_fewer", "sell more": "change.sell_more", "sell fewer": "change.sell_fewer"};

/** An act as it stands after "would". */
function actOf({does, trade, partner}) {
    return say(ACTS[does], {trade, partner});
}

/** A change, with what it costs its firm in worth where that is known. */
export function changeWith({firm, acts: parts}, cost) {
    const values = {firm, acts: listed(parts.map(actOf))};
    if (cost === null) return say("change.plain", values);
    if (cost === 0n) return say("change.free", values);
    return cost > 0n ? say("change.costs", {...values, cost}) : say("change.gains", {...values, gain: -cost});
}
