// The steps of an auction and its end, in sentences.
import {firmLabel} from "../words/labels.js";
import {say} from "../words/say.js";
import {listed} from "./words.js";

/** What happens in a step; the prices are those after it. */
export function stepLine({items, prices}, {kind, buyer, items: places, out}) {
    const told = places.map((k) => say("auction.item", {item: firmLabel(items[k].seller), price: prices[k]}));
    const values = {firm: buyer, items: listed(told), others: listed(out.map(firmLabel)), count: out.length};
    return say(kind === "bid" ? (out.length === 0 ? "auction.bids" : "auction.outbids") : kind === "match" ? "auction.matches" : "auction.loses", values);
}

/** What the program says at the end. */
export function endLine({steps, isOfOne}, {gain, isEquilibrium, above, most}) {
    const ended = say("auction.ended", {count: steps.length});
    const found = isEquilibrium ? say("auction.equilibrium") : say("auction.gain", {gain});
    const far = above === null ? [] : [above === 0n ? say("auction.lowest") : say("auction.above", {above})];
    return [ended, found, ...far, ...(isOfOne ? [say("auction.promised", {most})] : [])].join(" ");
}
