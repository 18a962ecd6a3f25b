// A failing triple in sentences.
import {worths} from "../read/firms.js";
import {say} from "../words/say.js";
import {set} from "./words.js";

/** The two bundles between which the exchange property fails, what they are worth where that is known, and how it fails. */
export async function failingLines(network, {firm, x, y, at}, ask) {
    const [ofX, ofY] = await worths(ask, network, firm, [x, y]), values = {firm, x: set(x), y: set(y)};
    const bundles = ofX === null || ofY === null ? say("exchange.bundles", values)
        : say("exchange.worths", {...values, of_x: ofX, of_y: ofY, sum: ofX + ofY});
    return [bundles, at === null ? say("exchange.no_trade") : say("exchange.trade", {trade: at})];
}
