// The trades of a network as the arrows of a picture: those from one firm to another are one, a lane, where nothing sets them apart.
import {tradeLabel} from "../words/labels.js";
import {say} from "../words/say.js";

const NONE = new Map();

/**
 * The lanes of some trades, as `{seller, buyer, trades, on, units, mark, isAdmitted}`; `on` counts those that take place and is null
 * where nothing says which do, and so are `units`, how many of all trades go, where no units are told.
 */
export function lanesOf(trades, {on, prices, units = NONE}, marks, isSession) {
    const lanes = new Map();
    const taking = on === null ? null : new Set(on);
    for (const trade of trades) {
        const mark = marks.get(trade.name) ?? null, isAdmitted = !isSession || prices.has(trade.name);
        const key = JSON.stringify([trade.seller, trade.buyer, mark?.says, isAdmitted]);
        const lane = lanes.get(key) ?? {seller: trade.seller, buyer: trade.buyer, trades: [], on: taking && 0, units: units.size > 0 ? 0 : null, mark, isAdmitted};
        lane.trades.push(trade.name);
        if (units.has(trade.name)) lane.units += Number(units.get(trade.name));
        if (taking?.has(trade.name)) lane.on += 1;
        lanes.set(key, lane);
    }
    return [...lanes.values()];
}

/**
 * What stands beside a lane: its trade, or how many of its trades take place, with what is said of their prices; or how many units
 * of them go, at which price.
 */
export function wordsOf(lane, {on, prices}, before = null) {
    const shown = lane.on ? lane.trades.filter((name) => on.includes(name)) : lane.trades;
    const price = spanOf(shown, prices);
    const old = before ? spanOf(shown, before.prices) : price;
    const all = lane.trades.length, isOne = all === 1;
    if (lane.units > 0) return unitWords(lane, price);
    const name = isOne ? tradeLabel(lane.trades[0]) : lane.on === null ? say("picture.trades", {count: all}) : `${lane.on}/${all}`;
    if (price === null) return [name];
    const shows = old === null || old === price ? price : `${old} \u2192 ${price}`;
    return isOne ? [name, shows] : [say("picture.at", {name, price: shows})];
}

function unitWords({trades, units}, price) {
    const told = price === null ? String(units) : say("picture.units", {count: units, price});
    return trades.length === 1 ? [tradeLabel(trades[0]), told] : [told];
}

/** A lane in a line: its ends, and what stands beside it. */
export function laneLine({seller, buyer, units}, [name, price]) {
    if (units > 0) return [say("picture.ends", {seller, buyer}), name, price].filter((word) => word !== undefined).join(": ");
    return `${say("picture.ends", {seller, buyer})}: ${price === undefined ? name : say("picture.at", {name, price})}`;
}

/** The one price of some trades, or their least and greatest; other words of prices as they are where all are alike. */
export function spanOf(names, prices) {
    const texts = [...new Set(names.map((name) => prices.get(name)).filter((price) => price !== undefined))];
    if (texts.length === 0) return null;
    if (texts.length === 1) return texts[0];
    if (!texts.every((price) => /^-?\d+$/.test(price))) return say("picture.several");
    const sorted = texts.map(BigInt).sort((one, other) => (one < other ? -1 : 1));
    return say("extent.from_to", {low: sorted[0], high: sorted[sorted.length - 1]});
}
