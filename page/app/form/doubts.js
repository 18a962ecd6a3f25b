// What the form doubts of a market, each with a button that mends it.
import {doubtsOf} from "../../read/doubts.js";
import {listed} from "../../say/words.js";
import {say} from "../../words/say.js";
import {firmRemoved, itemsAdded, objectsIn, tradesRemoved} from "../document/building.js";
import {asTemplate} from "../document/kinds.js";
import {button} from "./parts.js";

/** How many doubts are shown at once. */
const MOST = 5;

const known = new WeakMap();

/** The group of the form that has them; none where nothing is doubted. */
export function doubtsGroup(network) {
    if (!known.has(network)) known.set(network, together(doubtsOf(network)));
    const doubts = known.get(network), lines = doubts.slice(0, MOST).map((doubt, k) => lineOf(network, doubt, k)), left = doubts.length - lines.length;
    const hint = left > 0 ? say("doubt.more", {count: left}) : "";
    return lines.length === 0 ? [] : [{key: "doubts", title: say("doubt.title"), hint, lines}];
}

/** The doubts with all trades that nobody would want as one, where they are several: in many markets some are that. */
function together(doubts) {
    const unwanted = doubts.filter(({kind}) => kind === "unwanted"), others = doubts.filter(({kind}) => kind !== "unwanted");
    return unwanted.length < 2 ? doubts : [...others, {kind: "all_unwanted", trades: unwanted.map(({trade}) => trade)}];
}

function lineOf(network, doubt, k) {
    const {says, mends, change} = LINES[doubt.kind](network, doubt);
    return {key: `doubt ${k}`, says, controls: [button(`mend ${k}`, mends, `${mends}: ${says}`, change)]};
}

const LINES = {
    idle: (network, {firm}) => ({says: say("doubt.idle", {firm}), mends: say("doubt.remove_firm"), change: () => firmRemoved(network, firmAt(network, firm))}),
    sells_often: (network, {firm, count, template}) => ({says: say("doubt.sells_often", {firm, count}), mends: say("doubt.sell_one"),
        change: () => asTemplate(network, firmAt(network, firm), template)}),
    one_sided: (network, {firm, template}) => {
        const [says, mends] = template === "seller-one" ? ["doubt.buys_none", "doubt.sell_one"] : ["doubt.sells_none", "doubt.buy_one"];
        return {says: say(says, {firm}), mends: say(mends), change: () => asTemplate(network, firmAt(network, firm), template)};
    },
    apart: (network, {firm, template}) => ({says: say("doubt.apart", {firm}), mends: say("doubt.middleman"),
        change: () => asTemplate(network, firmAt(network, firm), template)}),
    never: (network, {firm, trade, isPaired}) => ({says: say("doubt.never", {firm, trade}), mends: say(isPaired ? "doubt.pair" : "doubt.remove_trade"),
        change: () => (isPaired ? paired(network, firm, trade) : tradesRemoved(network, [tradeAt(network, trade)]))}),
    unwanted: (network, {trade, seller, buyer, least, most}) => ({says: say("doubt.unwanted", {trade, seller, buyer, least, most}), mends: say("doubt.remove_trade"),
        change: () => tradesRemoved(network, [tradeAt(network, trade)])}),
    all_unwanted: (network, {trades}) => ({
        says: say("doubt.all_unwanted", {count: trades.length, trades: listed(trades.slice(0, MOST))}), mends: say("doubt.remove_trades"),
        change: () => tradesRemoved(network, trades.map((trade) => tradeAt(network, trade)))}),
};

function firmAt(network, name) {
    return objectsIn(network, "firms").find((each) => each.name === name).node;
}

function tradeAt(network, name) {
    return objectsIn(network, "trades").find((each) => each.name === name).node;
}

/** The edits that pair a trade of a dealer with all of the other side, at no cost. */
function paired(network, firm, trade) {
    const own = network.ownTrades(firm), {isSale} = own.find(({name}) => name === trade);
    const others = own.filter((each) => each.isSale !== isSale).map(({name}) => name);
    return itemsAdded(firmAt(network, firm), "pairs", others.map((other) => JSON.stringify([...(isSale ? [other, trade] : [trade, other]), 0])));
}
