// The changes that an arrow of the exchange graph stands for: one firm raises what the arrow comes from, and lowers where it goes.

/**
 * The change along an arrow between two nodes, each a trade or null: its firm, the trades that it toggles, and its acts, as
 * `{does, trade, partner}`, where `does` is one of "keep back", "buy", "give up" and "sell". Where trades have units a node is a
 * step, a trade with 1 or -1; `does` is one of "buy more", "buy fewer", "sell more" and "sell fewer" then, and each act has its `by`.
 */
function changeOf(network, on, from, to) {
    const [leaves, comes] = [from, to].some(Array.isArray) ? [leave, come] : [rise, fall];
    const acts = [from === null ? null : leaves(network, from, on), to === null ? null : comes(network, to, on)].filter((act) => act !== null);
    return {firm: acts[0].firm, toggled: acts.map(({trade}) => trade), acts};
}

/** One more unit goes on to the buyer of a trade, and one fewer back to its seller. */
function leave(network, step) {
    return step[1] > 0n ? bought(network, step) : sold(network, step);
}

/** One more unit comes from the seller of a trade, and one fewer from its buyer. */
function come(network, step) {
    return step[1] > 0n ? sold(network, step) : bought(network, step);
}

function bought(network, [trade, by]) {
    const {seller, buyer} = network.trade(trade);
    return {firm: buyer, does: by > 0n ? "buy more" : "buy fewer", trade, partner: seller, by};
}

function sold(network, [trade, by]) {
    const {seller, buyer} = network.trade(trade);
    return {firm: seller, does: by > 0n ? "sell more" : "sell fewer", trade, partner: buyer, by};
}

/** The changes along a path, or around a cycle where its first node stands at its end too. */
export function changesAlong(network, on, nodes) {
    return nodes.slice(1).map((to, k) => changeOf(network, on, nodes[k], to));
}

function rise(network, trade, on) {
    const {seller, buyer} = network.trade(trade);
    return on.includes(trade) ? {firm: seller, does: "keep back", trade, partner: buyer} : {firm: buyer, does: "buy", trade, partner: seller};
}

function fall(network, trade, on) {
    const {seller, buyer} = network.trade(trade);
    return on.includes(trade) ? {firm: buyer, does: "give up", trade, partner: seller} : {firm: seller, does: "sell", trade, partner: buyer};
}
