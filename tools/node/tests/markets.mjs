// Small markets that are drawn, with what is signed in them, and all bundles of their firms gone through one by one: what is
// said of contracts is held to that.

/** A market of three sellers of one good each, a middleman, and three buyers of one good each; with what is signed. */
export function drawnMarket(draw, most) {
    const firms = [0, 1, 2].flatMap((k) => [{name: `S${k}`, kind: "laminar"}, {name: `B${k}`, kind: "laminar"}]), trades = [];
    for (const seller of ["S0", "S1", "S2", "M"]) for (const buyer of ["M", "B0", "B1", "B2"]) {
        if (seller !== buyer && draw(3) > 0) trades.push({name: `${seller}-${buyer}`.toLowerCase(), seller, buyer});
    }
    for (const firm of firms) {
        const own = trades.filter(({seller, buyer}) => seller === firm.name || buyer === firm.name).map(({name}) => name), isSeller = firm.name[0] === "S";
        firm.amounts = own.map((name) => [name, isSeller ? -draw(9) : 4 + draw(12)]);
        firm.sets = [{trades: own, from: isSeller ? -1 : 0, values: [0, 0]}];
    }
    const costs = trades.filter(({buyer}) => buyer === "M").map(({name}) => [name, draw(4)]);
    return {version: 1, firms: [...firms, {name: "M", kind: "middleman", costs}], trades, outcome: drawnOutcome(draw, firms, trades, 1 + draw(most))};
}

/** Some contracts between sellers and buyers, at prices that both of each can bear. */
function drawnOutcome(draw, firms, trades, over) {
    const amount = (firm, name) => firms.find((each) => each.name === firm).amounts.find(([trade]) => trade === name)[1];
    const contracts = [], taken = new Set();
    for (const {name, seller, buyer} of trades.filter((trade) => trade.seller !== "M" && trade.buyer !== "M")) {
        const [least, greatest] = [-amount(seller, name) * over, amount(buyer, name) * over];
        if (taken.has(seller) || taken.has(buyer) || least > greatest || draw(2) === 0) continue;
        contracts.push([name, least + draw(greatest - least + 1)]);
        taken.add(seller).add(buyer);
    }
    return {over, contracts};
}

/** What a bundle is worth to a firm; null where it is impossible. */
function worth({firms, trades}, firm, bundle) {
    const {amounts, costs} = firms.find(({name}) => name === firm);
    if (bundle.length === 0) return 0;
    if (amounts) return bundle.length === 1 ? new Map(amounts).get(bundle[0]) : null;
    const [bought, sold] = [trades.filter(({buyer}) => buyer === firm), trades.filter(({seller}) => seller === firm)]
        .map((own) => own.map(({name}) => name).filter((name) => bundle.includes(name)));
    return bought.length === 1 && sold.length === 1 ? -new Map(costs).get(bought[0]) : null;
}

/** All bundles of a firm from some contracts, as `{bundle, utility}`, counted over their denominator. */
export function choices(market, firm, prices, over) {
    const own = market.trades.filter(({name, seller, buyer}) => prices.has(name) && (seller === firm || buyer === firm));
    const bundles = own.reduce((found, trade) => [...found, ...found.map((bundle) => [...bundle, trade])], [[]]);
    return bundles.flatMap((bundle) => {
        const names = bundle.map(({name}) => name), own = worth(market, firm, names);
        const paid = bundle.reduce((sum, {name, seller}) => sum + (seller === firm ? 1 : -1) * prices.get(name), 0);
        return own === null ? [] : [{bundle: names, utility: own * over + paid}];
    });
}

/** What is signed and the new contracts, counted over a denominator of both. */
export function together({outcome}, contracts, over) {
    const counted = (entries, times) => new Map(entries.map(([name, price]) => [name, price * times]));
    return {signed: counted(outcome.contracts, over), all: new Map([...counted(outcome.contracts, over), ...counted(contracts, outcome.over)]), over: over * outcome.over};
}

export const endsOf = ({trades}, name) => trades.filter((trade) => trade.name === name).flatMap(({seller, buyer}) => [seller, buyer]);

/** Whether contracts block what is signed: each of their firms has all of its own in all of its best bundles. */
export function isBlocked(market, contracts, denominator) {
    const {all, over} = together(market, contracts, denominator), names = contracts.map(([name]) => name);
    return [...new Set(names.flatMap((name) => endsOf(market, name)))].every((firm) => {
        const found = choices(market, firm, all, over), most = Math.max(...found.map(({utility}) => utility));
        const own = names.filter((name) => endsOf(market, name).includes(firm));
        return found.every(({bundle, utility}) => utility < most || own.every((name) => bundle.includes(name)));
    });
}

/** The least denominator at which the trades of a chain block, whatever their prices from -1 to 20: all of these are tried. */
export function leastOver(market, names) {
    for (let over = 1; ; over += 1) {
        const each = Array.from({length: 21 * over + 1}, (_, k) => k - over);
        const lists = names.reduce((found, name) => found.flatMap((list) => each.map((price) => [...list, [name, price]])), [[]]);
        if (lists.some((contracts) => isBlocked(market, contracts, over))) return over;
    }
}
