"""Networks of documents, and what Python finds of them by trying all bundles and all sets of trades."""


class Network:
    """A document's network. A set of trades is a number; firm k has the own trades own[k], and worths[k] of its bundles."""

    def __init__(self, document):
        self.names = [trade["name"] for trade in document["trades"]]
        self.ends = {trade["name"]: trade for trade in document["trades"]}
        self.firms = document["firms"]
        self.bought = [self.trades_with(firm, "buyer") for firm in self.firms]
        self.own = [bought | self.trades_with(firm, "seller") for firm, bought in zip(self.firms, self.bought)]
        self.worths = [{x: w for x in parts(own) if (w := self.worth(firm, bought, x)) is not None}
                       for firm, own, bought in zip(self.firms, self.own, self.bought)]
        self.all = (1 << len(self.names)) - 1

    def trades_with(self, firm, end):
        return self.set_of(name for name in self.names if self.ends[name][end] == firm["name"])

    def set_of(self, names):
        return sum(1 << self.names.index(name) for name in names)

    def worth(self, firm, bought, bundle):
        """What the firm gives the bundle, None where it is impossible: the words of docs/FORMAT.md."""
        buys, sells = self.listed(bundle & bought), self.listed(bundle & ~bought)
        if firm["kind"] == "table":
            rows = {self.set_of(names): number for names, number in firm["rows"]}
            return rows.get(bundle, None if bundle else 0)
        if firm["kind"] == "laminar":
            return laminar_worth(firm, buys, sells)
        if firm["kind"] == "dealer":
            return least_cost({(buy, sell): cost for buy, sell, cost in firm.get("pairs", [])}, buys, sells)
        costs, gains = dict(firm.get("costs", [])), dict(firm.get("gains", []))
        if len(buys) == 1 and len(sells) == 1:
            return gains.get(sells[0], 0) - costs.get(buys[0], 0)
        if len(buys) == 1 and not sells and firm.get("keep") is not None:
            return firm["keep"] - costs.get(buys[0], 0)
        return None if bundle else 0

    def listed(self, trades):
        return [name for k, name in enumerate(self.names) if trades >> k & 1]

    def surplus(self, on):
        worths = [worths.get(on & own) for own, worths in zip(self.own, self.worths)]
        return None if None in worths else sum(worths)

    def greatest(self, allowed):
        return max(s for on in parts(allowed) if (s := self.surplus(on)) is not None)

    def verdict(self, on, prices, scale=1, allowed=None):
        """What `check` has to say, by all bundles within the allowed trades; the firm's best bundle is left out."""
        for firm, own, bought, worths in zip(self.firms, self.own, self.bought, self.worths):
            paid = payments(own if allowed is None else own & allowed, bought, [prices.get(name, 0) for name in self.names])
            if on & own not in worths:
                return dict(answer="impossible", firm=firm["name"])
            utility = {x: scale * worth + paid[x] for x, worth in worths.items() if x in paid}
            gain = max(utility.values()) - utility[on & own]
            if gain > 0:
                return dict(answer="better", firm=firm["name"], gain=gain)
        return dict(answer="equilibrium", surplus=self.surplus(on))

    def distances(self, on):
        """The least costs of walks of the exchange graph at the set; the null node is the last one."""
        null, none = len(self.names), float("inf")
        cost = [[none] * (null + 1) for _ in range(null + 1)]
        for own, bought, worths in zip(self.own, self.bought, self.worths):
            mine = on & own
            # a purchase that is off, and a sale that is on, raise the firm
            rise = [k for k in range(null) if own >> k & 1 and (bought ^ on) >> k & 1] + [null]
            fall = [k for k in range(null) if own >> k & 1 and not (bought ^ on) >> k & 1] + [null]
            for u in rise:
                for v in fall:
                    after = worths.get(mine ^ sum(1 << k for k in (u, v) if k != null))
                    if u != v and after is not None:
                        cost[u][v] = min(cost[u][v], worths[mine] - after)
        for m in range(null + 1):
            for u in range(null + 1):
                for v in range(null + 1):
                    cost[u][v] = min(cost[u][v], cost[u][m] + cost[m][v])
        return [[None if c == none else c for c in row] for row in cost]


def parts(whole):
    """All subsets of a set."""
    part = whole
    while True:
        yield part
        if not part:
            return
        part = (part - 1) & whole


def payments(own, bought, prices):
    """What a firm gets for each part of its own trades."""
    paid = {0: 0}
    for k, price in enumerate(prices):
        if own >> k & 1:
            paid.update({x | 1 << k: p + (-price if bought >> k & 1 else price) for x, p in list(paid.items())})
    return paid


def laminar_worth(firm, buys, sells):
    amounts = dict(firm.get("amounts", []))
    total = sum(amounts.get(name, 0) for name in buys + sells)
    for part in firm.get("sets", []):
        at = sum(name in part["trades"] for name in buys) - sum(name in part["trades"] for name in sells) - part["from"]
        if not 0 <= at < len(part["values"]):
            return None
        total += part["values"][at]
    return total


def least_cost(pairs, buys, sells):
    """Minus the least cost of pairs that match purchases with sales."""
    if not buys:
        return None if sells else 0
    found = [rest - pairs[buys[0], sell] for sell in sells if (buys[0], sell) in pairs
             and (rest := least_cost(pairs, buys[1:], [s for s in sells if s != sell])) is not None]
    return max(found, default=None)


def first_triple(worths, bought, own):
    """The first failing triple of a firm in the order of the test, by sets of its trades; None where none fails."""
    bits = [1 << k for k in range(own.bit_length()) if own >> k & 1]

    def net(x):
        return (x & bought).bit_count() - (x & ~bought).bit_count()

    def enough(x, y, at):
        return x ^ at in worths and y ^ at in worths and worths[x ^ at] + worths[y ^ at] >= worths[x] + worths[y]

    for x in sorted(worths, reverse=True):
        for y in sorted(worths):
            up = (x & ~y & bought) | (y & ~x & ~bought)
            down = [j for j in bits if j & (x ^ y) & ~up]
            for i in bits:
                if i & up and not any(enough(x, y, i | j) for j in down) and not (net(x) > net(y) and enough(x, y, i)):
                    return x, y, i
            if net(x) < net(y) and not any(enough(x, y, j) for j in down):
                return x, y, 0
    return None


def takes_all(network, firm, contracts, scale):
    """Whether each choice of a firm from contracts (trade, price, is_offer) has all offers; None where they are too many."""
    own, bought, worths = network.own[firm], network.bought[firm], network.worths[firm]
    mine = [(1 << k, price if not bought >> k & 1 else -price, is_offer) for k, price, is_offer in contracts if own >> k & 1]
    if len(mine) > 12:
        return None
    choices = [(0, 0, 0)]  # bundle, what is paid, how many offers
    for bit, price, is_offer in mine:
        choices += [(x | bit, paid + price, offers + is_offer) for x, paid, offers in choices if not x & bit]
    values = [(scale * worths[x] + paid, offers) for x, paid, offers in choices if x in worths]
    most = max(value for value, _ in values)
    return all(offers == sum(o for _, _, o in mine) for value, offers in values if value == most)
