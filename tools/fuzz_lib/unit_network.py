"""Networks of documents in which trades have units, and what Python finds of them: firms' best counts by sums of concave
functions, and for small ones by trying all counts."""
import copy
import itertools
import math
from dataclasses import dataclass


@dataclass(frozen=True)
class Concave:
    """A function of whole numbers from `low` on: its value there, and steps (so many, each adds), which never rise."""
    low: int
    value: int
    steps: tuple = ()

    @property
    def high(self):
        return self.low + sum(count for count, _ in self.steps)

    def at(self, n):
        """The value at a number, None where there is none."""
        if not self.low <= n <= self.high:
            return None
        value, left = self.value, n - self.low
        for count, each in self.steps:
            value, left = value + min(count, left) * each, left - min(count, left)
        return value

    def within(self, low, high):
        """The same function on these numbers alone, of which it has all."""
        left, most, steps = low - self.low, high - low, []
        for count, each in self.steps:
            skipped = min(count, left)
            taken = min(count - skipped, most)
            left, most = left - skipped, most - taken
            if taken:
                steps.append((taken, each))
        return Concave(low, self.at(low), tuple(steps))

    def most(self):
        """The greatest value."""
        return self.value + sum(count * each for count, each in self.steps if each > 0)


def together(functions):
    """What several functions have at most at numbers of a sum."""
    steps = sorted((step for function in functions for step in function.steps), key=lambda step: -step[1])
    return Concave(sum(f.low for f in functions), sum(f.value for f in functions), tuple(steps))


def both(one, other):
    """The sum of two functions where both have a value. (Each has one at 0.)"""
    low, high = max(one.low, other.low), min(one.high, other.high)
    one, other, steps = one.within(low, high), other.within(low, high), []
    left, right = [*one.steps], [*other.steps]
    while left:
        (count, each), (other_count, other_each) = left.pop(0), right.pop(0)
        taken = min(count, other_count)
        steps.append((taken, each + other_each))
        left = [(count - taken, each)] * (count > taken) + left
        right = [(other_count - taken, other_each)] * (other_count > taken) + right
    return Concave(low, one.value + other.value, tuple(steps))


def function_of(part):
    """What a set of a document adds, by its net count."""
    if "from" in part:
        values = part["values"]
        return Concave(part["from"], values[0], tuple((1, after - before) for before, after in zip(values, values[1:])))
    sold = [(count, -each) for count, each in reversed(part.get("sold", []))]
    least = sum(count for count, _ in sold)
    bought = [tuple(step) for step in part.get("bought", [])]
    return Concave(-least, -sum(count * each for count, each in sold), (*sold, *bought))


class UnitFirm:
    """A firm of a document: its own trades by name, True where it buys, and the functions of its sets, the smallest first."""

    def __init__(self, firm, document):
        self.name, self.amounts = firm["name"], dict(firm.get("amounts", []))
        self.buys = {trade["name"]: trade["buyer"] == self.name for trade in document["trades"]
                     if self.name in (trade["seller"], trade["buyer"])}
        sets = [({*part["trades"]}, function_of(part)) for part in firm.get("sets", [])]
        self.sets = sorted(sets, key=lambda each: len(each[0]))

    def net(self, counts, trades):
        return sum(counts[name] if self.buys[name] else -counts[name] for name in trades)

    def worth(self, counts):
        """What counts are worth, None where they are impossible."""
        added = [function.at(self.net(counts, trades)) for trades, function in self.sets]
        return None if None in added else sum(added) + sum(self.amounts.get(name, 0) * counts[name] for name in self.buys)

    def paid(self, counts, prices):
        """What the firm gets for its sales, less what it pays."""
        return sum(prices[name] * counts[name] * (-1 if is_bought else 1) for name, is_bought in self.buys.items())

    def utility(self, counts, prices):
        """The worth and what is paid, None where the counts are impossible."""
        worth = self.worth(counts)
        return None if worth is None else worth + self.paid(counts, prices)

    def best(self, units, prices):
        """The greatest utility of all counts within the units."""
        def alone(name):
            """What units of a trade bring by themselves, by the net count."""
            amount, price, count = self.amounts.get(name, 0), prices[name], units[name]
            return Concave(0, 0, ((count, amount - price),)) if self.buys[name] else \
                Concave(-count, count * (amount + price), ((count, -(amount + price)),))

        open_parts = [({name}, alone(name)) for name in self.buys]  # what no set that was looked at contains
        for trades, function in self.sets:
            inner = [part for names, part in open_parts if names <= trades]
            open_parts = [(names, part) for names, part in open_parts if not names <= trades]
            open_parts.append((trades or {None}, both(function, together(inner))))
        return together([part for _, part in open_parts]).most()


class UnitNetwork:
    """A document's network."""

    def __init__(self, document):
        self.units = {trade["name"]: trade.get("units", 1) for trade in document["trades"]}
        self.ends = {trade["name"]: (trade["seller"], trade["buyer"]) for trade in document["trades"]}
        self.firms = [UnitFirm(firm, document) for firm in document["firms"]]

    def with_units(self, units):
        """The same firms, between which trades have so many units, by name."""
        other = copy.copy(self)
        other.units = units
        return other

    def counts(self, entries):
        """A count for each trade, 0 of one that isn't listed."""
        return dict.fromkeys(self.units, 0) | dict(entries)

    def firm(self, name):
        return next(firm for firm in self.firms if firm.name == name)

    def surplus(self, counts):
        worths = [firm.worth(counts) for firm in self.firms]
        return None if None in worths else sum(worths)

    def verdict(self, counts, prices):
        """What `check` says of counts and prices, but for a best bundle."""
        for firm in self.firms:
            utility = firm.utility(counts, prices)
            if utility is None:
                return {"answer": "impossible", "firm": firm.name}
            gain = firm.best(self.units, prices) - utility
            if gain:
                return {"answer": "better", "firm": firm.name, "gain": gain}
        return {"answer": "equilibrium", "surplus": self.surplus(counts)}

    def why_not(self, counts, prices):
        """Why counts and prices are no equilibrium; None where they are one."""
        for name, count in counts.items():
            if not 0 <= count <= self.units[name]:
                return f"{count} units of {name}"
        said = self.verdict(counts, prices)
        return {"equilibrium": None, "impossible": f"{said.get('firm')} can't have its counts",
                "better": f"{said.get('firm')} would gain {said.get('gain')}"}[said["answer"]]

    def added(self, counts, nodes):
        """What the firms between each two nodes of a walk add to the surplus, each by its own steps there; None where one can't, and
        where the nodes are no walk."""
        changes = {firm.name: {} for firm in self.firms}
        for before, after in zip(nodes, nodes[1:]):
            faced = self.faced(before, after)
            if len({firm for firm, _ in faced}) != 1:
                return None
            for firm, (name, by) in faced:
                changes[firm][name] = by
        total = 0
        for firm in self.firms:
            moved = {name: counts[name] + changes[firm.name].get(name, 0) for name in firm.buys}
            worths = firm.worth(moved), firm.worth(counts)
            if None in worths or not all(0 <= count <= self.units[name] for name, count in moved.items()):
                return None
            total += worths[0] - worths[1]
        return total

    def faced(self, before, after):
        """The firms that two nodes in a row meet, with the steps there: one more goes from the seller to the buyer, one fewer back."""
        left = [(self.ends[before[0]][before[1] > 0], before)] if before else []
        return left + ([(self.ends[after[0]][after[1] < 0], after)] if after else [])

    def size(self):
        """How many counts there are."""
        return math.prod(count + 1 for count in self.units.values())

    def all_counts(self):
        names = [*self.units]
        for counts in itertools.product(*(range(count + 1) for count in self.units.values())):
            yield dict(zip(names, counts))

    def greatest(self):
        """The greatest surplus, by all counts."""
        return max(surplus for counts in self.all_counts() if (surplus := self.surplus(counts)) is not None)


def usable_units(document, edits):
    """How many units of each trade may go after some edits, one after the other."""
    trades = {trade["name"]: trade for trade in document["trades"]}
    admitted, away = dict.fromkeys(trades, 0), set()
    for word, name, *given in edits:
        if word in ("leave", "join"):
            (away.add if word == "leave" else away.discard)(name)
        for trade in [] if word in ("leave", "join") else [*trades] if name == "*" else [name]:
            admitted[trade] = 0 if word == "bar" else given[0] if given else trades[trade].get("units", 1)
    return {name: 0 if away & {trade["seller"], trade["buyer"]} else admitted[name] for name, trade in trades.items()}


def units_as_trades(document):
    """The unit network of a document as one of version 3: a trade for each unit, in the same sets."""
    twins = {trade["name"]: [f"{trade['name']}.{k}" for k in range(trade.get("units", 1))] for trade in document["trades"]}
    firms = []
    for firm in document["firms"]:
        known, sets = UnitFirm(firm, document), []
        for part in firm.get("sets", []):
            function = function_of(part)
            room = [sum(len(twins[name]) for name in part["trades"] if known.buys[name] is side) for side in (False, True)]
            low, high = max(function.low, -room[0]), min(function.high, room[1])
            sets.append({"trades": [twin for name in part["trades"] for twin in twins[name]], "from": low,
                         "values": [function.at(n) for n in range(low, high + 1)]})
        amounts = [[twin, number] for name, number in firm.get("amounts", []) for twin in twins[name]]
        firms.append({"name": firm["name"], "kind": "laminar", "amounts": amounts, "sets": sets})
    trades = [{"name": twin, "seller": trade["seller"], "buyer": trade["buyer"]}
              for trade in document["trades"] for twin in twins[trade["name"]]]
    return {"version": 3, "firms": firms, "trades": trades}
