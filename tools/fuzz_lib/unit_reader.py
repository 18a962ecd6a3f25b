"""The reading of documents in which trades have units, by the words of docs/FORMAT.md alone."""
from fuzz_lib.reader import (AMOUNT_RANGE, LIMIT, NO_EMPTY, NOT_CONCAVE, NOT_LAMINAR, SHAPE, TOP, Reader, is_whole, want)
from fuzz_lib.limits import UNIT_LIMITS, UNIT_VERSION

COUNTING = ("check", "firms", "test", "support", "solve", "range", "session")  # the commands that answer such documents; to all others the version is a fault


def has_units(top):
    """Whether a value's version is that of documents with units."""
    return isinstance(top, dict) and is_whole(top.get("version")) and top["version"] == UNIT_VERSION


class UnitReader(Reader):
    """The reading of a document with units, step by step."""
    VERSIONS, TRADE, PRICE = {UNIT_VERSION: UNIT_LIMITS}, Reader.TRADE + " units", UNIT_LIMITS.price

    def __init__(self, command, top, triple_of):
        super().__init__(command, top, triple_of)
        self.sets = 0  # of the firms that are read

    def count(self, value, place):
        want(is_whole(value), SHAPE, place)
        want(1 <= value <= self.limits.units, AMOUNT_RANGE, place)

    def units(self, trade, place):
        if "units" in trade:
            self.count(trade["units"], (place, "units"))

    def on(self, value, place):
        """How many units of trades go, which may be none."""
        named = {}
        for entry, at in self.list(value, place):
            (trade, trade_at), (units, units_at) = self.list(entry, at, length=2)
            named[self.reference(trade, trade_at, earlier=named)] = None
            want(is_whole(units), SHAPE, units_at)
            want(0 <= units <= self.trades[trade].get("units", 1), AMOUNT_RANGE, units_at)

    def edits(self):
        """Edits, each of a trade, of all trades or of a firm; so many units are given to a trade alone that is admitted."""
        edits = self.list(*self.member(self.top, TOP, "edits"), self.limits.edits)
        want(len(edits) * len(self.trades) <= self.limits.edited, LIMIT, (TOP, "edits"))
        for edit, at in edits:
            parts = self.list(edit, at)
            want(len(parts) in (2, 3), SHAPE, at)
            (word, word_at), (name, name_at), *given = parts
            want(isinstance(word, str) and word in ("admit", "bar", "leave", "join"), SHAPE, word_at)
            want(not given or word == "admit", SHAPE, at)
            if word in ("leave", "join"):
                self.known_firm(name, name_at)
            elif given or name != "*":
                self.reference(name, name_at)
            for units, units_at in given:
                want(is_whole(units), SHAPE, units_at)
                want(0 <= units <= self.trades[name].get("units", 1), AMOUNT_RANGE, units_at)

    def ends(self):
        super().ends()
        units = sum(trade.get("units", 1) for trade in self.trades.values())
        want(units <= self.limits.units, LIMIT, (TOP, "trades"))

    def firm(self, firm, place, raw):
        kind, at = self.member(firm, place, "kind")
        want(kind == "laminar", SHAPE, at)
        self.object(firm, place, "name kind note amounts sets")
        own = {*sum(self.firms[firm["name"]], [])}
        self.entries(firm.get("amounts", []), (place, "amounts"), self.limits.amount, own)
        items = self.list(firm.get("sets", []), (place, "sets"), self.limits.sets - self.sets)
        sets = [self.set(part, at, own) for part, at in items]
        self.sets += len(sets)
        earlier = []  # of the sets before, those that have a trade
        for trades, part, at in sets:
            self.concave(part, at)
            want(all(not trades & each or trades <= each or each <= trades for each in earlier), NOT_LAMINAR, at)
            want(all(sum(trade in each for each in earlier) < self.limits.holding for trade in trades), LIMIT, at)
            if trades:
                earlier.append(trades)

    def set(self, part, place, own):
        """A set as it is read, before any of the firm is tested."""
        self.object(part, place, "trades bought sold from values")
        want(not part.keys() & ({"bought", "sold"} if "from" in part else {"values"}), SHAPE, place)
        trades = set(self.references(*self.member(part, place, "trades"), own))
        if "from" in part:
            want(is_whole(part["from"]), SHAPE, (place, "from"))
            want(abs(part["from"]) <= self.limits.farthest, LIMIT, (place, "from"))
            for number, at in self.list(*self.member(part, place, "values"), self.limits.values):
                self.number(number, at, self.limits.amount)
        for side in ("bought", "sold"):
            for step, at in self.list(part.get(side, []), (place, side), self.limits.steps):
                (units, units_at), (each, each_at) = self.list(step, at, length=2)
                self.count(units, units_at)
                self.number(each, each_at, self.limits.amount)
        return trades, part, place

    def concave(self, part, place):
        """No further unit adds more than the one before it."""
        if "from" in part:
            values = part["values"]
            want(0 <= -part["from"] < len(values), NO_EMPTY, place)
            for i in range(1, len(values) - 1):
                want(2 * values[i] >= values[i - 1] + values[i + 1], NOT_CONCAVE, ((place, "values"), i))
            return
        for side in ("bought", "sold"):
            steps = part.get(side, [])
            for i in range(1, len(steps)):
                want(steps[i][1] <= steps[i - 1][1], NOT_CONCAVE, (((place, side), i), 1))
        firsts = [part[side][0][1] for side in ("bought", "sold") if part.get(side)]
        want(len(firsts) < 2 or sum(firsts) <= 0, NOT_CONCAVE, (((place, "sold"), 0), 1))
