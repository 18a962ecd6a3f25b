"""The reading of documents in which a trade is one unit, by the words of docs/FORMAT.md alone. Nothing here looks at the program."""
import functools
import json
import re

from fuzz_lib.limits import CLAIMED, LIMITS, NUMERATOR, OVER, OWN_OF_TABLE, PARTS, PLANNED, PRICE, SETS

NAMES = ("NotJson TooLong Shape BadName SameName UnknownFirm SelfTrade UnknownTrade Limit AmountRange NotOwnTrade "
         "SameBundle NoEmpty NotLaminar NotConcave ExchangeFails SameTrade PriceMissing BadOver SamePair").split()
(NOT_JSON, TOO_LONG, SHAPE, BAD_NAME, SAME_NAME, UNKNOWN_FIRM, SELF_TRADE, UNKNOWN_TRADE, LIMIT, AMOUNT_RANGE, NOT_OWN_TRADE,
 SAME_BUNDLE, NO_EMPTY, NOT_LAMINAR, NOT_CONCAVE, EXCHANGE_FAILS, SAME_TRADE, PRICE_MISSING, BAD_OVER, SAME_PAIR) = range(1, 21)
MEMBERS = dict(table="rows", laminar="amounts sets", middleman="costs gains keep", dealer="pairs")
CLAIM_MEMBERS = dict(  # in the order in which they are read
    equilibrium="surplus", better="firm bundle gain", impossible="firm", prices="prices", cycle="cost nodes",
    solved="on prices surplus", drops="firm gain keeps over", completes="over prices", blocks="contracts over", accepted="",
    exchange_fails="firm at x y", none="over plan")
RAW_CLAIMS = ("accepted", "exchange_fails", "none")
STRING = re.compile(r'"(?:[^"\\]|\\.)*"')
NAME = re.compile("[A-Za-z0-9_.-]{1,32}")


# A place is the way from the top: TOP, or the place of what holds it with a key or an index there. (A list for each value
# that is read would take a third of the time; most are never shown.)
TOP = ()


def way(place):
    """A place as an answer shows it."""
    return [*way(place[0]), place[1]] if place else []


class Fault(Exception):
    """A fault, its place, and what it shows."""

    def __init__(self, number, place, **shown):
        self.answer = dict(answer="fault", fault=number, name=NAMES[number - 1], place=way(place), **shown)


# ---- JSON

def float_of(text):
    number = float(text)
    if number in (float("inf"), float("-inf")):
        raise ValueError("a number is too large for a float")
    return number


def int_of(text):
    """A whole number that fits 64 bits, with a sign or without; any other is a float, and so is -0."""
    if text == "-0" or len(text) > 20 or not -2 ** 63 <= int(text) < 2 ** 64:
        return float_of(text)
    return int(text)


def no_constant(text):
    raise ValueError(text)


def depth_of(text):
    depth = most = 0
    for sign in re.findall(r"[][{}]", STRING.sub("", text)):
        depth += 1 if sign in "[{" else -1
        most = max(most, depth)
    return most


def value_of(text):
    if len(text) > 4_194_304:
        raise Fault(TOO_LONG, TOP)
    try:
        text = text.decode()
        value = json.loads(text, parse_int=int_of, parse_float=float_of, parse_constant=no_constant)
        if "\\u" in text and any(re.search("[\ud800-\udfff]", json.loads(string)) for string in STRING.findall(text)):
            raise ValueError("half of a pair of surrogates")
        if text.count("[") + text.count("{") > 127 and depth_of(text) > 127:
            raise ValueError("too deep")
    except (ValueError, RecursionError):
        raise Fault(NOT_JSON, TOP) from None
    return value


# ---- values

def want(so, number, place):
    if not so:
        raise Fault(number, place)


def is_whole(value):
    return type(value) is int and -2 ** 63 <= value < 2 ** 63


@functools.cache
def words_of(members):
    return frozenset(members.split())


class Reader:
    """The reading of a document for a command, step by step."""
    VERSIONS, TRADE, PRICE = LIMITS, "name seller buyer note", PRICE

    def __init__(self, command, top, triple_of):
        self.command, self.top, self.triple_of = command, top, triple_of
        self.firms, self.trades = {}, {}  # by their names: what each firm buys and sells; trades

    # -- parts that stand in several places

    def object(self, value, place, members):
        want(isinstance(value, dict) and value.keys() <= words_of(members), SHAPE, place)

    def member(self, value, place, name):
        want(name in value, SHAPE, (place, name))
        return value[name], (place, name)

    def list(self, value, place, most=None, length=None):
        want(isinstance(value, list) and length in (None, len(value)), SHAPE, place)
        want(most is None or len(value) <= most, LIMIT, place)
        return [(item, (place, k)) for k, item in enumerate(value)]

    def name(self, value, place, taken):
        name, place = self.member(value, place, "name")
        want(isinstance(name, str), SHAPE, place)
        want(NAME.fullmatch(name), BAD_NAME, place)
        want(name not in taken, SAME_NAME, place)
        return name

    def number(self, value, place, size):
        want(is_whole(value), SHAPE, place)
        want(abs(value) <= size, AMOUNT_RANGE, place)

    def known_firm(self, value, place):
        want(isinstance(value, str), SHAPE, place)
        want(value in self.firms, UNKNOWN_FIRM, place)

    def reference(self, value, place, own=None, earlier=()):
        want(isinstance(value, str), SHAPE, place)
        want(value in self.trades, UNKNOWN_TRADE, place)
        want(own is None or value in own, NOT_OWN_TRADE, place)
        want(value not in earlier, SAME_TRADE, place)
        return value

    def references(self, value, place, own=None):
        named = {}
        for item, at in self.list(value, place):
            named[self.reference(item, at, own, named)] = None
        return [*named]

    def entries(self, value, place, size, own=None):
        named = {}
        for item, at in self.list(value, place):
            (trade, trade_at), (number, number_at) = self.list(item, at, length=2)
            named[self.reference(trade, trade_at, own, named)] = None
            self.number(number, number_at, size)
        return [*named]

    def all_prices(self, value, place, size):
        priced = {*self.entries(value, place, size)}
        for trade in self.trades:
            want(trade in priced, PRICE_MISSING, (place, trade))

    def over(self, value, place, most):
        want(is_whole(value), SHAPE, place)
        want(1 <= value <= most, BAD_OVER, place)

    # -- the steps

    def read(self):
        self.head()
        self.ends()
        raw = self.command in ("test", "firms") or self.command == "replay" and self.is_raw_claim()
        for k, firm in enumerate(self.top["firms"]):
            self.firm(firm, ((TOP, "firms"), k), raw)
        if self.command in ("check", "firms", "support"):
            self.arrangement(self.command != "support")
        elif self.command == "judge":
            self.outcome()
        elif self.command == "session":
            self.edits()
        elif self.command == "replay":
            self.claim()

    def is_raw_claim(self):
        claim = self.top.get("claim")
        return isinstance(claim, dict) and claim.get("answer") in [*RAW_CLAIMS] and isinstance(claim["answer"], str)

    def head(self):
        self.object(self.top, TOP, "version firms trades arrangement outcome claim edits note")
        version, place = self.member(self.top, TOP, "version")
        want(is_whole(version) and version in self.VERSIONS, SHAPE, place)
        self.limits = self.VERSIONS[version]
        for firm, at in self.list(*self.member(self.top, TOP, "firms"), self.limits.firms):
            want(isinstance(firm, dict), SHAPE, at)
            self.firms[self.name(firm, at, self.firms)] = [], []

    def ends(self):
        for trade, at in self.list(*self.member(self.top, TOP, "trades"), self.limits.trades):
            self.object(trade, at, self.TRADE)
            name = self.name(trade, at, self.trades)
            for end in ("seller", "buyer"):
                firm, place = self.member(trade, at, end)
                self.known_firm(firm, place)
            want(trade["seller"] != trade["buyer"], SELF_TRADE, at)
            self.units(trade, at)
            self.trades[name] = trade
            for firm, own in ((trade["buyer"], 0), (trade["seller"], 1)):
                self.firms[firm][own].append(name)

    def units(self, trade, place):
        """How many units a trade has, of which nothing is said here."""

    def firm(self, firm, place, raw):
        kind, at = self.member(firm, place, "kind")
        want(isinstance(kind, str) and kind in MEMBERS, SHAPE, at)
        self.object(firm, place, "name kind note " + MEMBERS[kind])
        buys, sells = self.firms[firm["name"]]
        want(len(buys) + len(sells) <= (OWN_OF_TABLE if kind == "table" else self.limits.own), LIMIT, place)
        getattr(self, kind)(firm, place, buys, sells)
        if kind == "table" and not raw:
            own = [name for name in self.trades if name in buys or name in sells]  # in the order of the document
            shown = self.triple_of(firm, way(place), own, buys)
            if shown:
                raise Fault(EXCHANGE_FAILS, place, **shown)

    def table(self, firm, place, buys, sells):
        rows, rows_at = self.member(firm, place, "rows")
        bundles = set()
        for row, at in self.list(rows, rows_at):
            (trades, trades_at), (number, number_at) = self.list(row, at, length=2)
            bundle = frozenset(self.references(trades, trades_at, buys + sells))
            self.number(number, number_at, self.limits.amount)
            want(bundle not in bundles, SAME_BUNDLE, at)
            bundles.add(bundle)
        count = len(buys) + len(sells)
        want(count <= 10 or len(bundles - {frozenset()}) == 2 ** count - 1, LIMIT, rows_at)

    def laminar(self, firm, place, buys, sells):
        own = buys + sells
        self.entries(firm.get("amounts", []), (place, "amounts"), self.limits.amount, own)
        sets = []
        for part, at in self.list(firm.get("sets", []), (place, "sets"), SETS):
            self.object(part, at, "trades from values")
            sets.append((set(self.references(*self.member(part, at, "trades"), own)), part, at))
            least, least_at = self.member(part, at, "from")
            want(is_whole(least), SHAPE, least_at)
            want(abs(least) <= self.limits.farthest, LIMIT, least_at)
            for number, number_at in self.list(*self.member(part, at, "values"), self.limits.values):
                self.number(number, number_at, self.limits.amount)
        for k, (trades, part, at) in enumerate(sets):
            values = part["values"]
            want(0 <= -part["from"] < len(values), NO_EMPTY, at)
            for i in range(1, len(values) - 1):
                want(2 * values[i] >= values[i - 1] + values[i + 1], NOT_CONCAVE, ((at, "values"), i))
            for earlier, _, _ in sets[:k]:
                want(not trades & earlier or trades <= earlier or earlier <= trades, NOT_LAMINAR, at)

    def middleman(self, firm, place, buys, sells):
        self.entries(firm.get("costs", []), (place, "costs"), self.limits.amount, buys)
        self.entries(firm.get("gains", []), (place, "gains"), self.limits.amount, sells)
        if firm.get("keep") is not None:
            self.number(firm["keep"], (place, "keep"), self.limits.amount)

    def dealer(self, firm, place, buys, sells):
        listed = []
        for pair, at in self.list(firm.get("pairs", []), (place, "pairs")):
            (buy, buy_at), (sell, sell_at), (cost, cost_at) = self.list(pair, at, length=3)
            self.reference(buy, buy_at, buys)
            self.reference(sell, sell_at, sells)
            self.number(cost, cost_at, self.limits.amount)
            want((buy, sell) not in listed, SAME_PAIR, at)
            listed.append((buy, sell))

    def arrangement(self, with_prices):
        value, place = self.member(self.top, TOP, "arrangement")
        self.object(value, place, "on prices")
        self.on(*self.member(value, place, "on"))
        if with_prices:
            self.all_prices(*self.member(value, place, "prices"), self.PRICE)

    def on(self, value, place):
        self.references(value, place)

    def outcome(self):
        value, place = self.member(self.top, TOP, "outcome")
        self.object(value, place, "over contracts")
        self.over(*self.member(value, place, "over"), OVER)
        self.entries(*self.member(value, place, "contracts"), NUMERATOR)

    def edits(self):
        for edit, at in self.list(*self.member(self.top, TOP, "edits"), self.limits.edits):
            (word, word_at), (name, name_at) = self.list(edit, at, length=2)
            want(isinstance(word, str) and word in ("admit", "bar", "leave", "join"), SHAPE, word_at)
            if word in ("leave", "join"):
                self.known_firm(name, name_at)
            elif name != "*":
                self.reference(name, name_at)

    def claim(self):
        claim, place = self.member(self.top, TOP, "claim")
        want(isinstance(claim, dict), SHAPE, place)
        answer, at = self.member(claim, place, "answer")
        want(isinstance(answer, str) and answer in CLAIM_MEMBERS, SHAPE, at)
        if answer in ("equilibrium", "better", "impossible", "prices", "cycle"):
            self.arrangement(answer in ("equilibrium", "better"))
        elif answer in ("drops", "completes", "blocks"):
            self.outcome()
        elif answer == "none":
            want(len(self.trades) <= PLANNED, LIMIT, place)
        self.object(claim, place, "answer " + CLAIM_MEMBERS[answer])
        for name in CLAIM_MEMBERS[answer].split():
            self.claimed(claim, answer, name, *self.member(claim, place, name))

    def claimed(self, claim, answer, name, value, place):
        if name == "firm":
            self.known_firm(value, place)
        elif name in ("bundle", "keeps", "x", "y"):
            self.references(value, place, sum(self.firms[claim["firm"]], []))
        elif name == "at":
            if value is not None:
                self.reference(value, place, sum(self.firms[claim["firm"]], []))
        elif name == "on":
            self.references(value, place)
        elif name == "prices":
            self.all_prices(value, place, CLAIMED)
        elif name == "contracts":
            self.entries(value, place, CLAIMED)
        elif name == "nodes":
            nodes = self.list(value, place)
            want(2 <= len(nodes) <= self.limits.nodes, LIMIT, place)
            for node, at in nodes:
                if node is not None:
                    self.reference(node, at)
        elif name == "plan":
            for part, at in self.list(value, place, PARTS):
                self.part(part, at)
        elif name == "over":
            self.over(value, place, self.limits.claimed_over)
        elif value is not None or (answer, name) != ("drops", "gain"):
            self.number(value, place, CLAIMED)

    def part(self, part, place):
        (firm, firm_at), (trades, trades_at), (weight, weight_at) = self.list(part, place, length=3)
        self.known_firm(firm, firm_at)
        self.references(trades, trades_at, sum(self.firms[firm], []))
        want(is_whole(weight), SHAPE, weight_at)
        want(1 <= weight <= self.limits.claimed_over, AMOUNT_RANGE, weight_at)
