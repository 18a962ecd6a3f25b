"""Answers as objects, as tables, as data frames and as plots. They compute nothing that an answer says."""
from __future__ import annotations

import functools
import json
from dataclasses import dataclass, field, fields
from fractions import Fraction
from typing import Any, ClassVar, Iterable, Mapping, Optional, Sequence, Union

from . import graphs, plots
from .fault_tables import UNIT_VERSION as UNIT_NUMERAL
from .plots import needed

Json = dict[str, Any]
UNIT_VERSION = int(UNIT_NUMERAL)


@dataclass(frozen=True)
class Answer:
    """What all answers have. An answer is true where the verdict is yes (status 0), and false where it is no (6).

    answer: the kind of answer, as docs/ANSWERS.md names it.
    said: the program's answer, a dictionary. Most may be put into a document as its claim (see `replay`).
    asked: the document's bytes as the program got them.
    yes: whether the verdict is yes.
    """
    answer: ClassVar[str] = ""
    columns: ClassVar[tuple[str, ...]] = ()
    nullable: ClassVar[tuple[str, ...]] = ()
    said: Json = field(repr=False, compare=False)
    asked: bytes = field(repr=False, compare=False)
    yes: bool = field(repr=False)

    def __bool__(self) -> bool:
        return self.yes

    @functools.cached_property
    def document(self) -> Json:
        """The document that was asked about. It is a copy: later changes of a dictionary don't show here."""
        document: Json = json.loads(self.asked)
        return document

    def rows(self) -> list[Json]:
        """The answer as a table: a list of dictionaries from columns to values. Here it is one row, of the kind of
        answer and its members, with blanks between the names of a list. Answers with other rows say so."""
        return [_flat({"answer": self.answer, **{name: getattr(self, name) for name in _members(self.answer)}})]

    def frame(self) -> Any:
        """The rows as a pandas.DataFrame, whose index are the trades or firms, where the rows are of these. Columns in
        which a value may be absent are Int64, with pandas.NA where it is. Needs pandas."""
        pandas = needed("pandas", "rows() needs nothing")
        rows = self.rows()
        frame = pandas.DataFrame({name: _column(pandas, [row[name] for row in rows], name in self.nullable)
                                  for name in self.columns or rows[0]})
        return frame.set_index(self.columns[0]) if self.columns[:1] in (("trade",), ("firm",)) else frame

    def to_networkx(self) -> Any:
        """The network as a networkx.MultiDiGraph: a node for each firm, and an edge for each trade, from its seller to its
        buyer, whose key is its name. What the rows say of firms or of trades are their attributes. Needs networkx."""
        return graphs.graph_of(self.document, self.columns, self.rows())

    def plot(self, axes: Any = None) -> Any:
        """Draws the answer on matplotlib's axes, or on new ones, and returns them. Needs matplotlib."""
        raise TypeError(f"an answer {self.answer!r} has no numbers by trade, firm or edit to plot")


Step = tuple[str, int]
"""One more unit of a trade, or with -1 one fewer; or a trade with how many units of it."""


def _joined(names: Iterable[Union[str, Step, None]]) -> str:
    """Names with blanks between them; no name has one. The node null of the exchange graph is null here too, and a number
    that a trade has stands behind a colon."""
    return " ".join("null" if name is None else name if isinstance(name, str) else f"{name[0]}:{name[1]}" for name in names)


def _flat(row: Mapping[str, Any]) -> Json:
    return {name: _joined(value) if isinstance(value, (list, tuple)) else value for name, value in row.items()}


def _column(pandas: Any, values: Sequence[Any], is_nullable: bool) -> Any:
    if is_nullable:
        return pandas.array(values, dtype="Int64")
    return pandas.Series(values, dtype=None if values else object)


class _OfTrades(Answer):
    """An answer with a price for each of some trades, of which some are on."""
    columns: ClassVar[tuple[str, ...]] = ("trade", "seller", "buyer", "on", "price")

    def _on(self) -> tuple[str, ...]:
        raise NotImplementedError

    def _prices(self) -> Mapping[str, Any]:
        raise NotImplementedError

    def rows(self) -> list[Json]:
        """A row for each trade, in the order of the answer: `trade`, `seller`, `buyer`, whether it is `on`, `price`."""
        trades, on = _trades(self.document), set(self._on())
        rows = [{**trades[name], "on": name in on, "price": price} for name, price in self._prices().items()]
        return [{name: row[name] for name in self.columns} for row in rows]

    def plot(self, axes: Any = None) -> Any:
        """A point for each price, by trade, which is full where the trade is on. Needs matplotlib."""
        return plots.prices(axes, self._prices(), self._on())


def _trades(document: Json) -> dict[str, Json]:
    return {trade["name"]: {"trade": trade["name"], "seller": trade["seller"], "buyer": trade["buyer"]}
            for trade in document["trades"]}


def _arrangement(on: Sequence[Any], prices: Mapping[str, int]) -> Json:
    """A document's `arrangement`."""
    return {"on": list(on), "prices": [[trade, price] for trade, price in prices.items()]}


@dataclass(frozen=True)
class Solved(_OfTrades):
    """Of `solve`: an equilibrium. on: its trades, a tuple of names in the order of the document. prices: a dictionary
    from every trade to its price, int. surplus: the sum of the firms' worths, int; no set of trades has more."""
    answer = "solved"
    on: tuple[str, ...]
    prices: dict[str, int]
    surplus: int

    def _on(self) -> tuple[str, ...]:
        return self.on

    def _prices(self) -> Mapping[str, int]:
        return self.prices

    @property
    def arrangement(self) -> Json:
        """The equilibrium as a document's `arrangement`, for `check`, `support` and `firms`."""
        return _arrangement(self.on, self.prices)


@dataclass(frozen=True)
class Range:
    """The prices of one trade over all equilibria.

    low, high: the least and the greatest, int; None where there is no bound on that side.
    low_path, high_path: tuples of nodes of the exchange graph, a trade (str) or None, which hold the bounds
    (docs/RANGE.md); empty where there is no bound.
    """
    trade: str
    low: Optional[int]
    high: Optional[int]
    low_path: tuple[Optional[str], ...]
    high_path: tuple[Optional[str], ...]

    @property
    def width(self) -> Optional[int]:
        """The greatest price less the least; None where one of them isn't there."""
        return None if self.low is None or self.high is None else self.high - self.low


@dataclass(frozen=True)
class Ranges(Answer):
    """Of `ranges`: how far each price may move, over all equilibria.

    on: the trades of an efficient set, a tuple of names in the order of the document.
    ranges: a dictionary from every trade to its Range, which ranges["trade"] is too.
    """
    answer = "ranges"
    columns = ("trade", "seller", "buyer", "on", "low", "high")
    nullable = ("low", "high")
    on: tuple[str, ...]
    ranges: dict[str, Range]

    def __getitem__(self, trade: str) -> Range:
        return self.ranges[trade]

    @property
    def lowest(self) -> dict[str, Optional[int]]:
        """The lowest price of each trade, None where there is none."""
        return {trade: each.low for trade, each in self.ranges.items()}

    @property
    def highest(self) -> dict[str, Optional[int]]:
        """The highest price of each trade, None where there is none."""
        return {trade: each.high for trade, each in self.ranges.items()}

    @property
    def width(self) -> dict[str, Optional[int]]:
        """How far each price may move: its highest less its lowest, None where one of them isn't there."""
        return {trade: each.width for trade, each in self.ranges.items()}

    @property
    def at_lowest(self) -> Json:
        """All lowest prices together as a document's `arrangement`; ValueError where a trade has none."""
        return self.arranged(_all_there(self.lowest, "lowest"))

    @property
    def at_highest(self) -> Json:
        """All highest prices together as a document's `arrangement`; ValueError where a trade has none."""
        return self.arranged(_all_there(self.highest, "highest"))

    def arranged(self, prices: Mapping[str, int]) -> Json:
        """These prices with what is on, as a document's `arrangement`."""
        return _arrangement(self.on, prices)

    def rows(self) -> list[Json]:
        """A row for each trade: `trade`, `seller`, `buyer`, whether it is `on`, `low`, `high` (None for no bound)."""
        trades, on = _trades(self.document), set(self.on)
        return [{**trades[name], "on": name in on, "low": each.low, "high": each.high}
                for name, each in self.ranges.items()]

    def plot(self, axes: Any = None) -> Any:
        """A bar for each trade from its lowest to its highest price, thick where the trade is on, with an arrow to the
        edge where there is no bound. Needs matplotlib."""
        return plots.bounds(axes, {name: (each.low, each.high) for name, each in self.ranges.items()}, self.on)


def _all_there(bounds: Mapping[str, Optional[int]], side: str) -> dict[str, int]:
    """The bounds, of which none may be missing."""
    missing = ", ".join(trade for trade, price in bounds.items() if price is None)
    if missing:
        raise ValueError(f"there are no {side} prices together: {missing} has none")
    return {trade: price for trade, price in bounds.items() if price is not None}


@dataclass(frozen=True)
class Firm:
    """One firm at the prices of the arrangement.

    has: its bundle, a tuple of its own trades that are on.
    worth, utility: those of its bundle, int; None where that is impossible.
    best: a best bundle of it at these prices, its own where that is best; best_utility: the utility of that, int.
    gain: how much more utility `best` has, int, 0 where the firm is content; None where its own bundle is impossible.
    """
    firm: str
    has: tuple[str, ...]
    worth: Optional[int]
    utility: Optional[int]
    best: tuple[str, ...]
    best_utility: int
    gain: Optional[int]


@dataclass(frozen=True)
class Firms(Answer):
    """Of `firms`: every firm's side. The verdict is yes where every firm is content.

    firms: a dictionary from every firm to its Firm.
    content: how many of them are content, int.
    surplus: the sum of the worths, int; None where one of them is None.
    """
    answer = "firms"
    columns = ("firm", "has", "worth", "utility", "best", "best_utility", "gain")
    nullable = ("worth", "utility", "best_utility", "gain")
    firms: dict[str, Firm]
    content: int
    surplus: Optional[int]

    def rows(self) -> list[Json]:
        """A row for each firm with the members of Firm; bundles are text, with blanks between the trades."""
        return [_flat(vars(each)) for each in self.firms.values()]

    def plot(self, axes: Any = None) -> Any:
        """A bar for each firm's utility, with a mark at the most that it could have; without a bar where its bundle is
        impossible. Needs matplotlib."""
        return plots.utilities(axes, {name: (each.utility, each.best_utility) for name, each in self.firms.items()})


@dataclass(frozen=True)
class State:
    """An equilibrium of the market that the usable trades make, after an edit.

    on: the trades that are on, a tuple of names. prices: a dictionary from every usable trade to its price, int.
    surplus: the sum of the firms' worths, int.
    """
    on: tuple[str, ...]
    prices: dict[str, int]
    surplus: int


@dataclass(frozen=True)
class Session(Answer):
    """Of `session`: an equilibrium after each edit. edits: a tuple of State, one for each edit, in order."""
    answer = "session"
    columns: ClassVar[tuple[str, ...]] = ("edit", "trade", "on", "surplus")
    edits: tuple[State, ...]

    def rows(self) -> list[Json]:
        """A row for each edit: `edit` (admit, bar, leave or join), its `trade` (the firm of leave and join, `*` for all
        trades), the trades that are then `on`, with blanks between them, and the `surplus`."""
        return [{"edit": edit, "trade": trade, "on": _joined(state.on), "surplus": state.surplus}
                for (edit, trade, *_), state in zip(self.document["edits"], self.edits)]

    def price_frame(self) -> Any:
        """The prices after each edit as a pandas.DataFrame, with a row for each edit, a column (Int64) for each trade
        of the document, with pandas.NA where that can't be used. Needs pandas."""
        pandas = needed("pandas", "the prices stand in edits")
        names = [trade["name"] for trade in self.document["trades"]]
        return pandas.DataFrame({name: pandas.array([state.prices.get(name) for state in self.edits], dtype="Int64")
                                 for name in names})

    def plot(self, axes: Any = None) -> Any:
        """The surplus after each edit, as steps. Needs matplotlib."""
        names = [" ".join(map(str, edit)) for edit in self.document["edits"]]
        return plots.steps(axes, names, [state.surplus for state in self.edits])


@dataclass(frozen=True)
class Drops(Answer):
    """Of `judge`: a firm would drop contracts (no). firm: the first such firm. keeps: the trades of a best set of its
    contracts, a tuple of names. gain: how much more utility that has, Fraction; None where all its contracts are an
    impossible bundle. over: the outcome's denominator, int."""
    answer = "drops"
    firm: str
    keeps: tuple[str, ...]
    gain: Optional[Fraction]
    over: int


@dataclass(frozen=True)
class Completes(_OfTrades):
    """Of `judge`: prices complete the outcome to an equilibrium, and nothing blocks it (yes). prices: a dictionary from
    every trade to its price, Fraction. over: their denominator, int. In rows and plots the signed trades are on."""
    answer = "completes"
    prices: dict[str, Fraction]
    over: int

    def _on(self) -> tuple[str, ...]:
        return tuple(trade for trade, _ in self.document["outcome"]["contracts"])

    def _prices(self) -> Mapping[str, Fraction]:
        return self.prices


@dataclass(frozen=True)
class Blocks(_OfTrades):
    """Of `judge`: contracts block the outcome (no). contracts: a dictionary from trades to their prices, Fraction, in
    the order of a chain: the buyer of each is the seller of the next. over: the denominator of these prices, int. Rows
    and plots are of these contracts alone, without `on`."""
    answer = "blocks"
    columns = ("trade", "seller", "buyer", "price")
    contracts: dict[str, Fraction]
    over: int

    @property
    def prices(self) -> dict[str, Fraction]:
        """The contracts."""
        return self.contracts

    def _on(self) -> tuple[str, ...]:
        return tuple(self.contracts)

    def _prices(self) -> Mapping[str, Fraction]:
        return self.contracts


@dataclass(frozen=True)
class Valid(Answer):
    """Of `replay`: the claim is so (yes)."""
    answer = "valid"


@dataclass(frozen=True)
class Invalid(Answer):
    """Of `replay`: some condition of the claim doesn't hold (no).

    reason: the first that doesn't, as docs/ANSWERS.md names it.
    members: a dictionary of the further members of the answer, by that reason; numerators are whole numbers there.
    """
    answer = "invalid"
    reason: str
    members: dict[str, Any]

    def rows(self) -> list[Json]:
        """One row, with the kind of answer, the `reason` and the further members."""
        return [_flat({"answer": self.answer, "reason": self.reason, **self.members})]


@dataclass(frozen=True)
class Equilibrium(Answer):
    """Of `check`: each firm's bundle is best at the prices (yes). surplus: the sum of the firms' worths, int."""
    answer = "equilibrium"
    surplus: int


@dataclass(frozen=True)
class Better(Answer):
    """Of `check`: a firm would rather have another bundle (no). firm: the first such firm. bundle: a best bundle of it,
    a tuple of trades. gain: how much more utility that has, int."""
    answer = "better"
    firm: str
    bundle: tuple[str, ...]
    gain: int


@dataclass(frozen=True)
class Impossible(Answer):
    """Of `check` and `support`: a firm's bundle is impossible (no). firm: the first such firm."""
    answer = "impossible"
    firm: str


@dataclass(frozen=True)
class Prices(_OfTrades):
    """Of `support`: prices at which the arrangement's trades are an equilibrium (yes). prices: a dictionary from every
    trade to its price, int."""
    answer = "prices"
    prices: dict[str, int]

    def _on(self) -> tuple[str, ...]:
        return tuple(self.document["arrangement"]["on"])

    def _prices(self) -> Mapping[str, int]:
        return self.prices


@dataclass(frozen=True)
class Cycle(Answer):
    """Of `support`: no prices support the arrangement's trades (no). nodes: a cycle of the exchange graph
    (docs/SUPPORT.md), a tuple of trades (str) and at most one None. cost: its cost, int, below 0."""
    answer = "cycle"
    nodes: tuple[Optional[str], ...]
    cost: int


@dataclass(frozen=True)
class Accepted(Answer):
    """Of `test`: every firm meets the exchange property (yes)."""
    answer = "accepted"


@dataclass(frozen=True)
class ExchangeFails(Answer):
    """Of `test`: a firm doesn't meet the exchange property (no). firm: the first such firm. x, y: the two bundles,
    tuples of trades. at: the trade, or None."""
    answer = "exchange_fails"
    firm: str
    x: tuple[str, ...]
    y: tuple[str, ...]
    at: Optional[str]


# Answers where trades have units, in documents of version 4. Each has the members of its kind, in which a trade stands without its
# units, and further ones that tell them. None of them can be a claim.

@dataclass(frozen=True)
class _OfUnits(Answer):
    """An answer that tells how many units of each trade go."""
    units: dict[str, int]

    def rows(self) -> list[Json]:
        """As of its kind, with how many units go in place of whether the trade is `on`."""
        return [{**row, "on": self.units[row["trade"]]} for row in super().rows()]

    def arranged(self, prices: Mapping[str, int]) -> Json:
        """These prices with the units that go, as a document's `arrangement`."""
        return _arrangement(_going(self.units), prices)


@dataclass(frozen=True)
class SolvedByCounts(_OfUnits, Solved):
    """Of `solve` where trades have units (documents of version 4): an equilibrium by counts. on: the trades of which some
    units go. prices: of a unit of every trade. surplus: that of the counts; no counts have more. units: a dictionary from
    every trade to how many of its units go, int."""

    @property
    def arrangement(self) -> Json:
        """The equilibrium as a document's `arrangement`, in which `on` has the units of each trade that goes."""
        return self.arranged(self.prices)


@dataclass(frozen=True)
class PricesByCounts(_OfUnits, Prices):
    """Of `support` where trades have units: prices of a unit of each trade at which the counts are an equilibrium (yes). units: a
    dictionary from every trade to how many of its units the arrangement has on, int."""

    def _on(self) -> tuple[str, ...]:
        return tuple(trade for trade, units in self.units.items() if units)


@dataclass(frozen=True)
class RangeByCounts(Range):
    """The prices of a unit of one trade over all equilibria. low_path, high_path: the trades of these paths alone. low_steps,
    high_steps: the paths, with None or (trade, 1) for one more unit of a trade and (trade, -1) for one fewer."""
    low_steps: tuple[Optional[Step], ...]
    high_steps: tuple[Optional[Step], ...]


@dataclass(frozen=True)
class RangesByCounts(_OfUnits, Ranges):
    """Of `range` where trades have units: how far each price may move. on: the trades of which some units go. units: a dictionary
    from every trade to how many of its units go, int. ranges: a dictionary from every trade to its RangeByCounts."""


@dataclass(frozen=True)
class StateByCounts(State):
    """An equilibrium of the units that can be used, after an edit. on: the trades of which some units go. units: a dictionary from
    these trades to how many of their units. prices: of a unit of every trade that can be used."""
    units: dict[str, int]


@dataclass(frozen=True)
class SessionByCounts(Session):
    """Of `session` where trades have units. edits: a tuple of StateByCounts, one for each edit, in order."""
    columns = ("edit", "trade", "units", "on", "surplus")
    nullable = ("units",)

    def rows(self) -> list[Json]:
        """A row for each edit with the members of Session, and with the `units` that it admits, None where it doesn't say; what is
        on is text, as `a:300 b:200`."""
        said = [(edit[2] if len(edit) > 2 else None, state) for edit, state in zip(self.document["edits"], self.edits)]
        return [{"edit": row["edit"], "trade": row["trade"], "units": units, "on": _joined(state.units.items()), "surplus": state.surplus}
                for row, (units, state) in zip(super().rows(), said) if isinstance(state, StateByCounts)]


@dataclass(frozen=True)
class FirmByCounts(Firm):
    """One firm where trades have units. has, best: the trades of these bundles alone. units, best_units: dictionaries from these
    trades to how many units of each."""
    units: dict[str, int]
    best_units: dict[str, int]


@dataclass(frozen=True)
class FirmsByCounts(Firms):
    """Of `firms` where trades have units. firms: a dictionary from every firm to its FirmByCounts."""

    def rows(self) -> list[Json]:
        """A row for each firm with the members of Firm; bundles are text, as `a:300 b:200`."""
        rows = [{**vars(each), "has": _joined(each.units.items()), "best": _joined(each.best_units.items())}
                for each in self.firms.values() if isinstance(each, FirmByCounts)]
        return [{name: row[name] for name in self.columns} for row in rows]


@dataclass(frozen=True)
class BetterByCounts(Better):
    """Of `check` where trades have units: a firm would rather have other counts (no). bundle: the trades of a best bundle of it.
    units: a dictionary from these trades to how many units of each, int."""
    units: dict[str, int]

    def rows(self) -> list[Json]:
        """One row, in which the bundle is text, as `a:300 b:200`."""
        return [{**row, "bundle": _joined(self.units.items())} for row in super().rows()]


@dataclass(frozen=True)
class CycleByCounts(Cycle):
    """Of `support` where trades have units: no prices support the counts (no). nodes: the trades and None of a cycle. steps: the
    cycle, with None or (trade, 1) for one more unit of a trade and (trade, -1) for one fewer: all together they lead to counts
    with so much more surplus as `cost` is below 0."""
    steps: tuple[Optional[Step], ...]

    def rows(self) -> list[Json]:
        """One row, in which the nodes are text, as `null a:-1 b:1`."""
        return [{**row, "nodes": _joined(self.steps)} for row in super().rows()]


_ALL: tuple[type[Answer], ...] = (
    Solved, Ranges, Firms, Session, Drops, Completes, Blocks, Valid, Invalid, Equilibrium, Better, Impossible, Prices,
    Cycle, Accepted, ExchangeFails)
_REFUSING: tuple[type[Answer], ...] = (Drops, Blocks, Invalid, Better, Impossible, Cycle, ExchangeFails)

KINDS = {kind.answer: kind for kind in _ALL}
NOES = {kind.answer for kind in _REFUSING}


@functools.lru_cache(maxsize=None)
def _members(answer: str) -> tuple[str, ...]:
    """The names of the members of an answer, by its kind, that not all answers have."""
    common = {each.name for each in fields(Answer)}
    return tuple(each.name for each in fields(KINDS[answer]) if each.name not in common)


def object_of(said: Json, asked: bytes, yes: bool) -> Answer:
    """The answer as an object of its kind."""
    kind = KINDS[said["answer"]]
    if kind is Invalid:
        members = {name: value for name, value in said.items() if name not in ("answer", "reason")}
        return Invalid(said, asked, yes, said["reason"], members)
    if kind in (Solved, Prices, Ranges, Firms, Better, Cycle, Session):
        document = json.loads(asked)
        if document["version"] == UNIT_VERSION:
            return _by_counts(said, asked, yes, document)
    return kind(said, asked, yes, *(_member(name, said[name], said.get("over")) for name in _members(kind.answer)))


def _by_counts(said: Json, asked: bytes, yes: bool, document: Json) -> Answer:
    """An answer where trades have units, as an object of its kind."""
    common, answer = (said, asked, yes), said["answer"]
    if answer == "better":
        return BetterByCounts(*common, said["firm"], _names(said["bundle"]), said["gain"], dict(said["bundle"]))
    if answer == "cycle":
        return CycleByCounts(*common, _names(said["nodes"]), said["cost"], _steps(said["nodes"]))
    if answer == "firms":
        firms: dict[str, Firm] = {each["firm"]: _firm_by_counts(each) for each in said["firms"]}
        return FirmsByCounts(*common, firms, said["content"], said["surplus"])
    if answer == "session":
        return SessionByCounts(*common, tuple(_state_by_counts(each) for each in said["edits"]))
    on = said["on"] if "on" in said else document["arrangement"]["on"]
    units = {trade["name"]: 0 for trade in document["trades"]} | dict(on)
    if answer == "ranges":
        ranges: dict[str, Range] = {each["trade"]: _range_by_counts(each) for each in said["ranges"]}
        return RangesByCounts(*common, _names(on), ranges, units)
    prices = dict(said["prices"])
    return SolvedByCounts(*common, _names(on), prices, said["surplus"], units) if answer == "solved" \
        else PricesByCounts(*common, prices, units)


def _firm_by_counts(each: Json) -> FirmByCounts:
    return FirmByCounts(each["firm"], _names(each["has"]), each["worth"], each["utility"], _names(each["best"]),
                        each["best_utility"], each["gain"], dict(each["has"]), dict(each["best"]))


def _state_by_counts(each: Json) -> StateByCounts:
    return StateByCounts(_names(each["on"]), dict(each["prices"]), each["surplus"], dict(each["on"]))


def _range_by_counts(each: Json) -> RangeByCounts:
    low, high = each["low_path"], each["high_path"]
    return RangeByCounts(each["trade"], each["low"], each["high"], _names(low), _names(high), _steps(low), _steps(high))


def _names(entries: Iterable[Any]) -> tuple[Any, ...]:
    """The trades of entries and steps, and None where it stands."""
    return tuple(entry and entry[0] for entry in entries)


def _steps(nodes: Iterable[Any]) -> tuple[Optional[Step], ...]:
    return tuple(node and (node[0], node[1]) for node in nodes)


def _going(units: Mapping[str, int]) -> list[list[Any]]:
    """The trades of which some units go, as entries."""
    return [[trade, count] for trade, count in units.items() if count > 0]


def _member(name: str, value: Any, over: Optional[int]) -> Any:
    """A member of an answer, in which numbers of money are over the denominator, where there is one."""
    if name in ("prices", "contracts"):
        return {trade: _over(number, over) for trade, number in value}
    if name == "gain":
        return _over(value, over)
    if name == "ranges":
        return {each["trade"]: _part(Range, each) for each in value}
    if name == "firms":
        return {each["firm"]: _part(Firm, each) for each in value}
    if name == "edits":
        return tuple(_part(State, each) for each in value)
    return tuple(value) if isinstance(value, list) else value


def _over(number: Optional[int], over: Optional[int]) -> Union[int, Fraction, None]:
    return number if over is None or number is None else Fraction(number, over)


def _part(kind: type[Any], members: Json) -> Any:
    return kind(*(_member(each.name, members[each.name], None) for each in fields(kind)))
