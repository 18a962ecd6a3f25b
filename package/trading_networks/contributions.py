"""What the market has less without each firm and without each trade, and what each firm would pay by Clarke's rule: sums
and differences of what one process answers to sessions in which firms and trades go and come back (docs/CONTRIBUTIONS.md)."""
from __future__ import annotations

from dataclasses import dataclass
from typing import Any, Iterator, Literal, Optional, Sequence, Union

from .answers import Firms, Ranges, Session
from .errors import MarketError
from .kinds import Json
from .plots import needed
from .program import Asked, Path
from .questions import solve
from .standing import asked_ranges, at, at_ranges, network, whole
from .streams import stream

MOST_EDITS = 256  # of one session, in every version: each state of an answer lists the prices of all trades
Without = dict[tuple[str, str], int]  # the greatest surplus after an edit that takes a firm or a trade away
Reached = Literal["lowest", "highest", "both", "neither"]
SAID: dict[tuple[bool, bool], Reached] = {
    (True, True): "both", (True, False): "lowest", (False, True): "highest", (False, False): "neither"}


@dataclass(frozen=True)
class FirmMarginal:
    """What a firm contributes. All numbers are int.

    has, worth: its bundle of the efficient set that `range` says, and what that is worth to it. alone: the worth of its
    empty bundle. surplus_without: the greatest surplus without it, of which `alone` is part; contribution: the greatest
    surplus less that. pays: what it would pay by Clarke's rule. gain_at_lowest, gain_at_highest: how far its utility is
    above `alone` at all lowest, and at all highest prices; None where a trade has no such price. reached: which of the
    two is the contribution; None where one is None.
    """
    firm: str
    has: tuple[str, ...]
    worth: int
    alone: int
    surplus_without: int
    contribution: int
    pays: int
    gain_at_lowest: Optional[int]
    gain_at_highest: Optional[int]
    reached: Optional[Reached]


@dataclass(frozen=True)
class TradeMarginal:
    """What a trade contributes: the greatest surplus without it, and the greatest surplus less that; on: whether it is in
    the efficient set that `range` says."""
    trade: str
    seller: str
    buyer: str
    on: bool
    surplus_without: int
    contribution: int


@dataclass(frozen=True)
class Marginals:
    """Of `marginals`: the greatest surplus, and what each firm and each trade contributes to it, by their names."""
    surplus: int
    firms: dict[str, FirmMarginal]
    trades: dict[str, TradeMarginal]

    def firm_rows(self) -> list[Json]:
        """A row for each firm with the members of FirmMarginal; bundles are text, with blanks between the trades."""
        return [{**vars(each), "has": " ".join(each.has)} for each in self.firms.values()]

    def trade_rows(self) -> list[Json]:
        """A row for each trade with the members of TradeMarginal."""
        return [dict(vars(each)) for each in self.trades.values()]

    def firm_frame(self) -> Any:
        """The rows of firms as a pandas.DataFrame. Needs pandas."""
        pandas = needed("pandas", "firm_rows() needs nothing")
        frame = pandas.DataFrame(self.firm_rows(), columns=list(FirmMarginal.__annotations__))
        return frame.astype({"gain_at_lowest": "Int64", "gain_at_highest": "Int64"}).set_index("firm")

    def trade_frame(self) -> Any:
        """The rows of trades as a pandas.DataFrame. Needs pandas."""
        pandas = needed("pandas", "trade_rows() needs nothing")
        return pandas.DataFrame(self.trade_rows(), columns=list(TradeMarginal.__annotations__)).set_index("trade")


def marginals(document: Asked, *, program: Optional[Path] = None) -> Marginals:
    """By how much the greatest surplus falls without each firm, and without each trade. Raises as `ask` does."""
    found = asked_ranges(document, program)
    surplus, without = _surpluses(found, program)
    firms = _firm_marginals(found, surplus, without, program)
    trades = (_trade_marginal(trade, found, surplus, without) for trade in found.document["trades"])
    return Marginals(surplus, {each.firm: each for each in firms}, {each.trade: each for each in trades})


def clarke(document: Asked, *, program: Optional[Path] = None) -> dict[str, int]:
    """What each firm would pay by Clarke's rule, in which it keeps its contribution; below 0 it is paid. Where the sum is
    below 0, somebody has to bring as much. Raises as `ask` does."""
    return {each.firm: each.pays for each in marginals(document, program=program).firms.values()}


def _surpluses(found: Ranges, program: Optional[Path]) -> tuple[int, Without]:
    """The greatest surplus, and that without each firm and each trade that is on: without others the efficient set is
    still there, and nothing has more than it."""
    on = set(found.on)
    firms = dict.fromkeys(trade[side] for trade in found.document["trades"] if trade["name"] in on
                          for side in ("seller", "buyer"))
    going = [*(("leave", firm) for firm in firms), *(("bar", trade) for trade in found.on)]
    said = list(_told(stream("session", _sessions(network(found.document), going), program=program)))
    states = [state.surplus for each in said if isinstance(each, Session) for state in each.edits[1::2]]  # (the first is of all)
    first = said[0]
    assert isinstance(first, Session)
    return first.edits[0].surplus, dict(zip(going, states))


def _sessions(document: Json, going: Sequence[tuple[str, str]]) -> Iterator[Json]:
    """Edits that admit all trades and then take one firm or trade away after another, and give it back, in as many
    sessions as they need."""
    back, size = {"leave": "join", "bar": "admit"}, (MOST_EDITS - 1) // 2
    for k in range(0, max(len(going), 1), size):
        edits = [edit for deed, name in going[k:k + size] for edit in ([deed, name], [back[deed], name])]
        yield {**document, "edits": [["admit", "*"], *edits]}


def _trade_marginal(trade: Json, found: Ranges, surplus: int, without: Without) -> TradeMarginal:
    name = trade["name"]
    rest = without.get(("bar", name), surplus)
    return TradeMarginal(name, trade["seller"], trade["buyer"], name in found.on, rest, surplus - rest)


def _firm_marginals(found: Ranges, surplus: int, without: Without, program: Optional[Path]) -> Iterator[FirmMarginal]:
    at_prices, alone, low, high = _utilities(found, program)
    for name, each in at_prices.firms.items():
        base, rest = alone.firms[name].worth or 0, without.get(("leave", name), surplus)
        contribution, worth = surplus - rest, each.worth or 0
        gains = [None if said is None else (said.firms[name].utility or 0) - base for said in (low, high)]
        reached = None if None in gains else SAID[gains[0] == contribution, gains[1] == contribution]
        yield FirmMarginal(name, each.has, worth, base, rest, contribution, worth - base - contribution, gains[0], gains[1],
                           reached)


def _utilities(found: Ranges, program: Optional[Path]) -> tuple[Firms, Firms, Optional[Firms], Optional[Firms]]:
    """What `firms` says at the prices of `solve`, with nothing on, and at all lowest and all highest prices, where each
    trade has them."""
    plain = network(found.document)
    prices = solve(plain, program=program).prices
    low, high = whole(found.lowest), whole(found.highest)
    asked = [at_ranges(found, prices), at(plain, (), prices)]
    asked += [at_ranges(found, bounds) for bounds in (low, high) if bounds is not None]
    said = iter([each for each in _told(stream("firms", asked, program=program)) if isinstance(each, Firms)])
    return next(said), next(said), None if low is None else next(said), None if high is None else next(said)


def _told(answers: Iterator[Union[Any, MarketError]]) -> Iterator[Any]:
    """The answers of a stream, of which none may lack its verdict."""
    for answer in answers:
        if isinstance(answer, MarketError):
            raise answer
        yield answer
