"""Documents by builders: firms by what they do, with costs as costs and worths as worths.

    market = tn.Document()
    market.seller("Ann", costs={"a": 4, "b": 5})
    market.buyer("Bob", worths={"a": 9})
    market.buyer("Cy", worths={"b": 8})
    market.document                       # the dictionary

A trade has a name, by which its two firms know it: whoever sells it and whoever buys it. Amounts may be whole numbers,
fractions, decimals, and floats that are whole; `unit` says of what they are then whole numbers in the document.
"""
from __future__ import annotations

from fractions import Fraction
from typing import Any, Iterable, Mapping, Optional, Sequence, Union

from . import kinds
from .amounts import Amount, count_of, exact
from .given import Costs, Stages, amounts_of, costs_of, falling, rising, warn
from .kinds import Json, Kind
from .tables import Trouble
from .writing import Parts, Trade, Writing


class Document:
    """A network that is built up; each method adds something to it, and returns it.

    unit: how much money one unit of the document is, such as Decimal("0.01"). Where it isn't given, it is the largest of
    1, 0.1, 0.01 and so on of which all amounts are whole numbers; `unit` tells it, and the document's note does where it
    isn't 1.
    """

    def __init__(self, *, unit: Optional[Amount] = None):
        self._unit = None if unit is None else exact(unit, "the unit")
        self._firms: dict[str, Kind] = {}
        self._trades: dict[str, Trade] = {}
        self._parts = Parts()
        if self._unit is not None and self._unit <= 0:
            raise Trouble(f"the unit: {unit!r} isn't above 0")

    def __repr__(self) -> str:
        return f"<Document of {len(self._firms)} firms and {len(self._trades)} trades>"

    # Firms

    def seller(self, name: str, *, costs: Mapping[str, Amount], up_to: Optional[int] = None, steps: Optional[Stages] = None,
               rises_by: Amount = 0) -> Document:
        """A firm that sells: one unit, by any of its trades, or up to so many.

        costs: what a unit costs it by each trade. steps: what each further unit costs beside that, as (how many, each);
        without `up_to` they say how many there are. rises_by: by how much each further one costs more than the one before.
        """
        schedule = rising(name, up_to, steps, rises_by, 1)
        return self._add(name, kinds.seller(costs_of(name, costs), schedule))

    def buyer(self, name: str, *, worths: Mapping[str, Amount], up_to: Optional[int] = None, steps: Optional[Stages] = None,
              falls_by: Amount = 0) -> Document:
        """A firm that buys: one unit, by any of its trades, or up to so many.

        worths: what a unit is worth to it by each trade. steps: what each further unit is worth beside that, as (how
        many, each); without `up_to` they say how many it takes. falls_by: by how much each further one is worth less than
        the one before.
        """
        schedule = falling(name, up_to, steps, falls_by, 1)
        kind = kinds.buyer(amounts_of(name, worths), schedule)
        first = max((amount for _, amount in schedule), default=Fraction(0))
        if kind.purchases and all(worth + first <= 0 for worth in kind.purchases.values()):
            warn(f"{name} would never pay anything: nothing that it may buy is worth more than 0 to it")
        return self._add(name, kind)

    def maker(self, name: str, *, buys: Costs, sells: Costs, up_to: Optional[int] = None, steps: Optional[Stages] = None,
              rises_by: Amount = 0) -> Document:
        """A firm that makes one unit of what it sells of one of what it buys, up to so many where that is said.

        buys, sells: its trades, or what a unit costs it by each. steps, rises_by: what each further unit costs beside
        that, as those of `seller`.
        """
        schedule = rising(name, up_to, steps, rises_by, None)
        return self._add(name, kinds.maker(costs_of(name, buys), costs_of(name, sells), schedule))

    def warehouse(self, name: str, *, buys: Costs, sells: Costs, up_to: Optional[int] = None,
                  steps: Optional[Stages] = None, rises_by: Amount = 0, stock: int = 0, room: int = 0,
                  keep: Amount = 0) -> Document:
        """A maker that has `stock` units from before and room for `room` more, each worth `keep` to it: it may sell so
        many more than it buys, and buy so many more than it sells."""
        schedule = rising(name, up_to, steps, rises_by, None)
        worth = exact(keep, f"{name}, keep")
        kind = kinds.warehouse(costs_of(name, buys), costs_of(name, sells), schedule,
                               [(count_of(stock, f"{name}, stock"), worth)], [(count_of(room, f"{name}, room"), worth)])
        return self._add(name, kind)

    def middleman(self, name: str, *, costs: Costs, gains: Costs, keep: Optional[Amount] = None, up_to: int = 1) -> Document:
        """A firm that buys one unit and sells it on, or keeps it where `keep` says what it is then worth.

        costs: what comes on top of the price by each purchase, or its purchases; gains: what comes on top by each sale,
        or its sales. With `up_to` it does so with so many, which only a document with units says.
        """
        kept = None if keep is None else exact(keep, f"{name}, keep")
        purchases = kinds.turned(costs_of(name, costs))
        return self._add(name, kinds.Middleman(purchases, amounts_of(name, gains), kept, count_of(up_to, f"{name}, up_to", 1)))

    def dealer(self, name: str, *, costs: Mapping[tuple[str, str], Amount]) -> Document:
        """A firm that matches what it buys one to one with what it sells: what it costs to make the first trade of each
        pair the second."""
        listed = costs_of(name, {str(pair): cost for pair, cost in costs.items()})
        return self._add(name, kinds.Dealer({pair: -cost for pair, cost in zip(costs, listed.values())}))

    def table(self, name: str, *, worths: Mapping[Union[str, tuple[str, ...]], Amount]) -> Document:
        """A firm with a worth for each bundle that is possible; a trade alone may stand without a tuple. What a bundle
        costs is a worth below 0. Its trades are those of firms of other kinds, or `trade` says on which side it is."""
        rows: dict[frozenset[str], tuple[tuple[str, ...], Fraction]] = {}
        for bundle, worth in worths.items():
            trades = (bundle,) if isinstance(bundle, str) else tuple(bundle)
            if len(set(trades)) < len(trades) or frozenset(trades) in rows:
                raise Trouble(f"{name}: {' '.join(trades)} is a bundle that is named twice, or names a trade twice")
            rows[frozenset(trades)] = trades, exact(worth, f"{name}, {' '.join(trades)}")
        return self._add(name, kinds.Table(dict(rows.values())))

    # Trades and parts

    def trade(self, name: str, seller: Optional[str] = None, buyer: Optional[str] = None, *, units: int = 1) -> Document:
        """How many units a trade has, and, where two tables know it, who sells it and who buys it."""
        trade = self._known(name)
        trade.units = count_of(units, f"{name}, units", 1)
        for firms, firm in ((trade.sellers, seller), (trade.buyers, buyer)):
            if firm is not None and firm not in firms:
                firms.append(firm)
        return self

    def arranged(self, on: Union[Iterable[str], Mapping[str, int]], prices: Optional[Mapping[str, Amount]] = None) -> Document:
        """Trades that take place, all units of each or as many as are said, and a price for every trade, as `check`,
        `firms` and `support` take them."""
        counts: Mapping[str, Optional[int]] = on if isinstance(on, Mapping) else dict.fromkeys(on)
        self._parts.on = {name: None if count is None else count_of(count, name) for name, count in counts.items()}
        self._parts.prices = None if prices is None else _prices(prices)
        return self

    def signed(self, contracts: Mapping[str, Amount]) -> Document:
        """Trades that are signed, each at its price, as `judge` takes them."""
        self._parts.contracts = _prices(contracts)
        return self

    def edited(self, edits: Iterable[Sequence[Any]]) -> Document:
        """Edits, as `session` takes them: ("admit", trade), ("bar", trade), ("leave", firm), ("join", firm), and ("admit", trade,
        units), after which so many of the trade's units are admitted."""
        self._parts.edits = [tuple(edit) for edit in edits]
        return self

    # What is made of it

    @property
    def unit(self) -> Fraction:
        """How much money one unit of the document is."""
        return self._writing().unit

    def money(self, number: Union[int, Fraction]) -> Fraction:
        """An amount of an answer, which is in units, as money."""
        return number * self.unit

    @property
    def codes(self) -> dict[str, str]:
        """What each trade is called in the document, where a name that isn't plain stands as its note."""
        return self._writing().codes

    @property
    def firm_codes(self) -> dict[str, str]:
        """What each firm is called there, in the same way."""
        return self._writing().names

    @property
    def document(self) -> Json:
        """The document: a dictionary, of the least version that has room for it. Warns of firms that would never trade."""
        for name, kind in self._firms.items():
            why = kinds.why_never(kind)
            if why is not None:
                warn(f"{name} would never trade: {why}")
        return self._writing().document(self._parts)

    def _writing(self) -> Writing:
        return Writing(self._firms, self._trades, self._unit, self._parts.prices or {})

    def _add(self, name: str, kind: Kind) -> Document:
        """Adds a firm, and what it says of the ends of its trades."""
        if _named(name) in self._firms:
            raise Trouble(f"{name} is a firm already")
        self._firms[name] = kind
        for trade in kind.own():
            known = self._known(trade)
            for firms, own in ((known.sellers, kind.sales), (known.buyers, kind.purchases)):
                if trade in own and name not in firms:
                    firms.append(name)
        return self

    def _known(self, trade: str) -> Trade:
        return self._trades.setdefault(_named(trade), Trade())


def _named(name: Any) -> str:
    if not isinstance(name, str):
        raise Trouble(f"{name!r} is no name: firms and trades are called by a text")
    return name


def _prices(prices: Mapping[str, Amount]) -> dict[str, Fraction]:
    return {name: exact(price, f"the price of {name}") for name, price in prices.items()}
