"""Kinds of firms as people know them: what a firm of each does with its trades, and how the format writes that.

All amounts are gains of the firm here, so costs are below 0: the builders turn them round.
"""
from __future__ import annotations

from dataclasses import dataclass, field
from fractions import Fraction
from itertools import accumulate
from typing import Any, Iterator, Mapping, Optional, Sequence, Union

from .tables import Trouble

MOST_STEPS = 256
Json = dict[str, Any]
Amounts = Mapping[str, Fraction]
Steps = Sequence[tuple[Optional[int], Fraction]]
"""So many units, and what each of them adds; the last may have no number, and then goes on."""


@dataclass(frozen=True)
class Manner:
    """How a document is written: the unit of money, the names of its trades, how many units each has, and whether sets
    are written by steps."""
    unit: Fraction
    codes: Mapping[str, str]
    units: Mapping[str, int]
    is_by_steps: bool

    def whole(self, amount: Fraction) -> int:
        """The amount in units of money, of which it is a whole number."""
        return int(amount / self.unit)

    def entries(self, amounts: Amounts) -> list[list[Any]]:
        """Entries of trades with what isn't 0."""
        return [[self.codes[trade], self.whole(amount)] for trade, amount in amounts.items() if amount]

    def limited(self, steps: Steps, trades: Sequence[str]) -> list[tuple[int, int]]:
        """Steps with as many units as the trades have, each with a number."""
        left, listed = sum(self.units[trade] for trade in trades), []
        for count, amount in steps:
            taken = left if count is None else min(count, left)
            left -= taken
            if taken:
                listed.append((taken, self.whole(amount)))
        return listed


@dataclass(frozen=True)
class Counted:
    """A set of a laminar firm: which of its purchases and sales it counts, and what each further unit adds that is
    bought net, and each that is sold."""
    purchases: Sequence[str] = ()
    sales: Sequence[str] = ()
    bought: Steps = ()
    sold: Steps = ()

    def written(self, manner: Manner) -> Json:
        """The set as the format has it."""
        trades = {"trades": [manner.codes[trade] for trade in (*self.purchases, *self.sales)]}
        bought, sold = manner.limited(self.bought, self.purchases), manner.limited(self.sold, self.sales)
        if manner.is_by_steps:
            if max(len(bought), len(sold)) > MOST_STEPS:
                raise Trouble(f"there are {max(len(bought), len(sold))} steps, and {MOST_STEPS} is the most of a list")
            lists = {"bought": bought, "sold": sold}
            return {**trades, **{name: [list(step) for step in steps] for name, steps in lists.items() if steps}}
        up, down = ([*accumulate(amount for count, amount in steps for _ in range(count))] for steps in (bought, sold))
        return {**trades, "from": -len(down), "values": [*down[::-1], 0, *up]}


@dataclass(frozen=True)
class Laminar:
    """A firm with an amount for each trade, and sets."""
    purchases: Amounts = field(default_factory=dict)
    sales: Amounts = field(default_factory=dict)
    sets: Sequence[Counted] = ()

    def own(self) -> Iterator[str]:
        """Its trades whose side is known."""
        yield from (*self.purchases, *self.sales)

    def numbers(self) -> Iterator[Fraction]:
        """All its amounts of money."""
        yield from (*self.purchases.values(), *self.sales.values())
        yield from (amount for each in self.sets for _, amount in (*each.bought, *each.sold))

    def written(self, manner: Manner) -> Json:
        """What the format says of it beside its name."""
        sets = [each.written(manner) for each in self.sets if each.purchases or each.sales]
        return {"kind": "laminar", "amounts": manner.entries({**self.purchases, **self.sales}), "sets": sets}


@dataclass(frozen=True)
class Middleman:
    """A firm that passes one unit on, or keeps it; where `most` is more than one, so many."""
    purchases: Amounts
    sales: Amounts
    keep: Optional[Fraction] = None
    most: int = 1

    def own(self) -> Iterator[str]:
        """Its trades whose side is known."""
        yield from (*self.purchases, *self.sales)

    def numbers(self) -> Iterator[Fraction]:
        """All its amounts of money."""
        yield from (*self.purchases.values(), *self.sales.values(), *(() if self.keep is None else (self.keep,)))

    def written(self, manner: Manner) -> Json:
        """What the format says of it beside its name."""
        costs = manner.entries({trade: -amount for trade, amount in self.purchases.items()})
        more: Json = {} if self.keep is None else {"keep": manner.whole(self.keep)}
        return {"kind": "middleman", "costs": costs, "gains": manner.entries(self.sales), **more,
                **({"most": self.most} if self.most > 1 else {})}


@dataclass(frozen=True)
class Dealer:
    """A firm that matches purchases one to one with sales, by pairs with what each brings."""
    pairs: Mapping[tuple[str, str], Fraction]

    @property
    def purchases(self) -> Amounts:
        """What it may buy."""
        return {purchase: Fraction(0) for purchase, _ in self.pairs}

    @property
    def sales(self) -> Amounts:
        """What it may sell."""
        return {sale: Fraction(0) for _, sale in self.pairs}

    def own(self) -> Iterator[str]:
        """Its trades whose side is known."""
        yield from (*self.purchases, *self.sales)

    def numbers(self) -> Iterator[Fraction]:
        """All its amounts of money."""
        yield from self.pairs.values()

    def written(self, manner: Manner) -> Json:
        """What the format says of it beside its name."""
        return {"kind": "dealer", "pairs": [[manner.codes[purchase], manner.codes[sale], manner.whole(-amount)]
                                            for (purchase, sale), amount in self.pairs.items()]}


@dataclass(frozen=True)
class Table:
    """A firm with a worth for each bundle. The other firm of a trade says on which side it is."""
    rows: Mapping[tuple[str, ...], Fraction]
    purchases: Amounts = field(default_factory=dict)
    sales: Amounts = field(default_factory=dict)

    def own(self) -> Iterator[str]:
        """Its trades."""
        yield from dict.fromkeys(trade for bundle in self.rows for trade in bundle)

    def numbers(self) -> Iterator[Fraction]:
        """All its amounts of money."""
        yield from self.rows.values()

    def written(self, manner: Manner) -> Json:
        """What the format says of it beside its name."""
        return {"kind": "table", "rows": [[[manner.codes[trade] for trade in bundle], manner.whole(worth)]
                                          for bundle, worth in self.rows.items()]}


def up_to(most: Optional[int], steps: Steps) -> Steps:
    """Steps of no more units than `most`, where there is such a number."""
    if most is None:
        return steps
    listed: list[tuple[Optional[int], Fraction]] = []
    for count, amount in steps:
        taken = most if count is None else min(count, most)
        most -= taken
        listed.append((taken, amount))
    return [step for step in listed if step[0] != 0]


def seller(costs: Amounts, steps: Steps) -> Laminar:
    """A firm that sells: what each sale costs, and what each further unit does."""
    return Laminar(sales=turned(costs), sets=[Counted(sales=list(costs), sold=lost(steps))])


def buyer(worths: Amounts, steps: Steps) -> Laminar:
    """A firm that buys: what each purchase is worth, and what each further unit is."""
    return Laminar(purchases=worths, sets=[Counted(purchases=list(worths), bought=steps)])


def maker(inputs: Amounts, outputs: Amounts, steps: Steps) -> Laminar:
    """A firm that sells as much as it buys: what each trade costs, and what each further unit does."""
    return warehouse(inputs, outputs, steps, (), ())


def warehouse(inputs: Amounts, outputs: Amounts, steps: Steps, stock: Steps, room: Steps) -> Laminar:
    """A maker that may sell more than it buys, out of its stock, and buy more than it sells, into its room: what each
    unit is worth that it has no longer, or has more."""
    through = Counted(purchases=list(inputs), sales=list(outputs), bought=room, sold=lost(stock))
    return Laminar(turned(inputs), turned(outputs), [through, Counted(purchases=list(inputs), bought=lost(steps))])


def turned(costs: Amounts) -> Amounts:
    """Costs as gains."""
    return {trade: -cost for trade, cost in costs.items()}


def lost(steps: Steps) -> Steps:
    """What each step costs as what it adds."""
    return [(count, -cost) for count, cost in steps]


Kind = Union[Laminar, Middleman, Dealer, Table]


def why_never(kind: Kind) -> Optional[str]:
    """Why no bundle of a firm is possible but the empty one, or nothing. A laminar firm that may have a larger bundle may
    have one trade, or one purchase with one sale, by the exchange property."""
    if isinstance(kind, Table):
        return None if any(bundle for bundle in kind.rows) else "it has a worth for no bundle"
    if not kind.purchases and not kind.sales:
        return "it has no trade"
    if isinstance(kind, Dealer):
        return None
    if isinstance(kind, Middleman):
        if not kind.purchases:
            return "it has nothing to sell, since it buys nothing"
        return None if kind.sales or kind.keep is not None else "it can neither sell nor keep what it buys"
    alone = [*((trade, None) for trade in kind.purchases), *((None, trade) for trade in kind.sales)]
    pairs = [(purchase, sale) for purchase in kind.purchases for sale in kind.sales]
    return None if any(_is_possible(kind, *each) for each in (*alone, *pairs)) else "it may have none of its trades"


def _is_possible(firm: Laminar, purchase: Optional[str], sale: Optional[str]) -> bool:
    """Whether a laminar firm may have one purchase, or one sale, or one of each, and no more."""
    def allows(each: Counted) -> bool:
        net = (purchase in each.purchases) - (sale in each.sales)
        steps = each.bought if net > 0 else each.sold
        return net == 0 or any(count != 0 for count, _ in steps)

    return all(allows(each) for each in firm.sets)
