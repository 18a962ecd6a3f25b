"""How a network that was built up becomes a document: names, units of money, the version, and the parts beside it."""
from __future__ import annotations

import math
from dataclasses import dataclass, field
from fractions import Fraction
from typing import Any, Iterator, Mapping, Optional, Sequence

from . import kinds
from .amounts import unit_of
from .kinds import Json, Kind, Manner
from .names import codes_for
from .tables import Trouble, digits
from .versions import OF_UNITS, Needs, version_for

MOST_OVER = 100
FIRM_DEEDS = ("leave", "join")
ALL = "*"


@dataclass
class Trade:
    """A trade, as far as it is known: who sells it, who buys it, and how many units it has."""
    sellers: list[str] = field(default_factory=list)
    buyers: list[str] = field(default_factory=list)
    units: int = 1


@dataclass
class Parts:
    """What a document has beside its network."""
    on: Optional[dict[str, Optional[int]]] = None  # by trade how many units, or all of them
    prices: Optional[dict[str, Fraction]] = None
    contracts: Optional[dict[str, Fraction]] = None
    edits: Optional[list[tuple[Any, ...]]] = None


class Writing:
    """The writing of one network."""

    def __init__(self, firms: Mapping[str, Kind], trades: Mapping[str, Trade], unit: Optional[Fraction],
                 prices: Mapping[str, Fraction]):
        self.firms, self.trades = firms, trades
        self.names, self.codes = codes_for(firms, "firm"), codes_for(trades, "trade")
        numbers = (number for kind in firms.values() for number in kind.numbers())
        self.unit = unit or unit_of([*numbers, *prices.values()])
        self.tables = {name: set(kind.own()) for name, kind in firms.items() if isinstance(kind, kinds.Table)}

    def document(self, parts: Parts) -> Json:
        """The document, of the least version that has room for it."""
        units = {name: trade.units for name, trade in self.trades.items()}
        has_units = any(count > 1 for count in units.values()) or any(
            isinstance(kind, kinds.Middleman) and kind.most > 1 for kind in self.firms.values()) or any(
            len(edit) > 2 for edit in parts.edits or ())
        ends = {name: self.ends(name) for name in self.trades}
        firms = self.written_firms(Manner(self.unit, self.codes, units, has_units))
        version = version_for(self.needs(firms, sum(units.values()), has_units, len(parts.edits or ())))
        if version is OF_UNITS and not has_units:
            firms = self.written_firms(Manner(self.unit, self.codes, units, True))
        trades = [self.written_trade(name, *ends[name]) for name in self.trades]
        return {"version": version.number, **self.note(), "firms": firms, "trades": trades,
                **dict(self.parts(parts, version is OF_UNITS))}

    def note(self) -> Json:
        """The unit of money, where it isn't one."""
        is_decimal = 10 ** 12 * self.unit % 1 == 0
        return {} if self.unit == 1 else {"note": {"unit": digits(self.unit, 12) if is_decimal else str(self.unit)}}

    def written_firms(self, manner: Manner) -> list[Json]:
        """The firms as the format has them."""
        return [self.written_firm(name, kind, manner) for name, kind in self.firms.items()]

    def written_firm(self, name: str, kind: Kind, manner: Manner) -> Json:
        odd = next((number for number in kind.numbers() if number % manner.unit != 0), None)
        if odd is not None:
            raise Trouble(f"{name}: {odd} is no whole number of units of {manner.unit}")
        written = kind.written(manner)
        return {"name": self.names[name], "kind": written.pop("kind"), **noted(name, self.names[name]), **written}

    def written_trade(self, name: str, seller: str, buyer: str) -> Json:
        units, code = self.trades[name].units, self.codes[name]
        return {"name": code, "seller": self.names[seller], "buyer": self.names[buyer],
                **({"units": units} if units > 1 else {}), **noted(name, code)}

    def ends(self, name: str) -> tuple[str, str]:
        """Who sells a trade, and who buys it. Where one of the two isn't said, it is the one table that has it."""
        trade = self.trades[name]
        for firms, verb in ((trade.sellers, "sell"), (trade.buyers, "buy")):
            if len(firms) > 1:
                raise Trouble(f"{name}: {' and '.join(firms)} both {verb} it")
        known = [*trade.sellers, *trade.buyers]
        others = [firm for firm, own in self.tables.items() if name in own and firm not in known]
        if len(known) + len(others) != 2 or len(others) == 2:
            raise Trouble(f"{name}: {self.why_no_ends(trade, known, others, name)}")
        seller, buyer = (trade.sellers or others)[0], (trade.buyers or others)[0]
        if seller == buyer:
            raise Trouble(f"{name}: {seller} would sell it to itself")
        self.hold_own(name, seller, "sells")
        self.hold_own(name, buyer, "buys")
        return seller, buyer

    def hold_own(self, name: str, firm: str, verb: str) -> None:
        """Says where a firm doesn't know a trade of its own: it would have it for nothing, as often as it likes. To a table
        such a trade is impossible."""
        kind = self.firms.get(firm)
        if kind is None:
            raise Trouble(f"{name}: {firm} is no firm of the document")
        if firm not in self.tables and name not in (kind.sales if verb == "sells" else kind.purchases):
            raise Trouble(f"{name}: {firm} doesn't name it among what it {verb}")

    def why_no_ends(self, trade: Trade, known: list[str], others: list[str], name: str) -> str:
        """What is wrong with a trade that hasn't one seller and one buyer."""
        if len(others) == 2 and not known:
            return f"which of {others[0]} and {others[1]} sells it isn't said: trade({name!r}, seller, buyer) says it"
        if others and len(known) + len(others) > 2:
            return f"{', '.join([*known, *others])} have it, and a trade has two firms"
        if not known and not others:
            return "no firm has it"
        return f"no firm {'buys' if trade.sellers else 'sells'} it; {(known or others)[0]} has it"

    def needs(self, firms: Sequence[Json], units: int, has_units: bool, edits: int) -> Needs:
        """How large the network is."""
        own = {name: len(set(kind.own())) for name, kind in self.firms.items()}
        return Needs(len(own), len(self.trades),
                     max((count for name, count in own.items() if name not in self.tables), default=0),
                     max((len(trades) for trades in self.tables.values()), default=0), max(map(largest, firms), default=0),
                     max((len(firm.get("sets", ())) for firm in firms), default=0), units, has_units, edits)

    def parts(self, parts: Parts, has_units: bool) -> Iterator[tuple[str, Any]]:
        """The parts beside the network."""
        if parts.on is not None:
            codes = [(self.code(name), self.trades[name].units if count is None else count) for name, count in parts.on.items()]
            on: list[Any] = [list(entry) for entry in codes] if has_units else [code for code, count in codes if count]
            prices = {} if parts.prices is None else {"prices": self.entries(parts.prices, self.unit)}
            yield "arrangement", {"on": on, **prices}
        if parts.contracts is not None:
            over = math.lcm(*((price / self.unit).denominator for price in parts.contracts.values()))
            if over > MOST_OVER:
                raise Trouble(f"the prices that are signed are over {over}, and {MOST_OVER} is the most")
            yield "outcome", {"over": over, "contracts": self.entries(parts.contracts, self.unit / over)}
        if parts.edits is not None:
            yield "edits", [[deed, self.named(deed, name), *units] for deed, name, *units in parts.edits]

    def named(self, deed: str, name: str) -> str:
        """What an edit is of."""
        if deed not in FIRM_DEEDS:
            return name if name == ALL else self.code(name)
        if name not in self.names:
            raise Trouble(f"{name} is no firm of the document")
        return self.names[name]

    def entries(self, prices: Mapping[str, Fraction], unit: Fraction) -> list[list[Any]]:
        """Trades with their prices in units."""
        for name, price in prices.items():
            if price % unit != 0:
                raise Trouble(f"the price of {name}: {price} is no whole number of units of {unit}")
        return [[self.code(name), int(price / unit)] for name, price in prices.items()]

    def code(self, trade: str) -> str:
        """What a trade is called in the document."""
        if trade not in self.codes:
            raise Trouble(f"{trade} is no trade of the document")
        return self.codes[trade]


def noted(name: str, code: str) -> Json:
    """The name as a note, where it is another one in the document."""
    return {} if name == code else {"note": name}


def largest(firm: Json) -> int:
    """The largest number of a firm, in size."""
    entries = [entry[-1] for part in ("rows", "amounts", "costs", "gains", "pairs") for entry in firm.get(part, ())]
    values = [value for each in firm.get("sets", ()) for value in each.get("values", ())]
    steps = [step[1] for each in firm.get("sets", ()) for side in ("bought", "sold") for step in each.get(side, ())]
    return max((abs(number) for number in (*entries, *values, *steps, firm.get("keep", 0))), default=0)
