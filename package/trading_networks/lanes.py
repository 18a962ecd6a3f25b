"""The document that firms and lanes make: every quantity in lots, every amount in whole units of money.

A lane is as many trades between its ends as lots may go by it, and whoever sends a lot pays what the lane costs. Every
firm is a laminar one: what sells or buys has one set over its trades; what makes or passes on has a set over all of
them, in which as much goes out as comes in, and within it a set over its purchases. What a lot costs is a whole number
of units before anything is added to it, so that costs that rise from step to step still do.
"""
from __future__ import annotations

import math
from dataclasses import dataclass
from fractions import Fraction
from typing import Any, Iterable, Iterator, Mapping, Optional, Union

from . import kinds
from .kinds import Json, Manner, Steps
from .lane_tables import BUYS, MUST_BUY, SELLS, Firm, Lane, Network, Schedule, each
from .names import codes_of
from .tables import Measure, Trouble, digits, raise_all
from .versions import OF_LOTS, Version, version_of_lots

LARGE = OF_LOTS[-1]


@dataclass(frozen=True)
class Sizes:
    """How much a lot is, and a unit of money; where `is_rounded`, what a lot costs is rounded to whole units. Where trades
    have units, a lot is one of them."""
    lot: Fraction
    unit: Fraction
    is_rounded: bool = False
    has_units: bool = False

    def lots(self, quantity: Measure) -> int:
        lots = quantity.value / self.lot
        if lots.denominator != 1:
            raise Trouble(f"{quantity.place}: {digits(quantity.value)} is no whole number of lots of "
                          f"{digits(self.lot)}")
        return int(lots)

    def amount(self, rate: Measure) -> int:
        """What a lot costs, or is worth, in units."""
        amount = rate.value * self.lot / self.unit
        if self.is_rounded:
            return math.floor(amount + Fraction(1, 2))  # (a greater amount is never rounded to a lesser one)
        if amount.denominator != 1:
            raise Trouble(f"{rate.place}: {digits(rate.value)} for each of {digits(self.lot)} is "
                          f"{digits(amount * self.unit)}, no whole number of {digits(self.unit)}: "
                          "take a smaller --unit, or --round")
        return int(amount)

    def note(self) -> Json:
        return {"lot": digits(self.lot, 12), "unit": digits(self.unit, 12), "rounded": self.is_rounded}


@dataclass(frozen=True)
class LotSchedule:
    """A schedule in lots and units: `steps` has the lots of each step, none for the last, and what one lot costs."""
    capacity: Optional[int]
    steps: tuple[tuple[Optional[int], int], ...]

    def amounts(self, count: int) -> list[int]:
        """What each of the first lots costs."""
        listed: list[int] = []
        for lots, amount in self.steps:
            left = count - len(listed)
            listed += [amount] * (left if lots is None else min(lots, left))
        return listed

    def cost(self, count: int) -> int:
        """What the first lots cost together."""
        total = 0
        for lots, amount in self.steps:
            taken = count if lots is None else min(lots, count)
            total, count = total + taken * amount, count - taken
        return total

    def limited(self) -> Steps:
        """The steps up to the capacity."""
        return kinds.up_to(self.capacity, [(lots, Fraction(amount)) for lots, amount in self.steps])


@dataclass(frozen=True)
class Lot:
    """A lot that may go by a lane: a trade of the document, with what it costs. Where trades have units it is all lots of
    the lane, with what the first one costs."""
    code: str
    lane: Lane
    cost: int
    schedule: Optional[LotSchedule] = None

    def freight(self, count: int) -> int:
        """What so many of it cost together."""
        return count * self.cost if self.schedule is None else self.schedule.cost(count)


@dataclass(frozen=True)
class Built:
    """A document and what its codes stand for."""
    document: Json
    lots: list[Lot]
    codes: dict[str, str]
    sizes: Sizes


def sizes_of(networks: Iterable[Network], lot: Optional[Fraction], unit: Optional[Fraction], is_rounded: bool) -> Sizes:
    """The sizes that are given; otherwise the largest lot of which all quantities are whole numbers, and the largest of
    1, 0.1, 0.01 and so on of which all that a lot costs is."""
    networks = list(networks)
    quantities = [measure.value for network in networks for measure in network.quantities() if measure.value]
    lot = lot or common_part(quantities) or Fraction(1)
    return Sizes(lot, unit or unit_for(networks, lot), is_rounded)


def sizes_in_units(networks: Iterable[Network], unit: Optional[Fraction], is_rounded: bool) -> Sizes:
    """Sizes where trades have units: the largest of 1, 0.1, 0.01 and so on of which all quantities are whole numbers, and
    the unit of money that is given, or found in the same way."""
    networks = list(networks)
    lot = decimal_part(measure.value for network in networks for measure in network.quantities())
    return Sizes(lot, unit or unit_for(networks, lot), is_rounded, True)


def unit_for(networks: Iterable[Network], lot: Fraction) -> Fraction:
    """The unit of money of which all that a lot costs is a whole number."""
    return decimal_part(step.rate.value * lot for network in networks for schedule in network.schedules()
                        for step in schedule.steps)


def decimal_part(amounts: Iterable[Fraction]) -> Fraction:
    """The largest of 1, 0.1, 0.01 and so on, to nine digits, of which all are whole numbers; otherwise 0.01."""
    denominator = math.lcm(*{amount.denominator for amount in amounts})
    return Fraction(1, 10 ** next((k for k in range(10) if 10 ** k % denominator == 0), 2))


def common_part(values: list[Fraction]) -> Fraction:
    """The greatest number of which all these are whole multiples."""
    scale = math.lcm(*(value.denominator for value in values))
    return Fraction(math.gcd(*(int(value * scale) for value in values)), scale)


def in_lots(schedule: Schedule, sizes: Sizes, is_value: bool) -> LotSchedule:
    """A schedule in lots; a cost that falls from step to step, and a value that rises, can't be said."""
    capacity = None if schedule.capacity is None else sizes.lots(schedule.capacity)
    steps = [(None if step.quantity is None else sizes.lots(step.quantity), sizes.amount(step.rate))
             for step in schedule.steps]
    for (_, before), (_, after), step in zip(steps, steps[1:], schedule.steps[1:]):
        if after > before if is_value else after < before:
            what = "what a unit is worth rises" if is_value else "the cost of a unit falls"
            raise Trouble(f"{step.rate.place}: {what} from the step before, which can't be said")
    return LotSchedule(capacity, tuple(steps))


def schedules_of(network: Network, sizes: Sizes) -> tuple[dict[str, LotSchedule], list[LotSchedule]]:
    """The schedules of the firms, by their names, and of the lanes, in lots; what can't be said of them is told together."""
    if len(network.firms) > LARGE.most:
        raise Trouble(f"{network.firms[LARGE.most].place}: a document has at most {LARGE.most} firms")
    troubles: list[str] = []
    firm_schedules = each(network.firms, lambda firm: in_lots(firm.schedule, sizes, firm.role == BUYS), troubles)
    lane_schedules = each(network.lanes, lambda lane: in_lots(lane.schedule, sizes, False), troubles)
    raise_all(troubles)
    schedules = {firm.name: schedule for firm, schedule in zip(network.firms, firm_schedules)}
    served = [firm.name for firm in network.firms if firm.role == MUST_BUY]
    if served:
        worth = worth_of_serving(network, schedules, lane_schedules)
        schedules.update((name, LotSchedule(schedules[name].capacity, ((None, worth),))) for name in served)
    return schedules, lane_schedules


def worth_of_serving(network: Network, schedules: Mapping[str, LotSchedule], lane_schedules: list[LotSchedule]) -> int:
    """What a lot is worth to a firm that must buy: more than it may cost to send it there, what others lose by it
    included, but no more than a document has room for.

    A lot comes there by a way that enters and leaves each firm at most once, and costs there no more than the firm itself,
    the dearest lane to it and the dearest one from it.
    """
    by_end: dict[tuple[str, bool], int] = {}
    for lane, schedule in zip(network.lanes, lane_schedules):
        for end in ((lane.source, False), (lane.target, True)):
            by_end[end] = max(by_end.get(end, 0), dearest_of(schedule))
    return min(1 + sum(map(dearest_of, schedules.values())) + sum(by_end.values()), LARGE.largest)


def dearest_of(schedule: LotSchedule) -> int:
    """The largest amount of a schedule."""
    return max(abs(amount) for _, amount in schedule.steps)


def build(network: Network, sizes: Sizes) -> Built:
    """The document of a network, within the limits of documents."""
    shared = next((lane for lane in network.lanes if lane.shares), None)
    if shared is not None:
        raise Trouble(f"{shared.place} (shared): a capacity that lanes share can't be said in lots")
    schedules, lane_schedules = schedules_of(network, sizes)
    codes = codes_of(((firm.name, firm.row) for firm in network.firms), "firm")
    lots = [lot for lane, schedule in zip(network.lanes, lane_schedules) for lot in lots_of(lane, schedule, schedules)]
    version = version_of_lots(max(len(network.firms), len(lots)), most_own(lots))
    for lot in lots:
        hold_small(lot.cost, version, lot.lane.place)
    document = {
        "version": version.number,
        "note": sizes.note(),
        "firms": list(written_firms(network, codes, schedules, lots, version)),
        "trades": [{"name": lot.code, "seller": codes[lot.lane.source], "buyer": codes[lot.lane.target],
                    "note": str(lot.lane)} for lot in lots],
    }
    return Built(document, lots, codes, sizes)


def built_or_why(network: Network, sizes: Sizes) -> Union[Built, str]:
    """The document of a network, or why there is none."""
    try:
        return build(network, sizes)
    except Trouble as trouble:
        return str(trouble)


def most_by(lane: Lane, schedule: LotSchedule, schedules: Mapping[str, LotSchedule]) -> int:
    """How many lots may go by the lane, but no more than one above what either of its firms could send or take.

    That one stays off, and at its price nobody wants a further lot; those after it would hold no other price.
    """
    ends = (schedules[lane.source].capacity, schedules[lane.target].capacity)
    bounds = [schedule.capacity, *(None if capacity is None else capacity + 1 for capacity in ends)]
    count = min((bound for bound in bounds if bound is not None), default=None)
    if count is None:
        raise Trouble(f"{lane.place}: neither this lane nor a firm at its ends has a capacity")
    return count


def lots_of(lane: Lane, schedule: LotSchedule, schedules: dict[str, LotSchedule]) -> Iterator[Lot]:
    """The lots that may go by the lane, each with what it costs."""
    count = most_by(lane, schedule, schedules)
    if count > LARGE.most_own:
        raise Trouble(f"{lane.place}: {count} lots may go by this lane, and a firm has at most {LARGE.most_own}: "
                      "take a larger --lot, or a smaller capacity")
    for k, cost in enumerate(schedule.amounts(count), 1):
        yield Lot(f"L{lane.row}.{k}", lane, cost)


def most_own(lots: list[Lot]) -> int:
    """The most lots of a firm; says by which lane there are too many, of a firm or of all."""
    own: dict[str, int] = {}
    for k, lot in enumerate(lots, 1):
        if k > LARGE.most:
            raise Trouble(f"{lot.lane.place}: with this lane there are more than {LARGE.most} lots that may go by a "
                          "lane, which is the most: take a larger --lot, or smaller capacities of lanes")
        for firm in (lot.lane.source, lot.lane.target):
            own[firm] = own.get(firm, 0) + 1
            if own[firm] > LARGE.most_own:
                raise Trouble(f"{lot.lane.place}: with this lane {firm} has more than {LARGE.most_own} lots that may "
                              "come or go, which is the most of a firm: take a larger --lot, or smaller capacities of "
                              "its lanes")
    return max(own.values(), default=0)


def written_firms(network: Network, codes: Mapping[str, str], schedules: Mapping[str, LotSchedule], lots: list[Lot],
                  version: Version) -> Iterator[Json]:
    """Each firm as the format has it."""
    manner = Manner(Fraction(1), {lot.code: lot.code for lot in lots}, {lot.code: 1 for lot in lots}, False)
    sales: dict[str, dict[str, Fraction]] = {firm.name: {} for firm in network.firms}
    purchases: dict[str, dict[str, Fraction]] = {firm.name: {} for firm in network.firms}
    for lot in lots:
        sales[lot.lane.source][lot.code] = Fraction(lot.cost)
        purchases[lot.lane.target][lot.code] = Fraction(0)
    for firm in network.firms:
        kind = kind_of(firm, purchases[firm.name], sales[firm.name], schedules[firm.name].limited())
        written = kind.written(manner)
        for part in written["sets"]:
            for value in part["values"][::-1 if part["from"] < 0 else 1]:
                hold_small(value, version, firm.place)
        yield {"name": codes[firm.name], "kind": written["kind"], "note": firm.name, "amounts": written["amounts"],
               "sets": written["sets"]}


def kind_of(firm: Firm, purchases: kinds.Amounts, sales: kinds.Amounts, steps: Steps) -> kinds.Laminar:
    """What a firm of a role is; whoever sends a lot pays what its lane costs."""
    if firm.role == SELLS:
        return kinds.seller(sales, steps)
    return kinds.buyer(purchases, steps) if firm.role in (BUYS, MUST_BUY) else kinds.maker(purchases, sales, steps)


def hold_small(amount: int, version: Version, place: str) -> None:
    """Says where a number is larger than the version allows."""
    if abs(amount) <= version.largest:
        return
    few, where, advice = OF_LOTS[-2], "", "take a larger --unit"
    if version is LARGE:
        where = f" where there are more than {few.most} firms or lots, or more than {few.most_own} lots at a firm"
        advice += ", or a larger --lot, so that there are fewer"
    raise Trouble(f"{place}: this comes to {amount} units of money, and {version.largest} is the most{where}: {advice}")


def table_of_codes(built: Built) -> Iterator[tuple[Any, ...]]:
    """What each code of the document stands for."""
    yield "code", "firm", "from", "to", "good", "by", "cost of a lot"
    for name, code in built.codes.items():
        yield code, name, None, None, None, None, None
    for lot in built.lots:
        yield lot.code, None, *lot.lane.name, lot.cost * built.sizes.unit
