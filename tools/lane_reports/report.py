"""What answers say of firms and lanes, as tables in the quantities and the money of their tables.

Prices, surpluses and what firms keep are those of the program's answers. Here they are looked up, put in other units
and added.
"""
from __future__ import annotations

from dataclasses import dataclass, replace
from fractions import Fraction
from functools import cached_property
from typing import Iterable, Iterator, Mapping, Optional, Union

from trading_networks.lane_tables import SELLS, Firm, Lane, Network, Schedule
from trading_networks.lanes import Built, Lot, Sizes, built_or_why
from trading_networks.tables import Trouble
from trading_networks.unit_lanes import made
from trading_networks.versions import OF_UNITS

from .program import Program

LANE_HEAD = ("from", "to", "good", "by", "capacity", "flow", "price from", "price to", "lowest", "highest", "freight",
             "paid")
UNIT_HEAD = tuple("price" if name == "price from" else name for name in LANE_HEAD if name != "price to")
FIRM_HEAD = ("firm", "role", "capacity", "bought", "sold", "worth", "paid", "received", "kept", "paid at lowest",
             "received at lowest", "kept at lowest", "paid at highest", "received at highest", "kept at highest")
CAPACITY_HEAD = ("firm", "from", "to", "good", "by", "capacity", "used", "one more lot brings", "remark")


@dataclass(frozen=True)
class Prices:
    """A price for each trade, in units for a lot; none where there is no bound."""
    of: dict[str, Optional[int]]

    def are_all_there(self) -> bool:
        return None not in self.of.values()


Going = list[tuple[Lot, int]]
"""What goes: lots, or trades with how many of their units."""


@dataclass(frozen=True)
class Standing:
    """An equilibrium of a document: which lots go, or how many units of which trades, what all bring together, and the
    prices; and, where `range` was asked, the lowest and the highest ones."""
    built: Built
    on: Mapping[str, int]
    surplus: int
    prices: Prices
    lowest: Optional[Prices] = None
    highest: Optional[Prices] = None

    def money(self, units: int) -> Fraction:
        return units * self.built.sizes.unit

    def quantity(self, lots: int) -> Fraction:
        return lots * self.built.sizes.lot

    def going(self, lots: Iterable[Lot]) -> Going:
        return [(lot, self.on[lot.code]) for lot in lots if self.on.get(lot.code)]

    def lots_of(self, lane: Lane) -> list[Lot]:
        return self._by_lane.get(lane.name, [])

    def flow(self, lane: Lane) -> Fraction:
        """How much goes by a lane."""
        return self.quantity(count_of(self.going(self.lots_of(lane))))

    def sides(self, firm: Firm) -> tuple[Going, Going]:
        """What the firm buys, and what it sells."""
        bought, sold = (self._by_end.get((firm.name, is_to), []) for is_to in (True, False))
        return bought, sold

    def used(self, firm: Firm) -> Fraction:
        """How much of a firm's capacity is used."""
        bought, sold = self.sides(firm)
        return self.quantity(count_of(sold if firm.role == SELLS else bought))

    @cached_property
    def _by_lane(self) -> dict[tuple, list[Lot]]:
        by_lane: dict[tuple, list[Lot]] = {}
        for lot in self.built.lots:
            by_lane.setdefault(lot.lane.name, []).append(lot)
        return by_lane

    @cached_property
    def _by_end(self) -> dict[tuple[str, bool], Going]:
        by_end: dict[tuple[str, bool], Going] = {}
        for lot, count in self.going(self.built.lots):
            by_end.setdefault((lot.lane.source, False), []).append((lot, count))
            by_end.setdefault((lot.lane.target, True), []).append((lot, count))
        return by_end


def count_of(going: Going) -> int:
    return sum(count for _, count in going)


def sizes_in(document: dict) -> Sizes:
    """The sizes of a document that `build` made, which its note keeps."""
    try:
        note = document["note"]
        return Sizes(Fraction(note["lot"]), Fraction(note["unit"]), note["rounded"],
                     document.get("version") == OF_UNITS.number)
    except (TypeError, KeyError, ValueError):
        raise Trouble("the document has no note of its lot and its unit: it isn't one of tools/lanes") from None


def built_again(network: Network, document: dict) -> Built:
    """What the codes of a document stand for, which has to be that of the tables."""
    built = made(network, sizes_in(document))
    if any(built.document[part] != document.get(part) for part in ("firms", "trades")):
        raise Trouble("the document is not that of these tables: make it again")
    return built


def solved(built: Built, answer: dict) -> Standing:
    """An answer of `solve`, which has to be one to the document."""
    codes = {lot.code for lot in built.lots}
    try:
        on, prices, surplus = counts_in(answer["on"]), dict(answer["prices"]), answer["surplus"]
    except (TypeError, KeyError, ValueError):
        raise Trouble("this is no answer of solve") from None
    if set(prices) != codes or not codes.issuperset(on):
        raise Trouble("the answer of solve is one to another document")
    return Standing(built, on, surplus, Prices(prices))


def counts_in(on: list[Union[str, list]]) -> dict[str, int]:
    """How many units of each trade go, in an answer: a trade that is alone has one."""
    return dict((entry, 1) if isinstance(entry, str) else (entry[0], entry[1]) for entry in on)


def with_ranges(standing: Standing, answer: dict) -> Standing:
    lowest, highest = ({bounds["trade"]: bounds[side] for bounds in answer["ranges"]} for side in ("low", "high"))
    if set(lowest) != set(standing.prices.of):
        raise Trouble("the answer of range is one to another document")
    return replace(standing, lowest=Prices(lowest), highest=Prices(highest))


def lane_table(standing: Standing, lanes: Iterable[Lane]) -> Iterator[tuple]:
    """What goes by each lane, and the price for a unit; in lots from that of the cheapest lot to that of the dearest."""
    yield UNIT_HEAD if standing.built.sizes.has_units else LANE_HEAD
    for lane in lanes:
        capacity = lane.schedule.capacity and lane.schedule.capacity.value
        yield (*lane.name, capacity, *lane_cells(standing, lane))


def lane_cells(standing: Standing, lane: Lane) -> tuple:
    lots = standing.lots_of(lane)
    going = standing.going(lots)
    shown = [lot for lot, _ in going] or lots
    of_unit = standing.built.sizes.unit / standing.built.sizes.lot
    prices = bounds_of(standing.prices, shown)[standing.built.sizes.has_units:]
    ranges = bounds_of(standing.lowest, shown)[0], bounds_of(standing.highest, shown)[1]
    for_unit = [price if price is None else price * of_unit for price in (*prices, *ranges)]
    freight, paid = sum(lot.freight(count) for lot, count in going), paid_for(going, standing.prices)
    return standing.flow(lane), *for_unit, standing.money(freight), standing.money(paid)


def paid_for(going: Going, prices: Prices) -> int:
    """What is paid for all that goes."""
    return sum(count * prices.of[lot.code] for lot, count in going)


def bounds_of(prices: Optional[Prices], lots: list[Lot]) -> tuple[Optional[int], Optional[int]]:
    listed = [prices.of[lot.code] for lot in lots] if prices else []
    return (min(listed), max(listed)) if listed and None not in listed else (None, None)


def firm_table(standing: Standing, firms: list[Firm], program: Program) -> Iterator[tuple]:
    """What each firm buys, sells and keeps at the answer's prices, at all lowest and at all highest ones."""
    return firm_rows(standing, firms, worths_of(standing, program))


def worths_of(standing: Standing, program: Program) -> list[int]:
    """What each firm has before any price is paid, as `firms` says; all have to be content."""
    answer = program.run("firms", with_arrangement(standing, standing.prices))
    return [firm["worth"] for firm in content_firms(answer)]


def firm_rows(standing: Standing, firms: list[Firm], worths: list[int]) -> Iterator[tuple]:
    yield FIRM_HEAD
    for firm, worth in zip(firms, worths):
        bought, sold = standing.sides(firm)
        capacity = firm.schedule.capacity and firm.schedule.capacity.value
        cells = [cell for prices in (standing.prices, standing.lowest, standing.highest)
                 for cell in money_cells(standing, prices, worth, bought, sold)]
        yield (firm.name, firm.role, capacity, standing.quantity(count_of(bought)), standing.quantity(count_of(sold)),
               standing.money(worth), *cells)


def with_arrangement(standing: Standing, prices: Prices) -> dict:
    """The document with the trades that are on, or with so many units of them, at these prices."""
    has_units = standing.built.sizes.has_units
    on = [[lot.code, count] if has_units else lot.code for lot, count in standing.going(standing.built.lots)]
    return {**standing.built.document, "arrangement": {"on": on, "prices": list(prices.of.items())}}


def content_firms(answer: dict) -> list[dict]:
    """What an answer of `firms` says of each; all have to be content."""
    unhappy = [firm["firm"] for firm in answer["firms"] if firm["gain"] != 0]
    if unhappy:
        raise Trouble(f"the answer is no equilibrium of this document: {unhappy[0]} would do better")
    return answer["firms"]


def money_cells(standing: Standing, prices: Optional[Prices], worth: int, bought: Going, sold: Going) -> tuple:
    """What is paid and received at prices, and what is kept: the worth and what is received, less what is paid."""
    if prices is None or not prices.are_all_there():
        return None, None, None
    paid, received = (paid_for(going, prices) for going in (bought, sold))
    return standing.money(paid), standing.money(received), standing.money(worth + received - paid)


def capacity_table(standing: Standing, network: Network, program: Program) -> Iterator[tuple]:
    """What one more lot of each capacity would bring to all together, as `solve` says of the document with it."""
    yield CAPACITY_HEAD
    rows = [(cells, built_or_why(wider, standing.built.sizes)) for cells, wider in wider_networks(standing, network)]
    same = standing.built.document  # (where something else limits it)
    answers = program.ask_each("solve", (built.document for _, built in rows
                                         if isinstance(built, Built) and built.document != same))
    for cells, built in rows:
        if isinstance(built, str):
            yield (*cells, None, built)
        else:
            surplus = standing.surplus if built.document == same else next(answers)["surplus"]
            yield (*cells, standing.money(surplus - standing.surplus), None)


def wider_networks(standing: Standing, network: Network) -> Iterator[tuple[tuple, Network]]:
    """For each capacity the cells of its row, and the network with one more lot of it."""
    lot = standing.built.sizes.lot
    for firm in network.firms:
        if firm.schedule.capacity:
            wider = replace(firm, schedule=with_more(firm.schedule, lot))
            yield ((firm.name, None, None, None, None, firm.schedule.capacity.value, standing.used(firm)),
                   Network([wider if each is firm else each for each in network.firms], network.lanes))
    for lane in network.lanes:
        if lane.schedule.capacity:
            wider = replace(lane, schedule=with_more(lane.schedule, lot))
            yield ((None, *lane.name, lane.schedule.capacity.value, standing.flow(lane)),
                   Network(network.firms, [wider if each is lane else each for each in network.lanes]))


def with_more(schedule: Schedule, lot: Fraction) -> Schedule:
    """A schedule with one more lot, which costs as much as the last one."""
    return replace(schedule, capacity=schedule.capacity.with_value(schedule.capacity.value + lot))
