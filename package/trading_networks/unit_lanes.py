"""The document that firms and lanes make where trades have units: a trade for each lane, with as many units as may go by
it. It has version 4, which has room for large quantities."""
from __future__ import annotations

from dataclasses import dataclass, field, replace
from fractions import Fraction
from typing import Iterable, Mapping, Union

from . import kinds
from .kinds import Counted, Json, Laminar, Manner
from .lane_tables import MUST_BUY, Firm, Lane, Network
from .lanes import Built, Lot, LotSchedule, Sizes, build, kind_of, most_by, schedules_of
from .names import codes_of
from .shares import Shared, shared_sets
from .tables import Trouble, digits
from .versions import OF_UNITS, Needs
from .writing import largest

End = tuple[str, bool]
"""A firm, and whether it is the one that gets what goes by a lane."""


@dataclass(frozen=True)
class Whole:
    """A network in units: the schedules of its firms by their names, those of its lanes by their rows, the capacities that
    lanes share by the firms at which they are, and the lanes that end at each firm."""
    network: Network
    sizes: Sizes
    firms: Mapping[str, LotSchedule]
    lanes: Mapping[int, LotSchedule]
    shared: Mapping[str, list[Shared]]
    ends: dict[End, list[Lane]] = field(default_factory=dict)

    def __post_init__(self) -> None:
        if not self.ends:
            for lane in self.network.lanes:
                self.ends.setdefault((lane.source, False), []).append(lane)
                self.ends.setdefault((lane.target, True), []).append(lane)

    def units(self, lane: Lane) -> int:
        """How many units may go by a lane."""
        return most_by(lane, self.lanes[lane.row], self.firms)

    def lanes_of(self, name: str) -> Iterable[Lane]:
        """The lanes that end at a firm."""
        return (*self.ends.get((name, True), ()), *self.ends.get((name, False), ()))

    def firm(self, firm: Firm) -> Laminar:
        """What a firm is. Where what a lane costs rises from step to step, that is a set over the lane alone, at who sends."""
        sales, purchases = ([lane for lane in self.ends.get((firm.name, is_to), ()) if self.units(lane)]
                            for is_to in (False, True))
        rising = [lane for lane in sales if len(self.lanes[lane.row].steps) > 1]
        costs = {code_of(lane): Fraction(0 if lane in rising else self.lanes[lane.row].steps[0][1]) for lane in sales}
        kind = kind_of(firm, {code_of(lane): Fraction(0) for lane in purchases}, costs, self.firms[firm.name].limited())
        going = {lane.row for lane in (*sales, *purchases)}
        sets = [shared.counted(code_of, going) for shared in self.shared.get(firm.name, ())]
        sets += [Counted(sales=[code_of(lane)], sold=kinds.lost(self.lanes[lane.row].limited())) for lane in rising]
        return replace(kind, sets=[*kind.sets, *sets])


def code_of(lane: Lane) -> str:
    """The name of the trade of a lane."""
    return f"L{lane.row}"


def whole_of(network: Network, sizes: Sizes) -> Whole:
    """A network in units."""
    firms, lanes = schedules_of(network, sizes)
    return Whole(network, sizes, firms, {lane.row: schedule for lane, schedule in zip(network.lanes, lanes)},
                 shared_sets(network, sizes))


@dataclass(frozen=True)
class Parts:
    """What a document is made of: the firms as the format has them, by their names, and the trades, by the rows of lanes."""
    firms: Mapping[str, Json]
    trades: Mapping[int, Json]

    def document(self, whole: Whole, note: Json) -> Json:
        """The document, within the limits of its version."""
        firms = list(self.firms.values())
        trades = [self.trades[lane.row] for lane in whole.network.lanes if lane.row in self.trades]
        needs = Needs(len(firms), len(trades), 0, 0, max(map(largest, firms), default=0),
                      sum(len(firm["sets"]) for firm in firms), sum(trade["units"] for trade in trades), True)
        why_not = OF_UNITS.why_not(needs)
        if why_not is not None:
            raise Trouble(f"a document has no room for {why_not}{advice(needs, whole.sizes)}")
        return {"version": OF_UNITS.number, "note": note, "firms": firms, "trades": trades}


def advice(needs: Needs, sizes: Sizes) -> str:
    """What can be done where there are too many units."""
    if needs.units <= OF_UNITS.most_units:
        return ""
    return f": a unit is {digits(sizes.lot, 12)} here; write quantities in tens or in hundreds, or give the lanes capacities"


def parts_of(whole: Whole, codes: Mapping[str, str], firms: Iterable[Firm], lanes: Iterable[Lane]) -> Parts:
    """What some firms and lanes are in a document."""
    units = {lane.row: whole.units(lane) for lane in lanes}
    trades = {lane.row: {"name": code_of(lane), "seller": codes[lane.source], "buyer": codes[lane.target],
                         "units": units[lane.row], "note": str(lane)} for lane in lanes if units[lane.row]}
    return Parts({firm.name: written(whole, codes, firm) for firm in firms}, trades)


def written(whole: Whole, codes: Mapping[str, str], firm: Firm) -> Json:
    """A firm as the format has it."""
    own = {code_of(lane): whole.units(lane) for lane in whole.lanes_of(firm.name)}
    kind = whole.firm(firm).written(Manner(Fraction(1), {code: code for code in own}, own, True))
    return {"name": codes[firm.name], "kind": "laminar", "note": firm.name, "amounts": kind["amounts"], "sets": kind["sets"]}


@dataclass(frozen=True)
class Counting:
    """A network in units with its document, of which a wider one is made in little time."""
    whole: Whole
    codes: Mapping[str, str]
    parts: Parts
    note: Json

    def built(self) -> Built:
        """The document and what its names stand for."""
        lots = [Lot(code_of(lane), lane, self.whole.lanes[lane.row].steps[0][1], self.whole.lanes[lane.row])
                for lane in self.whole.network.lanes if lane.row in self.parts.trades]
        return Built(self.parts.document(self.whole, self.note), lots, dict(self.codes), self.whole.sizes)

    def wider(self, part: Union[Firm, Lane, Shared], more: int) -> Json:
        """The document where a firm, a lane or a shared capacity has so many more units, which cost as much as the last."""
        if isinstance(part, Firm):
            whole = replace(self.whole, firms={**self.whole.firms, part.name: with_more(self.whole.firms[part.name], more)})
            lanes = list(whole.lanes_of(part.name))
        elif isinstance(part, Lane):
            whole = replace(self.whole, lanes={**self.whole.lanes, part.row: with_more(self.whole.lanes[part.row], more)})
            lanes = [part]
        else:
            shared = [replace(each, most=each.most + more) if each is part else each for each in self.whole.shared[part.firm]]
            whole, lanes = replace(self.whole, shared={**self.whole.shared, part.firm: shared}), list(part.lanes)
        names = dict.fromkeys(end for lane in lanes for end in (lane.source, lane.target))
        changed = parts_of(whole, self.codes, [whole.network.by_name[name] for name in names], lanes)
        parts = Parts({**self.parts.firms, **changed.firms}, {**self.parts.trades, **changed.trades})
        return parts.document(whole, self.note)


def with_more(schedule: LotSchedule, more: int) -> LotSchedule:
    """A schedule with so many more units, which cost as much as the last one."""
    return replace(schedule, capacity=None if schedule.capacity is None else schedule.capacity + more)


def counting(network: Network, sizes: Sizes) -> Counting:
    """A network in units with its document."""
    whole = whole_of(network, sizes)
    codes = codes_of(((firm.name, firm.row) for firm in network.firms), "firm")
    return Counting(whole, codes, parts_of(whole, codes, network.firms, network.lanes), {**sizes.note(), **worth_note(whole)})


def worth_note(whole: Whole) -> Json:
    """What a unit is worth to firms that must buy, where there are such."""
    served = next((firm for firm in whole.network.firms if firm.role == MUST_BUY), None)
    if served is None:
        return {}
    return {"worth": digits(worth_of(whole, served), 12)}


def worth_of(whole: Whole, firm: Firm) -> Fraction:
    """What a unit of quantity is worth to a firm in its first step, in money."""
    return whole.firms[firm.name].steps[0][1] * whole.sizes.unit / whole.sizes.lot


def build_with_units(network: Network, sizes: Sizes) -> Built:
    """The document of a network, within the limits of version 4."""
    return counting(network, sizes).built()


def made(network: Network, sizes: Sizes) -> Built:
    """The document of a network in lots, or in units where the sizes say so."""
    return build_with_units(network, sizes) if sizes.has_units else build(network, sizes)


def made_or_why(network: Network, sizes: Sizes) -> Union[Built, str]:
    """The document of a network, or why there is none."""
    try:
        return made(network, sizes)
    except Trouble as trouble:
        return str(trouble)
