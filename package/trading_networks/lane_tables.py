"""Firms and lanes as two tables have them, in their own quantities and money."""
from __future__ import annotations

import re
from dataclasses import dataclass, field, replace
from fractions import Fraction
from typing import Callable, Iterable, Iterator, Optional, TypeVar

from .tables import STEPS, Cell, Measure, Row, Table, Trouble, digits, raise_all

Part = TypeVar("Part")
Read = TypeVar("Read")
SELLS, MAKES, PASSES_ON, BUYS, MUST_BUY = ROLES = ("sells", "makes", "passes on", "buys", "must buy")
EXPLAINED = "#"  # a row that begins with it isn't read
FIRM_COLUMNS = re.compile(rf"firm|role|capacity|{STEPS}|inputs|outputs|note")
LANE_COLUMNS = re.compile(rf"from|to|good|by|capacity|{STEPS}|shared|note")
SHARED = re.compile(r"(.*\S) ?= ?(\S.*)")


@dataclass(frozen=True)
class Step:
    """What a unit costs, or is worth, for as much as `quantity`; the last step has none and goes on."""
    quantity: Optional[Measure]
    rate: Measure


@dataclass(frozen=True)
class Schedule:
    """How much there may be at most, where that is said, and what a unit costs or is worth, step by step."""
    capacity: Optional[Measure]
    steps: tuple[Step, ...]


@dataclass(frozen=True)
class Firm:
    name: str
    role: str
    schedule: Schedule
    row: int
    place: str
    inputs: frozenset[str] = frozenset()
    outputs: frozenset[str] = frozenset()


@dataclass(frozen=True)
class Share:
    """A capacity that a lane has together with others: its name and how much goes by all of them."""
    name: str
    most: Measure


@dataclass(frozen=True)
class Lane:
    """A way from a firm to another; `good` and `by` tell lanes between the same two apart."""
    source: str
    target: str
    good: str
    by: str
    schedule: Schedule
    row: int
    place: str
    shares: tuple[Share, ...] = ()

    @property
    def name(self) -> tuple[str, str, str, str]:
        return self.source, self.target, self.good, self.by

    def __str__(self) -> str:
        more = ", ".join(filter(None, (self.good, self.by)))
        return f"{self.source} to {self.target}" + (f" ({more})" if more else "")


@dataclass(frozen=True)
class Network:
    firms: list[Firm]
    lanes: list[Lane]
    by_name: dict[str, Firm] = field(default_factory=dict)

    def __post_init__(self) -> None:
        self.by_name.update((firm.name, firm) for firm in self.firms)

    def schedules(self) -> Iterator[Schedule]:
        yield from (firm.schedule for firm in self.firms)
        yield from (lane.schedule for lane in self.lanes)

    def quantities(self) -> Iterator[Measure]:
        """All quantities that are said."""
        for schedule in self.schedules():
            yield from filter(None, (schedule.capacity, *(step.quantity for step in schedule.steps)))
        yield from (share.most for lane in self.lanes for share in lane.shares)


Named = TypeVar("Named", Firm, Lane)


def network_of(firms: Table, lanes: Table) -> Network:
    """Reads both tables; the first troubles of them are told together."""
    troubles: list[str] = []
    read_firms = each((row for row in firms.rows if not row["firm"].text.startswith(EXPLAINED)), firm_of, troubles)
    read_lanes = each((row for row in lanes.rows if not row["from"].text.startswith(EXPLAINED)), lane_of, troubles)
    same_names(read_firms, lambda firm: firm.name, troubles)
    same_names(read_lanes, lambda lane: lane.name, troubles)
    network = Network(read_firms, read_lanes)
    if not troubles:  # (a firm that couldn't be read would be missed at each of its lanes)
        for lane in read_lanes:
            troubles.extend(lane_troubles(network, lane))
        troubles.extend(good_troubles(network))
    raise_all(troubles)
    return network


def each(parts: Iterable[Part], read: Callable[[Part], Read], troubles: list[str]) -> list[Read]:
    """What is read of each part, where nothing is wrong with it."""
    found = []
    for part in parts:
        try:
            found.append(read(part))
        except Trouble as trouble:
            troubles.append(str(trouble))
    return found


def same_names(parts: list[Named], name_of: Callable[[Named], object], troubles: list[str]) -> None:
    seen: dict[object, int] = {}
    for part in parts:
        name = name_of(part)
        if name in seen:
            troubles.append(f"{part.place}: this is named in row {seen[name]} already")
        seen.setdefault(name, part.row)


def firm_of(row: Row) -> Firm:
    name = wanted(row["firm"], "a firm needs a name")
    role = wanted(row["role"], f"a role is one of {', '.join(ROLES)}").lower()
    if name == "*":
        raise row["firm"].trouble("* stands for all firms, and is no name")
    if role not in ROLES:
        raise row["role"].trouble(f"{row['role'].text} is none of {', '.join(ROLES)}")
    schedule = schedule_of(row)
    if role == BUYS and not row["at 1"].text:
        raise row["at 1"].trouble("it isn't said what a unit is worth to it")
    if role == MUST_BUY and (schedule.capacity is None or row["at 1"].text):
        raise row["capacity"].trouble("a firm that must buy has a capacity, and what a unit is worth to it is found")
    return Firm(name, role, schedule, row.number, row.place, goods_of(row["inputs"]), goods_of(row["outputs"]))


def lane_of(row: Row) -> Lane:
    source, target = (wanted(row[column], "a lane goes from a firm to a firm") for column in ("from", "to"))
    schedule = schedule_of(row)
    return Lane(source, target, row["good"].text, row["by"].text, schedule, row.number, row.place, shares_of(row["shared"]))


def shares_of(cell: Cell) -> tuple[Share, ...]:
    """Capacities that lanes share, with | between them: each a name and how much."""
    shares = []
    for text in filter(None, map(str.strip, cell.text.split("|"))):
        share = SHARED.fullmatch(text)
        if share is None:
            raise cell.trouble(f"{text} is no name with a capacity, such as North gate = 200")
        shares.append(Share(share[1], Measure(cell.read(share[2]), cell.place)))
    return tuple(shares)


def wanted(cell: Cell, what: str) -> str:
    if not cell.text:
        raise cell.trouble(f"nothing stands here; {what}")
    return cell.text


def goods_of(cell: Cell) -> frozenset[str]:
    """Goods that are listed with | between them: any of them will do."""
    goods = [good.strip() for good in cell.text.split("|") if good.strip()]
    for good in goods:
        if good[0].isdigit():
            raise cell.trouble(f"{good}: one lot is made of one lot, so a good has no number")
    return frozenset(goods)


def schedule_of(row: Row) -> Schedule:
    """The capacity and the steps of a firm or of a lane. Where no capacity is said, the quantities of the steps make
    it, if all have one."""
    capacity, steps = not_negative(row["capacity"]), []
    count = max([int(name.split()[1]) for name in row.cells if name[:2] in ("qu", "at") and row[name].text], default=0)
    for k in range(1, count + 1):
        quantity, rate = not_negative(row[f"quantity {k}"]), row[f"at {k}"].number()
        if rate is None:
            if quantity is not None or k > 1:
                raise row[f"at {k}"].trouble(f"step {k} has no amount for a unit")
            rate = Measure(Fraction(0), row[f"at {k}"].place)
        if quantity is None and k < count:
            raise row[f"quantity {k}"].trouble(f"nothing stands here, and step {k + 1} comes after it")
        steps.append(Step(quantity, rate))
    return bounded(capacity, steps or [Step(None, Measure(Fraction(0), row.place))])


def bounded(capacity: Optional[Measure], steps: list[Step]) -> Schedule:
    last = steps[-1]
    if last.quantity is not None:
        total = sum((step.quantity.value for step in steps if step.quantity), Fraction(0))
        if capacity is None:
            capacity = last.quantity.with_value(total)
        elif capacity.value > total:
            raise Trouble(f"{capacity.place}: the steps end at {digits(total)}, before {digits(capacity.value)}; "
                          "the last step goes on where its quantity is left empty")
    return Schedule(capacity, (*steps[:-1], replace(last, quantity=None)))


def not_negative(cell: Cell) -> Optional[Measure]:
    number = cell.number()
    if number is not None and number.value < 0:
        raise cell.trouble(f"{cell.text} is below 0")
    return number


def lane_troubles(network: Network, lane: Lane) -> Iterator[str]:
    for end, column, roles in ((lane.source, "from", (BUYS, MUST_BUY)), (lane.target, "to", (SELLS,))):
        firm = network.by_name.get(end)
        if firm is None:
            yield f"{lane.place} ({column}): {end} is no firm of the other table"
        elif firm.role in roles:
            yield f"{lane.place} ({column}): {end} only {'buys' if firm.role == MUST_BUY else firm.role}"
    if lane.source == lane.target:
        yield f"{lane.place}: this lane goes from {lane.source} to itself"


def good_troubles(network: Network) -> Iterator[str]:
    """Lanes with goods that their firms don't take or give; a firm that passes on has one good."""
    passed: dict[str, Lane] = {}
    for lane in network.lanes:
        ends = network.by_name.get(lane.source), network.by_name.get(lane.target)
        for firm, goods, verb in ((ends[0], "outputs", "give"), (ends[1], "inputs", "take")):
            if firm is None:
                continue
            if getattr(firm, goods) and lane.good not in getattr(firm, goods):
                yield f"{lane.place} (good): {firm.name} doesn't {verb} {lane.good or 'a good without a name'}"
            if firm.role == PASSES_ON and passed.setdefault(firm.name, lane).good != lane.good:
                first = passed[firm.name]
                yield (f"{lane.place} (good): {firm.name} passes on {first.good or 'a good without a name'} "
                       f"(row {first.row}); write it as a firm for each good")
