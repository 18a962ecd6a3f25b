"""A flow of least cost in the format of DIMACS as a document.

What a firm with a supply sends, and one with a demand takes, is limited by that; all others pass on as much as they
get. A lot that is taken is worth more than all arcs together cost, so that as many are taken as can be. Where all that
is demanded is taken, the least cost of the flow is the demand times this worth less the surplus.
"""
from __future__ import annotations

import math
from dataclasses import dataclass
from typing import Iterator, Optional

from trading_networks.lanes import LARGE
from trading_networks.tables import Trouble
from trading_networks.versions import Version, version_of_lots


@dataclass(frozen=True)
class Arc:
    source: int
    target: int
    capacity: int
    cost: int
    place: str


@dataclass(frozen=True)
class Flow:
    """The problem of a file: of each firm what it has to send, less what it has to take; and the arcs between them."""
    size: int
    supplies: dict[int, int]
    arcs: list[Arc]

    @property
    def demand(self) -> int:
        return sum(-supply for supply in self.supplies.values() if supply < 0)


def read_flow(path: str) -> Flow:
    with open(path, encoding="ascii", errors="replace") as file:
        lines = [(f"{path}, line {k}", line.split()) for k, line in enumerate(file, 1)]
    size, supplies, arcs = None, {}, []
    for place, words in lines:
        kind, numbers = words[0] if words else "c", whole_numbers(place, words)
        if kind == "c":
            continue
        if kind == "p" and words[1:2] == ["min"] and size is None and len(numbers) == 2:
            size = numbers[0]
        elif kind == "n" and len(numbers) == 2 and is_firm(numbers[0], size):
            supplies[numbers[0]] = numbers[1]
        elif kind == "a" and len(numbers) == 5 and is_firm(numbers[0], size) and is_firm(numbers[1], size):
            arcs.append(arc_of(place, *numbers))
        else:
            raise Trouble(f"{place}: {' '.join(words)} is no line of a flow of least cost")
    if size is None:
        raise Trouble(f"{path}: there is no line p min")
    if sum(supplies.values()) != 0:
        raise Trouble(f"{path}: what is supplied is not what is demanded, so there is no flow")
    return Flow(size, supplies, arcs)


def whole_numbers(place: str, words: list[str]) -> list[int]:
    if not words or words[0] == "c":
        return []
    try:
        return [int(word) for word in words[2 if words[0] == "p" else 1:]]
    except ValueError:
        raise Trouble(f"{place}: {' '.join(words)} has something else than whole numbers") from None


def is_firm(number: int, size: Optional[int]) -> bool:
    return size is not None and 1 <= number <= size


def arc_of(place: str, source: int, target: int, least: int, most: int, cost: int) -> Arc:
    if least != 0:
        raise Trouble(f"{place}: a flow of at least {least} can't be said")
    if source == target:
        raise Trouble(f"{place}: this arc goes from {source} to itself")
    return Arc(source, target, max(most, 0), cost, place)


def flow_document(flow: Flow, lot: Optional[int] = None) -> dict:
    """The document of a flow, in lots of which its supplies and capacities are whole numbers."""
    amounts = [*flow.supplies.values(), *(arc.capacity for arc in flow.arcs)]
    lot = lot or math.gcd(*amounts) or 1
    for arc in flow.arcs:
        if arc.capacity % lot:
            raise Trouble(f"{arc.place}: {arc.capacity} is no whole number of lots of {lot}")
    if any(supply % lot for supply in flow.supplies.values()):
        raise Trouble(f"a supply is no whole number of lots of {lot}")
    worth = 1 + sum(abs(arc.cost) for arc in flow.arcs) * lot
    trades, version = trades_of(flow, lot)
    if worth * (flow.demand // lot) > version.largest:
        raise Trouble(f"the demand is worth {worth * (flow.demand // lot)}, and {version.largest} is the most where "
                      f"there are {flow.size} firms and {len(trades)} lots")
    return {
        "version": version.number,
        "note": {"lot": lot, "worth": worth, "demand": flow.demand // lot},
        "firms": [firm_of(number, flow.supplies.get(number, 0) // lot, worth, trades)
                  for number in range(1, flow.size + 1)],
        "trades": [{"name": name, "seller": str(arc.source), "buyer": str(arc.target)} for name, arc, _ in trades],
    }


def trades_of(flow: Flow, lot: int) -> tuple[list[tuple[str, Arc, int]], Version]:
    """A trade for each lot of each arc: its name, the arc, and what it costs; and the version that has room for them.
    Where no arc has a cost below 0, no more lots than are demanded go by one."""
    if flow.size > LARGE.most:
        raise Trouble(f"there are {flow.size} firms, and a document has at most {LARGE.most}")
    demand = flow.demand // lot if all(arc.cost >= 0 for arc in flow.arcs) else LARGE.most
    trades: list[tuple[str, Arc, int]] = []
    own: dict[int, int] = {}
    for k, arc in enumerate(flow.arcs, 1):
        lots = min(arc.capacity // lot, demand)
        trades += [(f"a{k}.{n}", arc, arc.cost * lot) for n in range(1, lots + 1)]
        for number in (arc.source, arc.target):
            own[number] = own.get(number, 0) + lots
            if own[number] > LARGE.most_own:
                raise Trouble(f"{arc.place}: with this arc {number} has more than {LARGE.most_own} lots that may come "
                              "or go, which is the most")
        if len(trades) > LARGE.most:
            raise Trouble(f"{arc.place}: with this arc there are more than {LARGE.most} lots, which is the most")
    return trades, version_of_lots(max(flow.size, len(trades)), max(own.values(), default=0))


def firm_of(number: int, supply: int, worth: int, trades: list[tuple[str, Arc, int]]) -> dict:
    own = [name for name, arc, _ in trades if number in (arc.source, arc.target)]
    amounts = [[name, -cost] for name, arc, cost in trades if arc.source == number and cost]
    supply = max(-len(own), min(supply, len(own)))
    if supply >= 0:
        values, begin = [0] * (supply + 1), -supply
    else:
        values, begin = [worth * lots for lots in range(1 - supply)], 0
    sets = [{"trades": own, "from": begin, "values": values}] if own else []
    return {"name": str(number), "kind": "laminar", "amounts": amounts, "sets": sets}


def flow_lines(flow: Flow, document: dict, answer: dict) -> Iterator[str]:
    """The flow of an answer of `solve` to the document of a flow, in the format of DIMACS."""
    note, on = document["note"], set(answer["on"])
    lots: dict[int, int] = {}
    taken = 0
    for name, k in ((trade["name"], int(trade["name"][1:].split(".")[0])) for trade in document["trades"]):
        if name in on:
            arc = flow.arcs[k - 1]
            lots[k] = lots.get(k, 0) + 1
            taken += (flow.supplies.get(arc.target, 0) < 0) - (flow.supplies.get(arc.source, 0) < 0)
    if taken < note["demand"]:
        raise Trouble(f"there is no flow: of {note['demand']} lots that are demanded {taken} get there at most")
    yield f"s {note['worth'] * note['demand'] - answer['surplus']}"
    for k, count in sorted(lots.items()):
        yield f"f {flow.arcs[k - 1].source} {flow.arcs[k - 1].target} {count * note['lot']}"
