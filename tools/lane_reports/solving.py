"""All that is told of two tables: flows, prices with their ranges, what each firm keeps, what one more unit of a capacity
brings, and totals. What the program can say, it is asked."""
from __future__ import annotations

import time
from concurrent.futures import ThreadPoolExecutor
from dataclasses import dataclass
from fractions import Fraction
from typing import Iterator, Optional

from trading_networks.lane_tables import BUYS, MUST_BUY, SELLS, Network
from trading_networks.lanes import Sizes
from trading_networks.tables import Trouble, digits
from trading_networks.unit_lanes import counting

from . import more, report
from .program import Program
from .progress import Progress
from .report import Standing

TOTAL_HEAD = ("total", "value")
FEW = 3  # as many questions have to have time, or none is asked


@dataclass(frozen=True)
class Answered:
    """What the program answered of a network; `untold` is why it said nothing of ranges or of what firms keep."""
    network: Network
    standing: Standing
    worths: Optional[list[int]]
    scarce: list[more.Scarce]
    untold: list[str]
    note: dict


def answered(network: Network, sizes: Sizes, program: Program, seconds: float, progress: Progress) -> Answered:
    """Asks the program all of a network in units; for what one more brings there are so many seconds, and none is asked
    where there is no time for a few."""
    progress.say("reading")
    counted = counting(network, sizes)
    built = counted.built()
    progress.say(f"solve: {len(network.firms)} firms, {len(built.lots)} lanes, "
                 f"{sum(trade['units'] for trade in built.document['trades']):,} units")
    begun, untold, worths = time.monotonic(), [], None
    with ThreadPoolExecutor(1) as beside:
        ranges = beside.submit(program.run, "range", built.document)
        standing = report.solved(built, program.run("solve", built.document))
        has_time = FEW * (time.monotonic() - begun) < seconds
        progress.say("range: how far each price may go")
        try:
            standing = report.with_ranges(standing, ranges.result())
        except Trouble as trouble:
            untold.append(f"how far prices may go isn't told: {trouble}")
    progress.say("firms: what each firm has")
    try:
        worths = report.worths_of(standing, program)
    except Trouble as trouble:
        untold.append(f"what each firm keeps isn't told: {trouble}")
    progress.say("one more unit: begun")
    scarce = more.ask_more(standing, counted, program, seconds if has_time else 0, progress)
    return Answered(network, standing, worths, scarce, untold, built.document["note"])


def tables(found: Answered) -> dict[str, list[tuple]]:
    """The tables of the report."""
    standing, network = found.standing, found.network
    listed = {"totals": list(total_table(found)), "capacities": list(more.more_table(standing, found.scarce)),
              "lanes": list(report.lane_table(standing, network.lanes))}
    if found.worths is not None:
        listed["firms"] = list(report.firm_rows(standing, network.firms, found.worths))
    return listed


def total_table(found: Answered) -> Iterator[tuple]:
    """What all have together: the surplus is the worth to customers, less what goods, making and freight cost."""
    standing, firms = found.standing, found.network.firms
    yield TOTAL_HEAD
    yield "surplus", standing.money(standing.surplus)
    going = standing.going(standing.built.lots)
    freight = sum(lot.freight(count) for lot, count in going)
    if found.worths is not None:
        worths = list(zip(firms, found.worths))
        worth = sum(worth for firm, worth in worths if firm.role in (BUYS, MUST_BUY))
        goods = sum(-worth - freight_of(standing, firm) for firm, worth in worths if firm.role == SELLS)
        making = worth - goods - freight - sum(found.worths)
        yield "worth to customers", standing.money(worth)
        yield "goods", standing.money(goods)
        yield "making and passing on", standing.money(making)
    yield "freight", standing.money(freight)
    asked, served = demand(found)
    yield "demand", asked
    yield "demand served", served
    yield "demand not served", asked - served


def freight_of(standing: Standing, firm: report.Firm) -> int:
    """What a firm pays for freight."""
    return sum(lot.freight(count) for lot, count in standing.sides(firm)[1])


def demand(found: Answered) -> tuple[Fraction, Fraction]:
    """How much all customers with a capacity want, and how much of it they get."""
    buyers = [firm for firm in found.network.firms if firm.role in (BUYS, MUST_BUY) and firm.schedule.capacity]
    return (sum((firm.schedule.capacity.value for firm in buyers), Fraction(0)),
            sum((found.standing.used(firm) for firm in buyers), Fraction(0)))


def unserved(found: Answered) -> Iterator[str]:
    """What is told where a firm that must buy doesn't get all."""
    for firm in found.network.firms:
        gets = found.standing.used(firm)
        if firm.role == MUST_BUY and gets < firm.schedule.capacity.value:
            yield (f"{firm.place}: {firm.name} gets {digits(gets)} of {digits(firm.schedule.capacity.value)}: there is no way "
                   f"for more, or none that costs less than {found.note['worth']} a unit")


def late(found: Answered, seconds: float) -> Iterator[str]:
    """What is told where there was no time for all capacities."""
    count = sum(each.next() is not None for each in found.scarce)
    if count:
        yield (f"one more unit: {count} of {len(found.scarce)} capacities that are used up weren't asked to the end, for "
               f"which {seconds:g} s are too few; --seconds gives more")
