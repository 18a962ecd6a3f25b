"""What one more unit of a capacity brings to all together, and for how many more that holds: by `solve` of documents with
so many more. The number is doubled until it no longer holds, and then halved in; one process answers all."""
from __future__ import annotations

import queue
import time
from collections import deque
from dataclasses import dataclass
from fractions import Fraction
from typing import Iterator, Optional, Union

from trading_networks.lane_tables import MUST_BUY, Firm, Lane
from trading_networks.shares import Shared
from trading_networks.tables import Trouble
from trading_networks.unit_lanes import Counting

from .program import Program
from .progress import Progress
from .report import Standing

HEAD = ("firm", "from", "to", "good", "by", "shared", "capacity", "one more brings", "for so many more", "remark")
AHEAD = 2  # as many documents are with the program at once
LEAST_WAIT = 1  # seconds in which a small document is answered in any case


@dataclass
class Scarce:
    """A capacity that is used up. `gain` is what one more brings, once that is known; it holds for `least` more, and no
    longer for `most`. `trouble` is why there is no document with one more."""
    part: Union[Firm, Lane, Shared]
    cells: tuple
    capacity: Fraction
    gain: Optional[int] = None
    least: int = 0
    most: Optional[int] = None
    trouble: Optional[str] = None

    def next(self) -> Optional[int]:
        """How many more are asked for next; none where all is known."""
        if self.gain is None:
            return 1 if self.trouble is None else None
        if self.gain == 0 or self.least + 1 == self.most:
            return None
        return 2 * self.least if self.most is None else (self.least + self.most) // 2

    def hear(self, more: int, gain: int) -> None:
        """What so many more bring."""
        if self.gain is None:
            self.gain = gain
        if gain == self.gain * more:
            self.least = more
        else:
            self.most = more

    def hear_trouble(self, more: int, trouble: Trouble) -> None:
        """No document has room for so many more."""
        if self.gain is None:
            self.trouble = str(trouble)
        else:
            self.most = more

    def remark(self) -> Optional[str]:
        """What isn't known."""
        if self.next() is None:
            return self.trouble
        return "not asked in time" if self.gain is None else "for at least so many"


def scarce(standing: Standing, counting: Counting) -> list[Scarce]:
    """The capacities that are used up. What those bring that aren't is nothing."""
    network, found = counting.whole.network, []
    for firm in network.firms:
        capacity = firm.schedule.capacity
        if capacity and firm.role != MUST_BUY and standing.used(firm) == capacity.value:
            found.append(Scarce(firm, (firm.name, *[None] * 5), capacity.value))
    for shared in (each for listed in counting.whole.shared.values() for each in listed):
        if sum(standing.flow(lane) for lane in shared.lanes) == shared.measure.value:
            found.append(Scarce(shared, (*[None] * 5, shared.name), shared.measure.value))
    lanes = [lane for lane in network.lanes if lane.schedule.capacity and standing.flow(lane) == lane.schedule.capacity.value]
    for lane in sorted(lanes, key=lambda lane: -width(standing, lane)):
        found.append(Scarce(lane, (None, *lane.name, None), lane.schedule.capacity.value))
    return found


def width(standing: Standing, lane: Lane) -> int:
    """How far the prices of a lane go: the further, the more one more unit may bring. So the widest are asked first."""
    if standing.lowest is None or standing.highest is None:
        return 0
    bounds = [(standing.lowest.of[lot.code], standing.highest.of[lot.code]) for lot in standing.lots_of(lane)]
    return max((high - low for low, high in bounds if None not in (low, high)), default=0)


def ask_more(standing: Standing, counting: Counting, program: Program, seconds: float, progress: Progress) -> list[Scarce]:
    """What one more brings of each capacity that is used up, as far as there is time."""
    found, until = scarce(standing, counting), time.monotonic() + seconds
    waiting: deque[Scarce] = deque(found)
    sent: queue.SimpleQueue[Optional[dict]] = queue.SimpleQueue()
    asked: deque[tuple[Scarce, int]] = deque()

    def send() -> None:
        """Sends the next question that can be asked."""
        while waiting and time.monotonic() < until:
            each = waiting.popleft()
            more = each.next()
            if more is None:
                continue
            try:
                sent.put(counting.wider(each.part, more))
            except Trouble as trouble:
                each.hear_trouble(more, trouble)
                waiting.append(each)
                continue
            asked.append((each, more))
            return

    for _ in range(AHEAD):
        send()
    answers = program.ask_each("solve", iter(sent.get, None), max(seconds, LEAST_WAIT))
    while asked:
        answer = next(answers, None)
        if answer is None:
            break
        each, more = asked.popleft()
        each.hear(more, answer["surplus"] - standing.surplus)
        progress.say(f"one more unit: {sum(one.next() is None for one in found)} of {len(found)} capacities")
        waiting.append(each)
        send()
    sent.put(None)
    return found


def more_table(standing: Standing, found: list[Scarce]) -> Iterator[tuple]:
    """The capacities that are used up, those that bring most first; what one more brings is for a unit of quantity."""
    yield HEAD
    of_unit = standing.built.sizes.unit / standing.built.sizes.lot
    for each in sorted(found, key=lambda each: -(each.gain if each.gain is not None else -1)):
        brings, many = (None, None) if each.gain is None else (each.gain * of_unit, standing.quantity(each.least))
        yield (*each.cells, each.capacity, brings, many if each.gain else None, each.remark())
