"""Capacities that lanes share, such as one gate for two lanes: sets of the lanes at the firm where all of them end."""
from __future__ import annotations

from dataclasses import dataclass
from fractions import Fraction
from itertools import combinations
from typing import Callable, Container, Iterator

from .kinds import Counted
from .lane_tables import Lane, Network, Share
from .lanes import Sizes
from .tables import Measure, digits, raise_all


@dataclass(frozen=True)
class Shared:
    """A capacity that lanes share: how many units go by all of them, and the firm that sends them all, or gets them all."""
    name: str
    firm: str
    is_to: bool
    lanes: tuple[Lane, ...]
    most: int
    measure: Measure

    def counted(self, code_of: Callable[[Lane], str], going: Container[int]) -> Counted:
        """The set of the lanes by which something may go."""
        codes = [code_of(lane) for lane in self.lanes if lane.row in going]
        steps = [(self.most, Fraction(0))] if self.most else []
        return Counted(purchases=codes, bought=steps) if self.is_to else Counted(sales=codes, sold=steps)

    def rows(self) -> set[int]:
        """The rows of its lanes."""
        return {lane.row for lane in self.lanes}


def shared_sets(network: Network, sizes: Sizes) -> dict[str, list[Shared]]:
    """The shared capacities by the firms at which they are. Two of a firm are apart, or one is within the other; what
    can't be said of them is told together."""
    named: dict[str, list[tuple[Lane, Share]]] = {}
    for lane in network.lanes:
        for share in lane.shares:
            named.setdefault(share.name, []).append((lane, share))
    troubles: list[str] = []
    listed = [shared for name, pairs in named.items() for shared in shared_of(name, pairs, sizes, troubles)]
    for first, second in combinations(listed, 2):
        troubles.extend(crossing(first, second))
    raise_all(troubles)
    by_firm: dict[str, list[Shared]] = {}
    for shared in listed:
        by_firm.setdefault(shared.firm, []).append(shared)
    return by_firm


def shared_of(name: str, pairs: list[tuple[Lane, Share]], sizes: Sizes, troubles: list[str]) -> Iterator[Shared]:
    """The capacity of a name, at the firm that sends by all of its lanes, or else gets by all of them."""
    first, measure = pairs[0][0], pairs[0][1].most
    lanes = tuple(lane for lane, _ in pairs)
    other = next((lane for lane, share in pairs if share.most.value != measure.value), None)
    if other is not None:
        troubles.append(f"{other.place} (shared): {name} is not {digits(measure.value)} here, as it is in row {first.row}")
    elif all(lane.source == first.source for lane in lanes):
        yield Shared(name, first.source, False, lanes, sizes.lots(measure), measure)
    elif all(lane.target == first.target for lane in lanes):
        yield Shared(name, first.target, True, lanes, sizes.lots(measure), measure)
    else:
        other = next(lane for lane in lanes if lane.source != first.source)
        troubles.append(f"{other.place} (shared): {name} is of row {first.row} too, and no firm sends by all of its lanes, or "
                        "gets by all of them")


def crossing(first: Shared, second: Shared) -> Iterator[str]:
    """What is wrong where two shared capacities of a firm have some lanes in common, and each has others too."""
    one, other = first.rows(), second.rows()
    if first.firm == second.firm and one & other and one - other and other - one:
        yield (f"{second.lanes[0].place.rsplit(' ', 1)[0]} {min(other - one)} (shared): {second.name} crosses {first.name} of row "
               f"{min(one - other)}: both have row {min(one & other)}, and neither is within the other")
