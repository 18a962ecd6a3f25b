"""A network at prices: the arrangements that its ranges give, and its numbers doubled."""
from __future__ import annotations

import json
from typing import Any, Mapping, Optional

from .answers import Equilibrium, Ranges
from .errors import Fault
from .kinds import Json
from .program import Asked, Path, bytes_of
from .questions import check, ranges
from .tables import Trouble

NUMBER_AT = {"rows": 1, "amounts": 1, "costs": 1, "gains": 1, "pairs": 2}  # where an entry of a firm has its number
OF_NETWORK = ("version", "note", "firms", "trades")


def network(document: Json) -> Json:
    """What `solve` reads of a document."""
    return {name: document[name] for name in OF_NETWORK if name in document}


def at(document: Json, on: Any, prices: Mapping[str, int]) -> Json:
    """The network with these trades on, at these prices."""
    return {**network(document), "arrangement": {"on": list(on), "prices": [list(entry) for entry in prices.items()]}}


def at_ranges(found: Ranges, prices: Mapping[str, int]) -> Json:
    """The network with what is on in its ranges, at these prices."""
    return {**network(found.document), "arrangement": found.arranged(prices)}


def whole(bounds: Mapping[str, Optional[int]]) -> Optional[dict[str, int]]:
    """The bounds, where there is one for each trade."""
    found = {trade: price for trade, price in bounds.items() if price is not None}
    return found if len(found) == len(bounds) else None


def asked_ranges(document: Asked, program: Optional[Path]) -> Ranges:
    """What `range` says of the document as it is, so that a fault is that of what was given."""
    return ranges(bytes_of(document), program=program)


def scaled(firm: Json, times: int) -> Json:
    """A firm to which each bundle is worth so many times as much."""
    lists = {name: [[*entry[:k], times * entry[k]] for entry in firm[name]] for name, k in NUMBER_AT.items() if name in firm}
    sets = [_scaled_set(each, times) for each in firm.get("sets", [])]
    kept = firm.get("keep")
    return {**firm, **lists, **({"sets": sets} if "sets" in firm else {}),
            **({} if kept is None else {"keep": times * kept})}


def _scaled_set(each: Json, times: int) -> Json:
    """A set whose numbers, or what the steps add, are so many times as much."""
    numbers = {"values": [times * value for value in each["values"]]} if "values" in each else {}
    steps = {side: [[units, times * adds] for units, adds in each[side]] for side in ("bought", "sold") if side in each}
    return {**each, **numbers, **steps}


def lowest(document: Asked, *, program: Optional[Path] = None) -> Json:
    """The document at all lowest prices together, the best ones of all who only buy. Raises Trouble where a trade has
    none; `check` has confirmed it."""
    found = asked_ranges(document, program)
    return confirmed(at_ranges(found, _together(found.lowest, "lowest")), program)


def highest(document: Asked, *, program: Optional[Path] = None) -> Json:
    """The document at all highest prices together, the best ones of all who only sell, in the same way."""
    found = asked_ranges(document, program)
    return confirmed(at_ranges(found, _together(found.highest, "highest")), program)


def middle(document: Asked, *, program: Optional[Path] = None) -> Json:
    """The document at the means of all lowest and all highest prices. A mean may be a half, so all numbers are doubled
    there, and the prices are the sums. Raises Trouble where a trade has no such price; `check` has confirmed it."""
    found = asked_ranges(document, program)
    told = [f"{trade} has no {side} price" for side, bounds in (("lowest", found.lowest), ("highest", found.highest))
            for trade, price in bounds.items() if price is None]
    low, high = whole(found.lowest), whole(found.highest)
    if low is None or high is None:
        raise Trouble(f"there is no middle: {'; '.join(told)}")
    made = at_ranges(found, {trade: price + high[trade] for trade, price in low.items()})
    return confirmed({**made, "firms": [scaled(firm, 2) for firm in made["firms"]]}, program)


def confirmed(document: Json, program: Optional[Path]) -> Json:
    """The document, where `check` says that its arrangement is an equilibrium."""
    try:
        said = check(json.dumps(document).encode(), program=program)
    except Fault as fault:
        raise Trouble(f"what was made of the document is refused: {fault}") from None
    if not isinstance(said, Equilibrium):
        raise Trouble(f"check says that this is no equilibrium: {said.said}")
    return document


def _together(bounds: Mapping[str, Optional[int]], side: str) -> dict[str, int]:
    prices = whole(bounds)
    if prices is None:
        missing = ", ".join(trade for trade, price in bounds.items() if price is None)
        raise Trouble(f"there are no {side} prices together: {missing} has none")
    return prices
