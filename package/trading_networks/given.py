"""What the builders are given, read: amounts by trade, and what each further unit adds."""
from __future__ import annotations

import os
import sys
import warnings
from fractions import Fraction
from typing import Iterable, Mapping, Optional, Sequence, Union

from . import kinds
from .amounts import Amount, count_of, exact
from .kinds import Steps
from .tables import Trouble

PACKAGE = os.path.dirname(os.path.abspath(__file__)) + os.sep
Costs = Union[Mapping[str, Amount], Iterable[str]]
"""What each trade costs, or the names of trades that cost nothing."""
Stages = Sequence[tuple[Optional[int], Amount]]
"""Steps: so many units at this amount each, then so many at the next; the last may have None, and then goes on."""


class DocumentWarning(UserWarning):
    """A document is most likely not what was meant: a firm would never trade, or a cost is below 0."""


def warn(what: str) -> None:
    """Warns at the line outside the package that led here."""
    frame, level = sys._getframe(1), 2
    while frame.f_back is not None and frame.f_code.co_filename.startswith(PACKAGE):
        frame, level = frame.f_back, level + 1
    warnings.warn(what, DocumentWarning, stacklevel=level)


def amounts_of(firm: str, amounts: Costs) -> dict[str, Fraction]:
    """Amounts by trade; names alone have 0, and a text is one name."""
    names = [amounts] if isinstance(amounts, str) else amounts
    listed = names if isinstance(names, Mapping) else dict.fromkeys(names, 0)
    return {trade: exact(amount, f"{firm}, {trade}") for trade, amount in listed.items()}


def costs_of(firm: str, costs: Costs) -> dict[str, Fraction]:
    """The same of costs, of which those below 0 are told."""
    read = amounts_of(firm, costs)
    for trade, cost in read.items():
        if cost < 0:
            warn(f"{firm}, {trade}: the cost {cost} is below 0; a cost is given as it is, so this one is a gain")
    return read


def rising(firm: str, up_to: Optional[int], steps: Optional[Stages], by: Amount, usual: Optional[int]) -> Steps:
    """What each further unit costs: the steps that are given, or each one more than the one before; as many as are said,
    or as usual."""
    if steps is None:
        return _further(firm, _most(firm, up_to, usual), exact(by, f"{firm}, rises_by"), 1)
    listed = _listed(firm, steps, by)
    if any(after < before for (_, before), (_, after) in zip(listed, listed[1:])):
        raise Trouble(f"{firm}, steps: the cost of a unit falls from the step before, which can't be said")
    return kinds.up_to(_most(firm, up_to, None), listed)


def falling(firm: str, up_to: Optional[int], steps: Optional[Stages], by: Amount, usual: Optional[int]) -> Steps:
    """What each further unit is worth, in the same way, where each is worth less than the one before."""
    if steps is None:
        return _further(firm, _most(firm, up_to, usual), exact(by, f"{firm}, falls_by"), -1)
    listed = _listed(firm, steps, by)
    if any(after > before for (_, before), (_, after) in zip(listed, listed[1:])):
        raise Trouble(f"{firm}, steps: what a unit is worth rises from the step before, which can't be said")
    return kinds.up_to(_most(firm, up_to, None), listed)


def _most(firm: str, up_to: Optional[int], usual: Optional[int]) -> Optional[int]:
    return usual if up_to is None else count_of(up_to, f"{firm}, up_to")


def _listed(firm: str, steps: Stages, by: Amount) -> list[tuple[Optional[int], Fraction]]:
    if by:
        raise Trouble(f"{firm}: `steps` and by how much each further unit rises or falls are two ways to say one thing")
    if any(count is None for count, _ in steps[:-1]):
        raise Trouble(f"{firm}, steps: a step without a number goes on, so only the last one may have none")
    return [(None if count is None else count_of(count, f"{firm}, steps"), exact(amount, f"{firm}, steps"))
            for count, amount in steps]


def _further(firm: str, most: Optional[int], by: Fraction, sign: int) -> Steps:
    """Each further unit by so much above the one before, with the sign 1, or below it, with -1."""
    if by < 0:
        raise Trouble(f"{firm}: the amount of a further unit is {by}, below 0, which can't be said")
    if by == 0:
        return [(most, Fraction(0))]
    if most is None:
        raise Trouble(f"{firm}: `up_to` has to say how many units there are, where each further one has another amount")
    return [(1, sign * k * by) for k in range(most)]
