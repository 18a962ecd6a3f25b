"""Amounts of money as they are given, and the unit of which all of them are whole numbers."""
from __future__ import annotations

import math
import operator
from decimal import Decimal
from fractions import Fraction
from typing import Any, Iterable, Union

from .tables import Trouble

Amount = Union[int, Fraction, Decimal, float]
"""An amount of money: a whole number, a fraction, a decimal, or a float that is whole."""

PLACES = 10  # as many digits after the point are looked at before another unit is taken


def exact(amount: Any, what: str) -> Fraction:
    """The amount, exactly. A float that isn't whole is refused, since it is seldom the number that was typed."""
    if isinstance(amount, bool):
        raise Trouble(f"{what}: {amount} is no number")
    if isinstance(amount, (Fraction, Decimal)):
        return Fraction(amount)
    if isinstance(amount, float):
        if not amount.is_integer():
            raise Trouble(f"{what}: {amount!r} is a float that isn't whole: write Decimal(\"{amount!r}\"), or a Fraction")
        return Fraction(amount)
    try:
        return Fraction(operator.index(amount))
    except TypeError:
        raise Trouble(f"{what}: {amount!r} is no number") from None


def count_of(number: Any, what: str, least: int = 0) -> int:
    """A whole number that counts something."""
    count = exact(number, what)
    if count.denominator != 1 or count < least:
        raise Trouble(f"{what}: {number!r} is no whole number from {least} on")
    return int(count)


def unit_of(amounts: Iterable[Fraction]) -> Fraction:
    """The largest of 1, 0.1, 0.01 and so on of which all amounts are whole numbers; where none is, the largest part of
    1 that does it."""
    denominator = math.lcm(*(amount.denominator for amount in amounts))
    places = next((k for k in range(PLACES) if 10 ** k % denominator == 0), None)
    return Fraction(1, denominator if places is None else 10 ** places)
