"""Versions of documents and their limits, as docs/FORMAT.md lists them, and which version a network needs."""
from __future__ import annotations

from dataclasses import dataclass
from typing import Optional

from .fault_tables import LIMITS, UNIT_LIMITS
from .tables import Trouble

TABLE, SETS, MOST_UNITS = 14, 64, UNIT_LIMITS["units"]


@dataclass(frozen=True)
class Version:
    """A version of documents: the most firms, and the most trades; the most trades of a firm that is no table; the
    largest number of a firm; the most edits; the most sets of a firm; and the most units of all trades together."""
    number: int
    most_firms: int
    most: int
    most_own: int
    largest: int
    most_edits: int
    most_sets: int = SETS
    most_units: int = MOST_UNITS

    def why_not(self, needs: Needs) -> Optional[str]:
        """What of a network is beyond this version, or nothing."""
        bounds = [("firms", needs.firms, self.most_firms), ("trades", needs.trades, self.most),
                  ("trades of one firm", needs.own, self.most_own), ("trades of one table", needs.table_own, TABLE),
                  ("as a number of a firm", needs.largest, self.largest), ("sets of one firm", needs.sets, self.most_sets),
                  ("units of all trades", needs.units, self.most_units), ("edits", needs.edits, self.most_edits)]
        return next((f"{count:,} {what}, and {most:,} is the most" for what, count, most in bounds if count > most), None)


@dataclass(frozen=True)
class Needs:
    """How large a network is: of each count the largest that it has."""
    firms: int
    trades: int
    own: int
    table_own: int
    largest: int
    sets: int
    units: int
    has_units: bool
    edits: int = 0


OF_LOTS = tuple(Version(int(number), each["most"], each["most"], each["own"], each["amount"], each["edits"])
                for number, each in LIMITS.items())
"""The versions in which a trade is one unit."""
OF_UNITS = Version(4, UNIT_LIMITS["most"], UNIT_LIMITS["trades"], UNIT_LIMITS["trades"], UNIT_LIMITS["amount"], 2_048,
                   UNIT_LIMITS["sets"])
"""The version in which a trade has units, and no firm is a table."""


def version_for(needs: Needs) -> Version:
    """The least version that has room for a network."""
    if needs.has_units and needs.table_own:
        raise Trouble("trades have units here, and there are none where a firm is a table")
    versions = (OF_UNITS,) if needs.has_units else OF_LOTS if needs.table_own else (*OF_LOTS, OF_UNITS)
    found = next((version for version in versions if version.why_not(needs) is None), None)
    if found is None:
        raise Trouble(f"no version of documents has room for {versions[-1].why_not(needs)}")
    return found


def version_of_lots(count: int, own: int) -> Version:
    """The first version of lots with room for so many firms and so many trades, and so many trades of a firm."""
    return next(version for version in OF_LOTS if count <= version.most and own <= version.most_own)
