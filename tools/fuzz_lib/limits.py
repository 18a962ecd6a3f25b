"""The limits of documents by their version, as the table of docs/FORMAT.md has them."""
from dataclasses import dataclass


@dataclass(frozen=True)
class Limits:
    """Firms, and trades; own trades of a firm that is no table; the largest number of a firm; how far from 0 a set may
    begin, and how many numbers it may have; edits; the largest denominator of a claim, and weight of a plan's part."""
    most: int
    own: int = 32
    amount: int = 10 ** 9
    farthest: int = 32
    values: int = 65
    edits: int = 256
    claimed_over: int = 10 ** 5

    @property
    def firms(self):
        return self.most

    @property
    def trades(self):
        return self.most

    @property
    def nodes(self):
        """Of a claimed cycle: one for each trade, and null."""
        return self.most + 1


@dataclass(frozen=True)
class UnitLimits:
    """Where trades have units: firms, and trades; the sets of all firms; the units of a trade, of a step, and of all trades
    together; how many sets of a firm may hold one trade; the steps of a list; the largest number of a firm, which is for a
    unit; how far from 0 a set may begin, and how many numbers it may have; the largest price of an arrangement; edits, and
    edits times trades."""
    firms: int = 1024
    trades: int = 4096
    sets: int = 4096
    units: int = 2 ** 20
    holding: int = 16
    steps: int = 256
    amount: int = 10 ** 7
    farthest: int = 256
    values: int = 513
    price: int = 2 * 10 ** 11
    edits: int = 2048
    edited: int = 2 ** 21


UNIT_VERSION, UNIT_LIMITS = 4, UnitLimits()
# the versions in which a trade is one unit
LIMITS = {1: Limits(64), 2: Limits(128), 3: Limits(1024, 60, 10 ** 7, 60, 121, 2048, 10 ** 6)}
# the same in every version
SETS, OWN_OF_TABLE, PRICE, NUMERATOR, OVER, CLAIMED, PARTS, PLANNED = 64, 14, 10 ** 14, 10 ** 11, 100, 10 ** 18, 1024, 20
