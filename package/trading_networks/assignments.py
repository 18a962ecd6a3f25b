"""Assignment markets, of a matrix of worths."""
from __future__ import annotations

from typing import Any, Optional, Sequence

from .amounts import Amount
from .documents import Document
from .tables import Trouble


def assignment(worths: Any, costs: Optional[Sequence[Amount]] = None, *, sellers: Optional[Sequence[str]] = None,
               buyers: Optional[Sequence[str]] = None, unit: Optional[Amount] = None) -> Document:
    """An assignment market: each seller has one good, and each buyer takes one.

    worths: a row for each seller, with what its good is worth to each buyer, and None (or a missing number) where the two
    can't trade; a data frame has the names too. costs: what each seller has less without its good, 0 where it isn't said.
    """
    rows, sellers, buyers = _matrix(worths, sellers, buyers)
    market, least = Document(unit=unit), list(costs) if costs is not None else [0] * len(rows)
    if len(least) != len(rows) or any(len(row) != len(buyers) for row in rows):
        raise Trouble(f"the worths are for {len(rows)} sellers; each wants one cost, and one worth for each of "
                      f"{len(buyers)} buyers")
    names = {(i, j): f"{sellers[i]}-{buyers[j]}" for i, row in enumerate(rows) for j, worth in enumerate(row)
             if not _is_missing(worth)}
    for i, seller in enumerate(sellers):
        market.seller(seller, costs={names[i, j]: least[i] for j in range(len(buyers)) if (i, j) in names})
    for j, buyer in enumerate(buyers):
        market.buyer(buyer, worths={names[i, j]: rows[i][j] for i in range(len(rows)) if (i, j) in names})
    return market


def _matrix(worths: Any, sellers: Optional[Sequence[str]],
            buyers: Optional[Sequence[str]]) -> tuple[list[list[Any]], list[str], list[str]]:
    """The rows of a matrix or a data frame, and the names of its rows and columns."""
    if hasattr(worths, "itertuples"):
        sellers = sellers or [str(name) for name in worths.index]
        buyers = buyers or [str(name) for name in worths.columns]
        worths = worths.itertuples(index=False)
    rows = [list(row) for row in worths]
    width = max((len(row) for row in rows), default=0)
    return (rows, list(sellers or (f"S{i}" for i in range(1, len(rows) + 1))),
            list(buyers or (f"B{j}" for j in range(1, width + 1))))


def _is_missing(worth: Any) -> bool:
    """Whether it is None, NaN or pandas.NA."""
    return worth is None or type(worth).__name__ == "NAType" or bool(worth != worth)
