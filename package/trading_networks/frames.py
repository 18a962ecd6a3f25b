"""Firms and lanes as data frames, lists of dictionaries, or a graph, and the document that they make, as `tools/lanes
document` makes it of two tables (docs/LANES.md)."""
from __future__ import annotations

import re
from decimal import Decimal
from fractions import Fraction
from typing import Any, Iterable, Mapping, Optional, Sequence

from .amounts import Amount, exact
from .lane_tables import BUYS, FIRM_COLUMNS, LANE_COLUMNS, PASSES_ON, SELLS, network_of
from .lanes import Built, build, sizes_of
from .tables import Cell, Form, Row, Table, Trouble, digits, head_of, plain
from .unit_lanes import build_with_units

MOST_DIGITS = 18
FIRST_ROW = 2  # (rows are counted as a spreadsheet counts them, below the names of the columns)


def from_lanes(firms: Any, lanes: Any, *, lot: Optional[Amount] = None, unit: Optional[Amount] = None,
               is_rounded: bool = False, has_units: bool = False) -> Built:
    """The document of two tables, each a data frame or an iterable of dictionaries with the columns of docs/LANES.md.

    lot: how much goes at once, unit: the least amount of money; where they aren't given, `sizes` tells which are taken.
    Numbers may be floats here, each taken as the decimal number that it is written as. has_units: a lane is one trade with
    so many units, in a document of version 4, and not a trade for each lot.
    """
    network = network_of(table_of(firms, "firms", FIRM_COLUMNS), table_of(lanes, "lanes", LANE_COLUMNS))
    sizes = sizes_of([network], _size("lot", lot), _size("unit", unit), is_rounded)
    return build_with_units(network, sizes) if has_units else build(network, sizes)


def _size(name: str, size: Optional[Amount]) -> Optional[Fraction]:
    if size is None:
        return None
    if exact(size, name) <= 0:
        raise Trouble(f"{name}: {size} isn't above 0")
    return exact(size, name)


def from_networkx(graph: Any, *, lot: Optional[Amount] = None, unit: Optional[Amount] = None,
                  is_rounded: bool = False, has_units: bool = False) -> Built:
    """The document of a directed graph of networkx: a firm for each node, and a lane for each edge.

    Attributes of nodes and edges are columns of docs/LANES.md, with `_` for a blank; of a node `cost` or `worth`, and of
    an edge `cost`, are `at 1`. Other attributes aren't looked at. A node without a role sells where no edge comes to it,
    buys where none goes from it, and passes on otherwise. The key of a further edge between two nodes is its `by`.
    """
    if not graph.is_directed():
        raise Trouble("a lane goes from a firm to a firm, and this graph isn't directed")
    firms = [{"firm": str(node), "role": _role(graph, node), **_columns(data, FIRM_COLUMNS, ("cost", "worth"))}
             for node, data in graph.nodes(data=True)]
    edges: Iterable[tuple[Any, Any, Any, Mapping[str, Any]]] = (
        graph.edges(keys=True, data=True) if graph.is_multigraph()
        else ((source, target, 0, data) for source, target, data in graph.edges(data=True)))
    lanes = [{"from": str(source), "to": str(target), **({"by": str(key)} if key != 0 else {}),
              **_columns(data, LANE_COLUMNS, ("cost",))} for source, target, key, data in edges]
    return from_lanes(firms, lanes, lot=lot, unit=unit, is_rounded=is_rounded, has_units=has_units)


def _role(graph: Any, node: Any) -> str:
    if graph.in_degree(node) == 0:
        return SELLS
    return PASSES_ON if graph.out_degree(node) else BUYS


def _columns(data: Mapping[str, Any], columns: re.Pattern[str], rates: Sequence[str]) -> dict[str, Any]:
    """The attributes that are columns."""
    named = {"at 1" if name in rates else _column_name(name): value for name, value in data.items()}
    return {name: value for name, value in named.items() if columns.fullmatch(name)}


def _column_name(name: Any) -> str:
    return plain(str(name)).lower().replace("_", " ")


def table_of(rows: Any, path: str, columns: re.Pattern[str]) -> Table:
    """A data frame, or an iterable of dictionaries, as a table of that name."""
    listed: list[Mapping[str, Any]] = rows.to_dict("records") if hasattr(rows, "to_dict") else list(rows)
    names = list(dict.fromkeys(str(name) for row in listed for name in row))
    head = dict(zip(names, head_of(path, names, columns)))
    return Table(path, Form(), [_row_of(path, k, row, head) for k, row in enumerate(listed, FIRST_ROW)])


def _row_of(path: str, number: int, row: Mapping[str, Any], head: Mapping[str, str]) -> Row:
    place = f"{path}, row {number}"
    named = ((head[str(name)], value) for name, value in row.items())
    return Row(number, place, {name: Cell(_text_of(value, f"{place} ({name})"), f"{place} ({name})") for name, value in named})


def _text_of(value: Any, place: str) -> str:
    """What stands in a cell: a text, a number in digits, or nothing where it is missing."""
    if value is None or type(value).__name__ == "NAType" or value != value:
        return ""
    if isinstance(value, str):
        return plain(value)
    number = Fraction(Decimal(repr(float(value)))) if isinstance(value, float) else exact(value, place)
    text = digits(number, MOST_DIGITS)
    if Fraction(text) != number:
        raise Trouble(f"{place}: {value} has no decimal number of {MOST_DIGITS} digits")
    return text
