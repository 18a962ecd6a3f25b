"""A network and what an answer says of it as a graph of networkx."""
from __future__ import annotations

from typing import Any, Iterable, Mapping, Sequence

from .plots import needed

Json = dict[str, Any]


def graph_of(document: Json, columns: Sequence[str], rows: Iterable[Mapping[str, Any]]) -> Any:
    """A directed graph with a node for each firm and an edge for each trade, from its seller to its buyer, whose key is its
    name; rows of firms or of trades, as their first column says, are attributes. Needs networkx."""
    graph = needed("networkx", "rows() needs nothing").MultiDiGraph()
    by_name: dict[str, Json] = {}
    if columns[:1] in (("trade",), ("firm",)):
        by_name = {row[columns[0]]: {name: value for name, value in row.items() if name != columns[0]} for row in rows}
    is_of_firms = columns[:1] == ("firm",)
    for firm in document["firms"]:
        noted = {"note": firm["note"]} if "note" in firm else {}
        graph.add_node(firm["name"], kind=firm["kind"], **noted, **(by_name.get(firm["name"], {}) if is_of_firms else {}))
    for trade in document["trades"]:
        said = {} if is_of_firms else by_name.get(trade["name"], {})
        more = {name: value for name, value in {**trade, **said}.items() if name not in ("name", "seller", "buyer")}
        graph.add_edge(trade["seller"], trade["buyer"], key=trade["name"], **more)
    return graph
