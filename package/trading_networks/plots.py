"""Answers drawn on matplotlib's axes: what is drawn are the numbers of answers, as floats."""
from __future__ import annotations

import importlib
from typing import Any, Iterable, Mapping, Optional, Sequence, Union

Number = Union[int, float, Any]  # (a Fraction is one that float() takes)

MOST_INCHES = 19.5
ROW_INCHES = 0.25  # what a row with its name takes, where there is room
LEAST_INCHES = 0.11  # what a name takes at least, so that it can be read
SIZE_OF_INCH = 45  # points of a letter in a row of one inch


def needed(module: str, otherwise: str) -> Any:
    """A module that has to be installed for what is asked."""
    try:
        return importlib.import_module(module)
    except ModuleNotFoundError as error:
        raise ModuleNotFoundError(f"{error.msg}, which is needed here; {otherwise}", name=error.name) from None


def axes_for(axes: Any, names: Sequence[str]) -> Any:
    """The axes that are given, or new ones, with a row for each name, from the top down. New ones are at most 20 inches
    high: where the names have no room, only each second one stands there, or each third one, and so on."""
    count = max(len(names), 2)
    row = min(ROW_INCHES, (MOST_INCHES - 0.7) / count)
    if axes is None:
        pyplot = needed("matplotlib.pyplot", "rows() and frame() don't need it")
        _, axes = pyplot.subplots(figsize=(6, 0.7 + row * count), constrained_layout=True)
    step = max(1, -int(-LEAST_INCHES // row))
    at = list(range(0, len(names), step))
    axes.set_yticks(at)
    axes.set_yticklabels([names[k] for k in at], **({} if row == ROW_INCHES else {"fontsize": SIZE_OF_INCH * row * step}))
    axes.set_ylim(max(len(names), 1) - 0.5, -0.5)
    return axes


def wide_axes(axes: Any, count: int) -> Any:
    """The axes that are given, or new ones for so many columns, at most 20 inches wide."""
    if axes is not None:
        return axes
    pyplot = needed("matplotlib.pyplot", "rows() and frame() don't need it")
    return pyplot.subplots(figsize=(min(MOST_INCHES, max(4, 0.5 * count)), 3.2), constrained_layout=True)[1]


def whole_ticks(axes: Any, label: str) -> Any:
    """The axes with whole numbers along the bottom, and with a label there."""
    ticker = needed("matplotlib.ticker", "rows() and frame() don't need it")
    axes.xaxis.set_major_locator(ticker.MaxNLocator(integer=True))
    axes.set_xlabel(label)
    return axes


def width_of_rows(count: int, most: float) -> float:
    """How thick a bar is, in points, where so many rows have to go into the greatest height."""
    return max(0.5, min(most, 0.8 * 72 * MOST_INCHES / max(count, 1)))


def prices(axes: Any, by_trade: Mapping[str, Number], on: Iterable[str]) -> Any:
    """A point for each price, by trade, which is full where the trade is on."""
    axes, full = axes_for(axes, list(by_trade)), set(on)
    size = width_of_rows(len(by_trade), 6)
    for at, (name, price) in enumerate(by_trade.items()):
        fill = "full" if name in full else "none"
        axes.plot([float(price)], [at], marker="o", markersize=size, color="C0", fillstyle=fill)
    return whole_ticks(axes, "price")


def bounds(axes: Any, by_trade: Mapping[str, tuple[Optional[int], Optional[int]]], on: Iterable[str]) -> Any:
    """A bar for each trade from its lowest to its highest price, thick where the trade is on, with an arrow to the edge
    where there is no bound."""
    axes, thick = axes_for(axes, list(by_trade)), set(on)
    listed = [bound for pair in by_trade.values() for bound in pair if bound is not None] or [0]
    margin = max(1, 0.08 * (max(listed) - min(listed)))
    left, right = min(listed) - margin, max(listed) + margin
    most = width_of_rows(len(by_trade), 6)
    for at, (name, (low, high)) in enumerate(by_trade.items()):
        ends = [left if low is None else low, right if high is None else high]
        color, width = f"C{at % 10}", most if name in thick else most / 3
        axes.plot(ends, [at, at], color=color, linewidth=width, solid_capstyle="butt", marker="|", markersize=most)
        for bound, edge, arrow in ((low, left, "<"), (high, right, ">")):
            if bound is None:
                axes.plot([edge], [at], color=color, marker=arrow, markersize=width + most, clip_on=False)
    axes.set_xlim(left, right)
    return whole_ticks(axes, "price")


def utilities(axes: Any, by_firm: Mapping[str, tuple[Optional[int], int]]) -> Any:
    """A bar for each firm's utility, blue where that is the most that it could have, with a mark at the most."""
    axes = axes_for(axes, list(by_firm))
    size = width_of_rows(len(by_firm), 14)
    for at, (utility, most) in enumerate(by_firm.values()):
        if utility is not None:
            axes.barh(at, utility, height=0.6, color="C0" if utility == most else "C1")
        axes.plot([most], [at], marker="|", markersize=size, markeredgewidth=2, color="black")
    return whole_ticks(axes, "utility, and the most at these prices")


def steps(axes: Any, names: Sequence[str], surpluses: Sequence[int]) -> Any:
    """The surplus after each edit, as steps."""
    axes, at = wide_axes(axes, len(names)), list(range(len(names)))
    axes.step(at, surpluses, where="mid", marker="o")
    shown = at[::max(1, -(-len(at) // 130))]
    axes.set_xticks(shown)
    axes.set_xticklabels([names[k] for k in shown], rotation=90)
    axes.set_ylabel("surplus")
    return axes
