"""Pictures of the report: the network with what goes by its lanes, and bars with bounds."""
from __future__ import annotations

from fractions import Fraction
from html import escape
from typing import Callable, Optional, Sequence

from trading_networks.lane_tables import BUYS, MUST_BUY, Firm, Lane, Network
from trading_networks.tables import digits

from .solving import Answered

Bar = tuple[str, Fraction, Optional[tuple[Fraction, Fraction]]]
"""A name, a number, and the bounds between which it may be."""
WIDTH = 1000
MOST_LANES, DEEPEST = 300, 7
THIN, WIDE = 0.6, 12.0  # how broad a lane is drawn
ROW, BOX = 17, 120  # how high a firm's place is, and how broad
INK, FULL, GREY = "#3b6ea5", "#c2452d", "#9aa3ad"


def network(found: Answered) -> str:
    """The firms in columns from those that sell to those that buy, and the lanes by which something goes, the more the
    broader; a lane that is used up in red."""
    flows = [(lane, found.standing.flow(lane)) for lane in found.network.lanes]
    going = sorted(((lane, flow) for lane, flow in flows if flow), key=lambda pair: -pair[1])
    shown, most = going[:MOST_LANES], max((flow for _, flow in going), default=Fraction(1))
    columns = columns_of(found.network)
    rows = max(map(len, columns), default=1)
    places = {firm.name: (k, (n + 0.5) * rows * ROW / len(column)) for k, column in enumerate(columns)
              for n, firm in enumerate(column)}
    step = (WIDTH - BOX) / max(len(columns) - 1, 1)
    lines = [line_of(lane, flow, most, places, step) for lane, flow in reversed(shown)]
    boxes = [box_of(firm, places[firm.name], step) for column in columns for firm in column]
    more = f"<p>The {MOST_LANES} lanes with the largest flows of {len(going)}.</p>" if len(going) > MOST_LANES else ""
    return f'<svg viewBox="0 0 {WIDTH} {rows * ROW + 4}" role="img" aria-label="the network">{"".join(lines + boxes)}</svg>{more}'


def columns_of(network: Network) -> list[list[Firm]]:
    """The firms by how many lanes lie before them, those that buy at the end; a way round ends the counting."""
    depth = {firm.name: 0 for firm in network.firms}
    for _ in range(DEEPEST):
        for lane in network.lanes:
            depth[lane.target] = min(DEEPEST, max(depth[lane.target], depth[lane.source] + 1))
    last = max(depth.values(), default=0)
    for firm in network.firms:
        if firm.role in (BUYS, MUST_BUY):
            depth[firm.name] = last
    columns = [[firm for firm in network.firms if depth[firm.name] == k] for k in range(last + 1)]
    return [column for column in columns if column]


def line_of(lane: Lane, flow: Fraction, most: Fraction, places: dict[str, tuple[int, float]], step: float) -> str:
    """A lane as a curve, with what goes by it as its title."""
    (first, top), (second, bottom) = places[lane.source], places[lane.target]
    x, y = first * step + BOX, second * step
    middle, width = (x + y) / 2, THIN + (WIDE - THIN) * float(flow / most)
    is_full = lane.schedule.capacity is not None and flow == lane.schedule.capacity.value
    return (f'<path d="M{x:.1f} {top:.1f}C{middle:.1f} {top:.1f} {middle:.1f} {bottom:.1f} {y:.1f} {bottom:.1f}" fill="none" '
            f'stroke="{FULL if is_full else INK}" stroke-opacity=".45" stroke-width="{width:.1f}">'
            f"<title>{escape(str(lane))}: {digits(flow)}</title></path>")


def box_of(firm: Firm, place: tuple[int, float], step: float) -> str:
    """A firm as a box with its name."""
    x, y = place[0] * step, place[1]
    return (f'<rect x="{x:.1f}" y="{y - 7:.1f}" width="{BOX}" height="14" rx="3" fill="#fff" stroke="{GREY}"/>'
            f'<text x="{x + 4:.1f}" y="{y + 3.5:.1f}" font-size="9.5">{escape(short(firm.name, 22))}</text>')


def bars(listed: Sequence[Bar], number: Callable[[Fraction], str]) -> str:
    """A bar for each, from 0, and a thin line between its bounds."""
    ends = [end for _, value, bounds in listed for end in (value, *(bounds or ()))]
    low, high = min(Fraction(0), *ends), max(Fraction(0), *ends)
    left, width, height = 170, 190, 16
    scale = width / float(high - low or 1)

    def at(value: Fraction) -> float:
        return left + float(value - low) * scale

    parts = []
    for k, (name, value, bounds) in enumerate(listed):
        y, x = k * height, min(at(value), at(Fraction(0)))
        parts.append(f'<text x="{left - 6}" y="{y + 11}" text-anchor="end" font-size="10">{escape(short(name, 32))}</text>'
                     f'<rect x="{x:.1f}" y="{y + 3}" width="{abs(at(value) - at(Fraction(0))):.1f}" height="9" fill="{INK}"/>')
        if bounds and bounds[0] != bounds[1]:
            parts.append(f'<path d="M{at(bounds[0]):.1f} {y + 7.5}H{at(bounds[1]):.1f}M{at(bounds[0]):.1f} {y + 4}v7'
                         f'M{at(bounds[1]):.1f} {y + 4}v7" stroke="{FULL}" stroke-width="1.5"/>')
        said = number(value) + (f" ({number(bounds[0])} to {number(bounds[1])})" if bounds and bounds[0] != bounds[1] else "")
        parts.append(f'<text x="{left + width + 6}" y="{y + 11}" font-size="9.5">{said}</text>')
    return f'<svg viewBox="0 0 540 {len(listed) * height + 2}" role="img">{"".join(parts)}</svg>'


def short(name: str, most: int) -> str:
    """A name with so many letters at most."""
    return name if len(name) <= most else name[:most - 1] + "\u2026"
