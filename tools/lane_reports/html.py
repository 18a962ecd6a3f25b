"""The report as one page, which needs nothing else: the network, bars and tables, and it prints on two sheets."""
from __future__ import annotations

from fractions import Fraction
from html import escape
from typing import Iterable, Iterator, Optional, Sequence

from trading_networks.tables import digits

from . import pictures
from .solving import Answered

MOST_ROWS = 130  # rows of a table, so that all tables are on one sheet
BARS = 12
STYLE = """
body{font:13px/1.35 system-ui,sans-serif;margin:1.5em auto;max-width:1100px;color:#1a1a1a;background:#fff}
h1{font-size:1.5em;margin:0 0 .2em}h2{font-size:1.1em;margin:1em 0 .3em}p{margin:.3em 0;color:#444}
dl{display:flex;flex-wrap:wrap;gap:.3em 2em;margin:.6em 0}dt{color:#555}dd{margin:0;font-weight:600;font-size:1.15em}
.figures{display:grid;grid-template-columns:repeat(3,1fr);gap:0 1.5em}svg{width:100%;height:auto;display:block}
table{border-collapse:collapse;width:100%;font-variant-numeric:tabular-nums}caption{text-align:left;font-weight:600}
th{text-align:left;border-bottom:1px solid #888;font-weight:600}td,th{padding:.1em .6em .1em 0;vertical-align:top}
td.n,th.n{text-align:right}tr:nth-child(even) td{background:#f4f6f8}
@media print{@page{size:A4;margin:10mm}body{margin:0;max-width:none;font-size:8.5px}.tables{break-before:page;font-size:6px}
.tables .lanes{columns:2;column-gap:5mm}td,th{padding:0 .5em 0 0;line-height:1.15}tr{break-inside:avoid}svg{max-height:105mm}}
"""


def page(found: Answered, tables: dict[str, list[tuple]]) -> str:
    """The page of a report."""
    rows = {name: [dict(zip(table[0], row)) for row in table[1:]] for name, table in tables.items()}
    count = f"{len(found.network.firms)} firms, {len(found.network.lanes)} lanes"
    return "\n".join((
        "<!doctype html>", '<html lang="en">', '<meta charset="utf-8">',
        '<meta name="viewport" content="width=device-width">', f"<title>Flows and prices: {count}</title>",
        f"<style>{STYLE}</style>", "<h1>Flows and prices</h1>",
        f"<p>{count}. At these prices each firm's plan is its best, and no other plan brings all together more.</p>",
        totals(tables["totals"]),
        "<h2>What goes where</h2>", pictures.network(found), '<div class="figures">',
        *bars(rows), "</div>", '<div class="tables">', *all_tables(rows), "</div>", "</html>", ""))


def totals(table: list[tuple]) -> str:
    """The totals, beside each other."""
    return "<dl>" + "".join(f"<div><dt>{escape(name)}</dt><dd>{number(value)}</dd></div>" for name, value in table[1:]) + "</dl>"


def bars(rows: dict[str, list[dict]]) -> Iterator[str]:
    """Bars of what one more unit brings, of what firms keep, and of prices."""
    scarce = [(name_of(row), row["one more brings"], None) for row in rows["capacities"] if row["one more brings"]]
    yield figure("What one more unit of a capacity brings", scarce)
    kept = [(row["firm"], row["kept"], ends(row["kept at lowest"], row["kept at highest"]))
            for row in rows.get("firms", ()) if row["kept"] is not None]
    yield figure("What each firm keeps, and between which bounds", sorted(kept, key=lambda bar: -bar[1]))
    prices = [(name_of(row), row["price"], ends(row["lowest"], row["highest"])) for row in by_paid(rows["lanes"])]
    yield figure("Prices of the lanes by which most is paid, and between which bounds", prices)


def by_paid(lanes: list[dict]) -> list[dict]:
    """The lanes by which something goes, those by which most is paid first."""
    return sorted((row for row in lanes if row["flow"]), key=lambda row: -abs(row["paid"]))


def ends(low: Optional[Fraction], high: Optional[Fraction]) -> Optional[tuple[Fraction, Fraction]]:
    """Two bounds, the lower first, where there are both."""
    return None if low is None or high is None else (min(low, high), max(low, high))


def figure(title: str, listed: Sequence[pictures.Bar]) -> str:
    """Bars under a title."""
    more = f" ({BARS} of {len(listed)})" if len(listed) > BARS else ""
    shown = pictures.bars(listed[:BARS], number) if listed else "<p>None.</p>"
    return f"<section><h2>{escape(title)}{more}</h2>{shown}</section>"


def all_tables(rows: dict[str, list[dict]]) -> Iterator[str]:
    """The tables, of which the largest are cut to their first rows."""
    going = by_paid(rows["lanes"])
    columns = ("from", "to", "good", "by", "flow", "capacity", "price", "lowest", "highest", "paid")
    yield '<div class="lanes">' + table("Lanes by which something goes", going, columns) + "</div>"
    columns = ("firm", "role", "capacity", "bought", "sold", "worth", "paid", "received", "kept", "kept at lowest",
               "kept at highest")
    yield table("Firms", rows.get("firms", []), columns)
    columns = ("firm", "from", "to", "good", "by", "shared", "capacity", "one more brings", "for so many more", "remark")
    yield table("Capacities that are used up", rows["capacities"], columns)


def table(caption: str, rows: list[dict], columns: Iterable[str]) -> str:
    """Rows as a table, without columns in which nothing stands."""
    if not rows:
        return ""
    shown = [name for name in columns if any(row[name] not in (None, "") for row in rows)]
    numeric = {name for name in shown if not any(isinstance(row[name], str) for row in rows)}
    mark = {name: ' class="n"' if name in numeric else "" for name in shown}
    head = "".join(f"<th{mark[name]}>{escape(name)}</th>" for name in shown)
    body = ("".join(f"<td{mark[name]}>{cell(row[name])}</td>" for name in shown) for row in rows[:MOST_ROWS])
    more = f", {MOST_ROWS} of {len(rows)}; all are in the CSV" if len(rows) > MOST_ROWS else ""
    return (f"<table><caption>{escape(caption)}{more}</caption><thead><tr>{head}</tr></thead><tbody>"
            + "".join(f"<tr>{line}</tr>" for line in body) + "</tbody></table>")


def cell(value: object) -> str:
    """What stands in a cell."""
    return "" if value is None else escape(value) if isinstance(value, str) else number(value)


def number(value: Fraction) -> str:
    """A number with at most two digits after the point, and thousands parted."""
    sign = "\u2212" if value < 0 else ""
    whole, _, part = digits(abs(Fraction(value)), 2).partition(".")
    return sign + f"{int(whole):,}".replace(",", "\u202f") + (f".{part:0<2}" if part else "")


def name_of(row: dict) -> str:
    """The name of a capacity or of a lane."""
    if row.get("firm") or row.get("shared"):
        return row.get("firm") or row["shared"]
    more = ", ".join(filter(None, (row["good"], row["by"])))
    return f"{row['from']} to {row['to']}" + (f" ({more})" if more else "")
