"""Scenarios: changes of cells of both tables, each scenario as a document, and one table of what comes."""
from __future__ import annotations

import re
from dataclasses import dataclass, replace
from typing import Iterator, Optional, Union

from trading_networks.lane_tables import FIRM_COLUMNS, LANE_COLUMNS, Network, network_of
from trading_networks.lanes import Built, Sizes
from trading_networks.tables import NUMERIC, Cell, Row, Table, Trouble, digits
from trading_networks.unit_lanes import made_or_why

from .program import Program
from .report import Standing, content_firms, count_of, solved, with_arrangement

COLUMNS = re.compile(r"scenario|firm|from|to|good|by|change|value|note")
ALL = "*"
OUT, EVERY_STEP = "out", "at"
PERCENT = re.compile(r"([+-].*\S) ?%")
SUMMARY_HEAD = ("scenario", "surplus", "change", "lanes that change", "remark")
LANE_HEAD = ("scenario", "from", "to", "good", "by", "flow", "flow before")
FIRM_HEAD = ("scenario", "firm", "bought", "sold", "kept", "kept before")


@dataclass(frozen=True)
class Scenario:
    """A scenario with its network, or with what is wrong with it."""
    name: str
    network: Optional[Network] = None
    trouble: Optional[str] = None


@dataclass(frozen=True)
class Result:
    """A scenario with its equilibrium, or with what is wrong with it."""
    name: str
    standing: Optional[Standing] = None
    trouble: Optional[str] = None


def scenarios_of(firms: Table, lanes: Table, changes: Table) -> list[Scenario]:
    """Each scenario that the changes name, in the order in which they come."""
    by_name: dict[str, list[Row]] = {}
    for row in changes.rows:
        if not row["scenario"].text:
            raise row["scenario"].trouble("a change needs the name of its scenario")
        by_name.setdefault(row["scenario"].text, []).append(row)
    return [scenario_of(name, firms, lanes, rows) for name, rows in by_name.items()]


def scenario_of(name: str, firms: Table, lanes: Table, rows: list[Row]) -> Scenario:
    try:
        for row in rows:
            firms, lanes = changed(firms, lanes, row)
        return Scenario(name, network_of(firms, lanes))
    except Trouble as trouble:
        return Scenario(name, trouble=str(trouble))


def changed(firms: Table, lanes: Table, row: Row) -> tuple[Table, Table]:
    """Both tables after a change."""
    if not row["change"].text:
        raise row["change"].trouble("it isn't said what changes")
    if row["firm"].text and not (row["from"].text or row["to"].text):
        found = [firm for firm in firms.rows if matches(row, firm, "firm")]
        if row["change"].text == OUT:
            gone = {firm["firm"].text for firm in found}
            lanes = replace(lanes, rows=[lane for lane in lanes.rows
                                         if gone.isdisjoint((lane["from"].text, lane["to"].text))])
        return with_change(firms, found, row, FIRM_COLUMNS), lanes
    if row["from"].text and row["to"].text and not row["firm"].text:
        found = [lane for lane in lanes.rows if matches(row, lane, "from", "to", "good", "by")]
        return firms, with_change(lanes, found, row, LANE_COLUMNS)
    raise row.trouble("a change is of a firm, or of a lane with from and to")


def matches(change: Row, row: Row, *columns: str) -> bool:
    return all(change[name].text in ("", ALL, row[name].text) for name in columns)


def with_change(table: Table, found: list[Row], change: Row, columns: re.Pattern) -> Table:
    what, value = change["change"].text.lower(), change["value"]
    if not found:
        names = filter(None, (change[name].text for name in ("firm", "from", "to", "good", "by")))
        raise change.trouble(f"{table.path} has no row of {', '.join(names)}")
    if what == OUT:
        if value.text:
            raise value.trouble("what is out has no value")
        return replace(table, rows=[row for row in table.rows if row not in found])
    if what != EVERY_STEP and not (columns.fullmatch(what) and NUMERIC.fullmatch(what)):
        raise change["change"].trouble(f"{what} is none of out, capacity, at, at 1, quantity 1 and so on")
    return replace(table, rows=[with_cells(row, what, value) if row in found else row for row in table.rows])


def with_cells(row: Row, what: str, value: Cell) -> Row:
    names = [name for name in row.cells if name.startswith("at ") and row[name].text] if what == EVERY_STEP else [what]
    return replace(row, cells={**row.cells, **{name: new_cell(row[name], value) for name in names}})


def new_cell(old: Cell, value: Cell) -> Cell:
    """The value, or the old one by so many percent more or less."""
    percent = PERCENT.fullmatch(value.text)
    if not percent:
        return value
    number = old.number()
    if number is None:
        raise value.trouble(f"nothing stands at {old.place}, of which this could be a part")
    return Cell(digits(number.value * (1 + value.read(percent[1]) / 100), 18), value.place)


def built_each(scenarios: list[Scenario], sizes: Sizes) -> Iterator[tuple[Scenario, Union[Built, str]]]:
    """Each scenario with its document, or with what is wrong with it."""
    for scenario in scenarios:
        yield scenario, scenario.trouble or made_or_why(scenario.network, sizes)


def results_of(scenarios: list[Scenario], sizes: Sizes, program: Program) -> list[Result]:
    """What `solve` answers to each scenario; those that are no document are passed over."""
    pairs = list(built_each(scenarios, sizes))
    answers = program.ask_each("solve", (built.document for _, built in pairs if isinstance(built, Built)))
    return [Result(scenario.name, solved(built, next(answers))) if isinstance(built, Built)
            else Result(scenario.name, trouble=built) for scenario, built in pairs]


def flows(standing: Standing) -> dict[tuple, int]:
    """How many lots, or units, go by each lane by which one goes."""
    counts: dict[tuple, int] = {}
    for lot, count in standing.going(standing.built.lots):
        counts[lot.lane.name] = counts.get(lot.lane.name, 0) + count
    return counts


def summary_table(base: Standing, results: list[Result]) -> Iterator[tuple]:
    """A line for each scenario: what all firms have together, how much more that is, and which flows are others."""
    yield SUMMARY_HEAD
    before = flows(base)
    for result in results:
        if result.standing is None:
            yield result.name, None, None, None, result.trouble
            continue
        after = flows(result.standing)
        moves = [name for name in dict.fromkeys((*before, *after)) if before.get(name, 0) != after.get(name, 0)]
        listed = "; ".join(f"{lane_text(name)}: {digits(base.quantity(before.get(name, 0)))} > "
                           f"{digits(base.quantity(after.get(name, 0)))}" for name in moves)
        surplus = result.standing.surplus
        yield result.name, base.money(surplus), base.money(surplus - base.surplus), listed, None


def lane_text(name: tuple) -> str:
    source, target, *more = name
    return f"{source} to {target}" + "".join(f", {each}" for each in more if each)


def lane_table(base: Standing, results: list[Result], network: Network) -> Iterator[tuple]:
    """For each scenario a line for each lane: what goes by it."""
    yield LANE_HEAD
    before = flows(base)
    for result in results:
        after = flows(result.standing) if result.standing else {}
        for lane in network.lanes if result.standing else ():
            yield (result.name, *lane.name, base.quantity(after.get(lane.name, 0)),
                   base.quantity(before.get(lane.name, 0)))


def firm_table(base: Standing, results: list[Result], scenarios: list[Scenario], network: Network,
               program: Program) -> Iterator[tuple]:
    """For each scenario a line for each of its firms: what it buys, sells and keeps, as `firms` says."""
    yield FIRM_HEAD
    solved_ones = [(result, scenario.network) for result, scenario in zip(results, scenarios) if result.standing]
    standings = [base, *(result.standing for result, _ in solved_ones)]
    answers = program.ask_each("firms", (with_arrangement(each, each.prices) for each in standings))
    before = kept_by(base, network, next(answers))
    for (result, changed_network), answer in zip(solved_ones, answers):
        kept = kept_by(result.standing, changed_network, answer)
        for firm in changed_network.firms:
            bought, sold = (base.quantity(count_of(going)) for going in result.standing.sides(firm))
            yield result.name, firm.name, bought, sold, kept[firm.name], before[firm.name]


def kept_by(standing: Standing, network: Network, answer: dict) -> dict:
    return {firm.name: standing.money(each["utility"]) for firm, each in zip(network.firms, content_firms(answer))}
