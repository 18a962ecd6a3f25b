"""What tools/lanes_test tries of tables by quantities, where a lane is one trade with many units."""
import csv
import importlib.util
import io
import random
import time
from fractions import Fraction

from lanes_drawn import best_surplus, chain_tables, drawn_network, drawn_tables
from lanes_flow import by_scipy, in_money
from lane_reports import more, report
from lane_reports.progress import Progress
from trading_networks.lane_tables import FIRM_COLUMNS, LANE_COLUMNS, network_of
from trading_networks.lanes import sizes_in_units
from trading_networks.tables import Trouble, digits, read_table
from trading_networks.unit_lanes import counting

ONE = "firm,role,capacity,quantity 1,at 1,at 2\nS,sells,12.5,7.5,3,5\nB,buys,20,10,9,4\n"
GATE = "firm,role,at 1\nS,sells,1\nT,sells,2\nB,buys,9\nC,buys,8\n"
GATE_LANES = "from,to,capacity,shared\nS,B,30,Gate = 40\nS,C,30,Gate = 40 | Ramp = 10\nT,B,30,\n"


class Report:
    """What `solve` says of two tables: its tables by their first columns, and what is told beside them."""

    def __init__(self, room, firms, lanes, *options):
        room.put("firms.csv", firms)
        room.put("lanes.csv", lanes)
        self.status, text, self.told = room.run("solve", "firms.csv", "lanes.csv", *options)
        tables = [list(csv.reader(io.StringIO(part))) for part in text.split("\n\n") if part]
        self.tables = {tuple(table[0][:2]): [dict(zip(table[0], row)) for row in table[1:]] for table in tables}
        self.totals = {row["total"]: row["value"] for row in self.tables.get(("total", "value"), ())}
        self.lanes, self.firms = self.tables.get(("from", "to"), []), self.tables.get(("firm", "role"), [])
        self.scarce = {row["firm"] or row["shared"] or f"{row['from']} to {row['to']}": row
                       for row in self.tables.get(("firm", "from"), ())}


def try_one(room, count):
    """12.5 tonnes are 125 tenths: 10 go to who pays 9, and 2.5 more to who pays 4, of which none costs less than 5."""
    found = Report(room, ONE, "from,to\nS,B\n")
    count.same("fractions of a unit are told", "lanes: taken: quantities in units of 0.1, --unit 0.1\n",
               "".join(line for line in found.told.splitlines(True) if "taken" in line))
    surplus = Fraction("7.5") * 6 + Fraction("2.5") * 4
    count.same("its surplus", digits(surplus), found.totals.get("surplus"))
    count.same("its flow", ["10"], [row["flow"] for row in found.lanes])
    count.same("what isn't served", ("20", "10", "10"), tuple(found.totals.get(f"demand{more}") for more in (
        "", " served", " not served")))
    count.same("nothing is used up", {}, found.scarce)
    found = Report(room, ONE.replace("12.5", "8.5"), "from,to,note,plant\nS,B,x,y\n", "--ignore", "plant")
    row = found.scarce.get("S", {})
    count.same("one more of what is used up: 9 - 5 each, for 1.5", ("4", "1.5"),
               (row.get("one more brings"), row.get("for so many more")))
    told = Report(room, ONE, "from,to,plant\nS,B,y\n").told
    count.note("a column that isn't ignored", "lanes.csv, row 1, column C: there is no column plant" in told, told)
    found = Report(room, ONE, "from,to,plant,gate\nS,B,y,z\n", "--ignore", "*")
    count.same("all others are ignored", 0, found.status)


def try_served(room, count):
    """A customer that has to be served gets all before another, however much that pays."""
    firms = "firm,role,capacity,at 1\nS,sells,50,1\nB,must buy,30,\nC,buys,40,99\n"
    found = Report(room, firms, "from,to,at 1\nS,B,500\nS,C,1\n")
    count.same("who must buy is served", ["30", "20"], [row["flow"] for row in found.lanes])
    count.note("its worth is told", "who must buy has" in found.told and "gets" not in found.told, found.told)
    found = Report(room, firms, "from,to,at 1,capacity\nS,B,500,25\nS,C,1,\n")
    count.note("who can't be served is told", "firms.csv, row 3: B gets 25 of 30" in found.told, found.told)
    told = Report(room, firms.replace("must buy,30", "must buy,"), "from,to\nS,B\n").told
    count.note("who must buy needs a capacity", "firms.csv, row 3, column C (capacity): a firm that must buy" in told, told)


def try_shared(room, count):
    """A gate for 40 of two lanes, and within it a ramp for 10 of one: 30 at 9 - 1 and 10 at 8 - 1 go by it."""
    found = Report(room, GATE, GATE_LANES)
    count.same("flows by a gate", ["30", "10", "30"], [row["flow"] for row in found.lanes])
    count.same("the surplus of a gate", digits(30 * 8 + 10 * 7 + 30 * 7), found.totals.get("surplus"))
    count.same("one more of a gate", "0", found.scarce.get("Gate", {}).get("one more brings"))
    found = Report(room, GATE, GATE_LANES.replace("Gate = 40", "Gate = 35"))
    count.same("one more of a gate that is narrower, for 5", ("7", "5"), tuple(found.scarce.get("Gate", {}).get(
        name) for name in ("one more brings", "for so many more")))
    for old, new, said in (
            ("Ramp = 10\n", "Ramp = 10\nS,D,,Ramp = 10\n",
             "lanes.csv, row 4 (shared): Ramp crosses Gate of row 2: both have row 3"),
            ("Ramp = 10\nT,B,30,", "Ramp = 10\nT,B,30,Gate = 40", "lanes.csv, row 4 (shared): Gate is of row 2 too"),
            ("Gate = 40 |", "Gate = 50 |", "lanes.csv, row 3 (shared): Gate is not 40 here, as it is in row 2"),
            ("Ramp = 10", "Ramp", "lanes.csv, row 3, column D (shared): Ramp is no name with a capacity")):
        told = Report(room, GATE + "D,buys,7\n", GATE_LANES.replace(old, new, 1)).told
        count.note(f"refused: {said}", told.startswith(f"lanes: {said}"), told)
    told = room.run("document", "firms.csv", "lanes.csv", "--lot", "1")[2]
    count.note("shared in lots", "Ramp" in told or "can't be said in lots" in told, told)


def try_new(room, count):
    """Two empty tables, which can be read, and are not written over."""
    for name in ("firms.csv", "lanes.csv"):
        (room.folder / name).unlink(missing_ok=True)
    count.same("new tables", 0, room.run("new")[0])
    count.same("they are not written over", (1, True), (room.run("new")[0], "File exists" in room.run("new")[2]))
    status, text, told = room.run("solve", "firms.csv", "lanes.csv", "--html", "report.html")
    count.same("tables without a firm", (0, True), (status, text.startswith("total,value\nsurplus,0\n")))
    for name, row in (("firms.csv", "S,sells,5,,1,,,\nB,buys,3,,4,,,\n"), ("lanes.csv", "S,B,,,,,,,\n")):
        room.put(name, (room.folder / name).read_text() + row)
    status, text, told = room.run("solve", "firms.csv", "lanes.csv", "--html", "report.html")
    count.same("they are filled in", (0, True), (status, text.startswith("total,value\nsurplus,9\n")))
    page = (room.folder / "report.html").read_text()
    count.note("a page of it", "<svg" in page and "What one more unit" in page and "http" not in page, page[:300])


def try_asking(room, count, program):
    """One process is asked all questions about one more unit; what takes longer is told while it does; and a column that
    nobody knows is told with what passes it over."""
    counted = room.folder / "counted"
    counted.write_text(f'#!/bin/sh\necho "$@" >> "{room.folder}/starts"\n[ "$*" = solve ] && sleep 3\n'
                       f'exec "{program.path}" "$@"\n')
    counted.chmod(0o755)
    (room.folder / "starts").unlink(missing_ok=True)
    found = Report(room, ONE.replace("12.5", "8.5"), "from,to\nS,B\n", "--market", str(counted), "--seconds", "60")
    count.same("processes for a report", ["firms", "range", "solve", "solve --lines"],
               sorted((room.folder / "starts").read_text().splitlines()))
    count.note("what takes longer is told", "lanes: 2 s: solve: 2 firms, 1 lanes" in found.told, found.told)
    found = Report(room, ONE.replace("12.5", "8.5"), "from,to\nS,B\n", "--market", str(counted), "--seconds", "1")
    count.note("where there is no time for questions", "1 of 1 capacities" in found.told and
               found.scarce.get("S", {}).get("remark") == "not asked in time", found.told)
    told = Report(room, ONE, "from,to,plant\nS,B,y\n").told
    count.note("what passes a column over", "--ignore passes over a column" in told, told)


def try_report(room, count):
    """A document of its own and its answers make the same tables as `solve`."""
    wanted = Report(room, GATE, GATE_LANES.replace("Gate = 40", "Gate = 35"))
    room.put("document.json", room.run("document", "firms.csv", "lanes.csv")[1])
    for table, listed in (("lanes", wanted.lanes), ("firms", wanted.firms), ("capacities", list(wanted.scarce.values()))):
        text = room.run("report", "firms.csv", "lanes.csv", "document.json", "--table", table)[1]
        count.same(f"a report of {table}", (True, listed), (bool(listed), list(csv.DictReader(io.StringIO(text)))))


def try_workbooks(room, count):
    """The same tables as workbooks say the same; where their readers aren't, that is told."""
    tables = {"firms": ONE, "lanes": "from,to,capacity\nS,B,9.3\n"}
    wanted = Report(room, *tables.values())
    for kind, module, write in ((".xlsx", "openpyxl", write_xlsx), (".ods", "odf", write_ods)):
        if importlib.util.find_spec(module) is None:
            print(f"there is no python3-{module} here: no {kind} is tried")
            continue
        for name, text in tables.items():
            write(str(room.folder / (name + kind)), list(csv.reader(io.StringIO(text))))
        status, text, told = room.run("solve", f"firms{kind}", f"lanes{kind}")
        count.same(f"{kind} as CSV", (0, True), (status, f"surplus,{wanted.totals['surplus']}\n" in text))
    room.put("broken.xlsx", b"no workbook")
    told = room.run("solve", "broken.xlsx", "lanes.csv")[2]
    count.note("no workbook", "broken.xlsx: " in told and "Traceback" not in told, told)


def typed(cell):
    try:
        return float(cell)
    except ValueError:
        return cell or None


def write_xlsx(path, rows):
    import openpyxl
    book = openpyxl.Workbook()
    for row in rows:
        book.active.append([typed(cell) for cell in row])
    book.save(path)


def write_ods(path, rows):
    import odf.opendocument
    import odf.table
    import odf.text
    book, sheet = odf.opendocument.OpenDocumentSpreadsheet(), odf.table.Table(name="a")
    for row in rows:
        line = odf.table.TableRow()
        for value in map(typed, row):
            cell = odf.table.TableCell(**({"valuetype": "float", "value": value} if isinstance(value, float) else {}))
            cell.addElement(odf.text.P(text="" if value is None else str(value)))
            line.addElement(cell)
        sheet.addElement(line)
    book.spreadsheet.addElement(sheet)
    book.save(path)


def read_network(room, firms, lanes, decimal=None):
    room.put("firms.csv", firms)
    room.put("lanes.csv", lanes)
    paths = [str(room.folder / name) for name in ("firms.csv", "lanes.csv")]
    return network_of(*(read_table(path, columns, None, decimal) for path, columns in zip(paths, (FIRM_COLUMNS, LANE_COLUMNS))))


def try_random_quantities(room, count, program, draw, number):
    """Random tables: the surplus is that of paths of least cost; what one more of a capacity brings, and for how many, is
    so by a question for each number; and where scipy is there, prices are its."""
    has_scipy = importlib.util.find_spec("scipy") is not None
    if not has_scipy:
        print("there is no scipy here: no surplus and no price is held to it")
    for k in range(number):
        lot, firms, lanes = drawn_network(draw)
        firm_text, lane_text, decimal = drawn_tables(draw, lot, firms, lanes)
        network = read_network(room, firm_text, lane_text, "," if decimal else None)
        sizes = sizes_in_units([network], None, False)
        counted = counting(network, sizes)
        built = counted.built()
        standing = report.solved(built, program.run("solve", built.document))
        count.same(f"quantities {k}: surplus", best_surplus(lot, firms, lanes), standing.money(standing.surplus))
        if has_scipy:
            try_kept(count, f"quantities {k}", network, try_prices(count, f"quantities {k}", network, standing, program), program)
        if k % 5 == 0:
            try_more(count, f"quantities {k}", standing, counted, program)


def try_prices(count, name, network, standing, program):
    """Surplus, and the bounds of prices of lanes by which something may go, as scipy has them."""
    sizes = standing.built.sizes
    surplus, lows, highs = by_scipy(network, sizes.lot, sizes.unit)
    count.same(f"{name}: surplus by scipy", surplus, standing.surplus)
    try:
        ranged = report.with_ranges(standing, program.run("range", standing.built.document))
    except Trouble as trouble:
        print(f"{name}: no bounds of prices are held to scipy: {trouble}")
        return standing
    for lane, *wanted in zip(network.lanes, in_money(lows, sizes.lot, sizes.unit), in_money(highs, sizes.lot, sizes.unit)):
        found = [(ranged.lowest.of[lot.code], ranged.highest.of[lot.code]) for lot in standing.lots_of(lane)]
        if found:
            count.same(f"{name}: {lane}", wanted, in_money(found[0], sizes.lot, sizes.unit))
    return ranged


def try_kept(count, name, network, standing, program):
    """What firms keep at all lowest prices, and at all highest ones, is what `firms` says there, and all are content."""
    head, *rows = report.firm_table(standing, network.firms, program)
    for prices, side in ((standing.prices, "kept"), (standing.lowest, "kept at lowest"), (standing.highest, "kept at highest")):
        if prices is not None and prices.are_all_there():
            told = report.content_firms(program.run("firms", report.with_arrangement(standing, prices)))
            count.same(f"{name}: {side}", [standing.money(firm["utility"]) for firm in told],
                       [row[head.index(side)] for row in rows])


def try_more(count, name, standing, counted, program):
    """The gain of so many more is that of one more, times the number, and that of one further unit isn't."""
    with Progress() as progress:
        found = more.ask_more(standing, counted, program, 60, progress)
    for each in found:
        if not each.gain or each.next() is not None:
            continue
        listed = [1, each.least, each.least + 1]
        answers = program.ask_each("solve", (counted.wider(each.part, number) for number in listed))
        gains = [answer["surplus"] - standing.surplus for answer in answers]
        count.note(f"{name}: one more of {each.cells}", gains[:2] == [each.gain, each.gain * each.least] and
                   gains[2] < each.gain * (each.least + 1), [gains, each])


def try_chain(room, count, program, size, seconds):
    """A drawn chain goes from tables to a report in one command, which takes so many seconds where nothing else runs."""
    firms, lanes = chain_tables(random.Random(1), size)
    network = read_network(room, firms, lanes)
    begun = time.monotonic()
    status, text, told = room.run("solve", "firms.csv", "lanes.csv", "--html", "report.html")
    took = time.monotonic() - begun
    print(f"{size} lanes: {took:.1f} s from tables to report (wanted are {seconds} s where nothing else runs)")
    count.same(f"{size} lanes", (0, True), (status, text.startswith("total,value\n")))
    if importlib.util.find_spec("scipy") is not None:
        sizes = sizes_in_units([network], None, False)
        built = counting(network, sizes).built()
        try_prices(count, f"{size} lanes", network, report.solved(built, program.run("solve", built.document)), program)


def try_all(room, count, program, draw, number, is_large):
    for each in (try_one, try_served, try_shared, try_report, try_new, try_workbooks):
        each(room, count)
    try_asking(room, count, program)
    try_random_quantities(room, count, program, draw, number)
    try_chain(room, count, program, 120, 2)
    if is_large:
        try_chain(room, count, program, 2_000, 20)
