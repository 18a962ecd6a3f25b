"""What is tried of a market that is made in a minute, by pointer and keys: a chain with a middleman, a grid, tables that are pasted and
dropped, and what is doubted."""
import io
import json
import time
import zipfile
from base64 import b64encode
from pathlib import Path
from xml.sax.saxutils import escape

import look
from bench import Bench, asked, example

ROOT = Path(__file__).resolve().parents[2]
GRIDS = json.loads((ROOT / "tools/cases/grids.json").read_text())
TABLES = json.loads((ROOT / "tools/cases/tables.json").read_text())


def tries(page: Bench, program: str | None):
    """Each as a name, and whether it is so."""
    for part in (tries_of_a_chain, tries_of_a_grid, tries_to_paste, tries_of_tables, tries_to_drop, tries_of_doubts):
        yield from part(page, program)


def entry(key: str) -> str:
    return f'[data-key="{key}"]'


class Entries:
    """Entries by pointer and keys, which are counted."""

    def __init__(self, page: Bench) -> None:
        self.page, self.count = page, 0

    def click(self, selector: str) -> None:
        self.count += 1
        self.page.click(selector)

    def type(self, selector: str, text: str) -> None:
        self.count += 1
        self.page.click(selector)
        self.page.press("Control+a", *text, "Tab")

    def choose(self, key: str, text: str) -> None:
        """Chooses by letters, as somebody does who has come to a list by Tab."""
        self.count += 1
        self.page.focus(key)
        self.page.press(*text)


def solved(page: Bench, program: str | None, text: str) -> dict:
    return asked(page, program, ["solve"], text)


def tries_of_a_chain(page: Bench, program: str | None):
    """Olga sells to Mia, who sells on to Bo: the middleman of the lesson, from nothing."""
    began, entries = time.monotonic(), Entries(page)
    entries.click("#new")
    for add, name in (("seller-one add", "Olga"), ("middleman add", "Mia"), ("buyer-one add", "Bo")):
        entries.click(entry(add))
        entries.type(entry("firm name"), name)
    entries.choose("firm", "O")
    entries.type(entry("first"), "4")
    for _ in range(2):
        entries.click(entry("trade add"))
    entries.choose("firm", "M")
    entries.type(entry("costs olga-mia"), "1")
    entries.click(entry("trade add"))
    entries.choose("firm", "B")
    for key, worth in (("each mia-bo", "12"), ("each olga-bo", "9")):
        entries.type(entry(key), worth)
    text, spent = page.text(), time.monotonic() - began
    trades = {(trade["seller"], trade["buyer"]) for trade in json.loads(text)["trades"]}
    yield f"a chain with a middleman is made by pointer and keys in under a minute, in {entries.count} entries and {spent:.0f} s", spent < 60 and trades == {("Olga", "Mia"), ("Mia", "Bo"), ("Olga", "Bo")}
    wanted, made = solved(page, program, example("lesson/3-middleman.json")), solved(page, program, text)
    yield "and has the surplus of the lesson's", made["surplus"] == wanted["surplus"] == 7
    yield "each firm says in a line what it does", page.value("document.querySelectorAll('#build-fields fieldset')[1].querySelector('.quiet').textContent").startswith("Buys one, from any of them, and pays up to 9\u201312.")
    yield "nothing is doubted of it", page.value("document.querySelectorAll('[data-key^=\"mend\"]').length") == 0


def grid_rows(name: str) -> list[list[str]]:
    pasted = next(case["pasted"] for case in GRIDS if case["name"].startswith(name))
    return [row.split("\t") for row in pasted.splitlines()]


def cell(row: int, column: int, table: str = "grid") -> str:
    return entry(f"cell {table} {row} {column}")


def tries_of_a_grid(page: Bench, program: str | None):
    """The houses, typed: names, costs and worths."""
    rows, entries = grid_rows("the houses"), Entries(page)
    entries.click("#new")
    entries.click("#sheet-grid")
    for k, name in enumerate(rows[0][1:]):
        entries.type(cell(0, k + 2), name)
    for k, cost in enumerate(rows[1][1:]):
        entries.type(cell(1, k + 2), cost)
    for r, row in enumerate(rows[2:]):
        for k, worth in enumerate(row[1:]):
            entries.type(cell(r + 3, k + 2), worth)
    entries.click("#sheet-make")
    wanted = solved(page, program, example("houses.json"))["surplus"]
    yield f"an assignment of 3 by 3 is typed in {entries.count} entries", entries.count <= 25 and solved(page, program, page.text())["surplus"] == wanted
    yield "the scale is told", page.says("sheet-says").startswith("3 across, 3 down, 9 trades. All numbers are whole")
    page.click(cell(3, 2))
    page.press("Control+a", "2", "3", ",", "5", "0", "ArrowDown")
    yield "an arrow key goes to the cell below", page.focused() == "cell grid 4 2"
    yield "decimals are as people write them, by a scale that is told", page.says("sheet-says") == "3 across, 3 down, 9 trades. The document counts in 0.1, so 1 is 10 there."
    page.press("Control+a", "x")
    yield "what is no number is told at its cell", page.says("sheet-faults") == "the grid, row 5, column C: x is no number" and page.value("document.activeElement.getAttribute('aria-invalid')") == "true"
    page.press("Control+a", "2", "6", "Tab")
    page.click(cell(2, 2))
    page.press("Control+a", "2", "Tab")
    page.click("#sheet-make")
    made = json.loads(page.text())
    yield "a capacity in the margin is the seller's", made["firms"][0]["sets"][0]["from"] == -2 and made["note"] == {"unit": "0.1"}
    page.click("#sheet-close")
    page.press("Control+z")
    yield "and all is taken back", solved(page, program, page.text())["surplus"] == wanted
    page.click("#sheet-grid")
    yield "a grid is one again when its document is open", page.value("document.querySelector(arguments[0]).value", cell(5, 4)) == "17"
    page.click("#sheet-close")


# Puts a text into a field that is then taken from it by keys, as from a spreadsheet.
COPY_FROM = """
const field = document.createElement("textarea");
field.id = "copied-from";
field.value = arguments[0];
document.body.prepend(field);
field.focus();
field.select();"""


def paste(page: Bench, text: str, selector: str | None = None) -> None:
    """Copies a text by keys, and pastes it by keys where the focus is put: at a place, or in the page."""
    page.browser.run(COPY_FROM, text)
    page.press("Control+c")
    page.browser.run("document.getElementById('copied-from').remove()")
    if selector is None:
        page.browser.run("document.activeElement?.blur()")
    else:
        page.click(selector)
    page.press("Control+v")


def tries_to_paste(page: Bench, program: str | None):
    page.click("#new")
    text = next(case["pasted"] for case in GRIDS if case["name"].startswith("the houses"))
    page.click("#sheet-paste")
    paste(page, text, "#sheet-pasted")
    yield "a 3 by 3 assignment is pasted by one", page.text() == next(case["document"] for case in GRIDS if "document" in case)
    page.click("#sheet-close")
    page.click("#new")
    paste(page, text)
    yield "and with no field for it, while the form is open", len(json.loads(page.text())["trades"]) == 9
    paste(page, "24\t25\n27\t28\n", cell(2, 1))
    yield "a block in a cell goes into the cells from there on", [page.value("document.querySelector(arguments[0]).value", cell(r, c)) for r, c in ((2, 1), (2, 2), (3, 1), (3, 2))] == ["24", "25", "27", "28"]
    page.click("#sheet-make")
    yield "and is part of the market then", '["h2-b2",28]' in page.text()
    page.click("#sheet-close")


def tries_of_tables(page: Bench, program: str | None):
    """Firms and lanes, pasted one after the other, are what tools/lanes makes of them."""
    case = next(case for case in TABLES["made"] if case["name"].startswith("tabs"))
    page.click("#new")
    paste(page, case["firms"].replace("\t40\t\t3,25", "\t40\t\tx"))
    yield "after the firms the lanes are wanted", page.says("sheet-says").startswith("Now paste the table of lanes")
    paste(page, case["lanes"])
    yield "a fault is told at its cell", page.says("sheet-faults") == "firms, row 3, column E (at 1): x is no number"
    page.click("#sheet-faults button")
    yield "to which a click leads", page.focused() == "cell firms 2 4"
    page.press("Control+a", *"3,25", "Tab")
    page.click("#sheet-make")
    yield "mended it is the document that tools/lanes makes, byte by byte", page.text() == case["document"]
    yield "the lot and the unit are told", page.says("sheet-says").startswith("A lot is 20, and the document counts money in 1.")
    page.click("#sheet-unit")
    page.press(*"0.1")
    page.click("#sheet-make")
    yield "and may be given", '"unit": "0.1"' in page.text()
    page.click("#sheet-close")


# Drops files on the page; bytes come in base64.
DROP = """
const moved = new DataTransfer();
for (const [name, letters] of arguments[0]) moved.items.add(new File([Uint8Array.from(atob(letters), (letter) => letter.charCodeAt(0))], name));
document.getElementById("drop").dispatchEvent(new DragEvent("drop", {dataTransfer: moved, bubbles: true, cancelable: true}));
return new Promise((done) => setTimeout(done, 300));"""


def drop(page: Bench, *files: tuple[str, str | bytes]) -> None:
    page.browser.run(DROP, [[name, b64encode(data.encode() if isinstance(data, str) else data).decode()] for name, data in files])


def workbook(*sheets: list[list[str]]) -> bytes:
    """A workbook with sheets of cells: numbers as numbers, and texts that are shared."""
    texts, made = [], io.BytesIO()

    def cell(text: str, place: str) -> str:
        if text == "" or text.replace(".", "", 1).isdigit():
            return f'<c r="{place}"><v>{text}</v></c>' if text else ""
        texts.append(f"<si><t>{escape(text)}</t></si>")
        return f'<c r="{place}" t="s"><v>{len(texts) - 1}</v></c>'

    with zipfile.ZipFile(made, "w", zipfile.ZIP_DEFLATED) as parts:
        for k, rows in enumerate(sheets, 1):
            lines = "".join(f'<row r="{r}">' + "".join(cell(text, f"{chr(65 + c)}{r}") for c, text in enumerate(row)) + "</row>" for r, row in enumerate(rows, 1))
            parts.writestr(f"xl/worksheets/sheet{k}.xml", f"<worksheet><sheetData>{lines}</sheetData></worksheet>")
        parts.writestr("xl/sharedStrings.xml", f"<sst>{''.join(texts)}</sst>")
    return made.getvalue()


def tries_to_drop(page: Bench, program: str | None):
    page.open("used-cars.json", look.example("used-cars.json"))
    page.click("#tab-guess")
    case = TABLES["made"][0]
    drop(page, ("firms.csv", case["firms"]), ("lanes.csv", case["lanes"]))
    yield "tables that are dropped are a market", page.text() == case["document"] and page.value("document.getElementById('tab-build').getAttribute('aria-selected')") == "true"
    drop(page, ("grid.csv", ",a,b\ncost,1,1\nX,5,4.5\n"))
    yield "and so is a grid", '"note":{"unit":"0.1"}' in page.text() and page.says("name").startswith("grid.json")
    before = page.text()
    drop(page, ("table.csv", "name;seller;buyer\na;S;3\n"))
    yield "a table of something else is told at its cells", page.text() == before and page.says("sheet-faults") == "the grid, row 2, column B: S is no number"
    drop(page, ("open.csv", 'name,at\n"a,1\nb,2\n'))
    yield "a table with a quote that isn't closed is told as that", page.text() == before and page.says("notice").startswith("open.csv: this is no table of cells parted by ','")
    drop(page, ("book.xlsx", workbook(*([row.split(",") for row in case[name].splitlines()] for name in ("firms", "lanes")))))
    yield "the sheets of a workbook are a market", page.text() == case["document"]
    drop(page, ("none.xlsx", b"PK\3\4 and no more"))
    yield "and of one that can't be read that is told", page.text() == case["document"] and page.says("notice").startswith("none.xlsx is no workbook")
    page.click("#sheet-close")
    for _ in range(3):
        page.click("#undo")
    yield "which is taken back", "used-cars" in page.says("name")


def tries_of_doubts(page: Bench, program: str | None):
    firms = [{"name": "H", "kind": "laminar", "amounts": [["a", -18], ["b", -18], ["c", -18]]}, {"name": "I", "kind": "laminar"},
             *({"name": name, "kind": "laminar", "amounts": [[name.lower(), worth]]} for name, worth in (("A", 20), ("B", 21), ("C", 12)))]
    trades = [{"name": name.lower(), "seller": "H", "buyer": name} for name in "ABC"]
    page.open("house.json", json.dumps({"version": 1, "firms": firms, "trades": trades}).encode())
    page.click("#tab-build")
    surplus = solved(page, program, page.text())["surplus"]
    for _ in range(3):
        page.click(entry("mend 0"))
    whole = json.loads(page.text())
    yield "a house that is sold three times, a firm without a trade and a trade that nobody wants are mended by buttons", (surplus, solved(page, program, page.text())["surplus"]) == (5, 3) and \
        ([firm["name"] for firm in whole["firms"]], [trade["name"] for trade in whole["trades"]]) == (["H", "A", "B", "C"], ["a", "b"])
    page.click(entry("mend 0"))
    yield "and what that leaves", [firm["name"] for firm in json.loads(page.text())["firms"]] == ["H", "A", "B"] and page.value("document.querySelectorAll('[data-key^=\"mend\"]').length") == 0
    page.click("#tab-guess")
