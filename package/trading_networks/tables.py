"""Tables as spreadsheets write them (CSV): each cell with its place, and how a table is written back."""
from __future__ import annotations

import csv
import io
import re
from dataclasses import dataclass, replace
from fractions import Fraction
from typing import Container, Iterable, Iterator, Optional
import unicodedata

SEPARATORS = ",;\t"
BLANKS = " '"  # what may part thousands (`plain` makes a blank of each kind of them)
NUMBER = re.compile(rf"[+-]?(\d+|\d{{1,3}}([{BLANKS}]\d{{3}})+)([.,]\d+)?")
STEPS = r"(quantity|at) [1-9]\d?"
NUMERIC = re.compile(rf"capacity|value|{STEPS}")
MARK = "\ufeff"
NOTE, EVERY = "note", "*"  # the column that isn't looked at; what stands for all other columns


TROUBLES = 20  # as many are told at once


class Trouble(ValueError):
    """What is wrong in a table, with its place, or with what a builder is given."""


def raise_all(troubles: list[str]) -> None:
    """Raises the troubles, if there are any, as one."""
    if troubles:
        more = f"\n.. and {len(troubles) - TROUBLES} more" if len(troubles) > TROUBLES else ""
        raise Trouble("\n".join(troubles[:TROUBLES]) + more)


@dataclass(frozen=True)
class Form:
    """How a file is written: what parts its cells, its decimal sign, its line ends, and whether it has a byte order
    mark."""
    separator: str = ","
    decimal: str = "."
    line_end: str = "\n"
    mark: bool = False


@dataclass(frozen=True)
class Measure:
    """A number of a table and where it stands."""
    value: Fraction
    place: str

    def with_value(self, value: Fraction) -> Measure:
        return Measure(value, self.place)


@dataclass(frozen=True)
class Cell:
    """The text of a cell, without blanks around it, and where it stands."""
    text: str
    place: str
    decimal: str = "."

    def trouble(self, what: str) -> Trouble:
        return Trouble(f"{self.place}: {what}")

    def number(self) -> Optional[Measure]:
        """The number that stands here, or none where the cell is empty."""
        return Measure(self.read(self.text), self.place) if self.text else None

    def read(self, text: str) -> Fraction:
        if not NUMBER.fullmatch(text):
            raise self.trouble(f"{text} is no number")
        other = "." if self.decimal == "," else ","
        if other in text:
            raise self.trouble(f"{text} has the sign {other} where {self.decimal} is the decimal sign: write thousands "
                               f"without a sign; where {other} is the decimal sign of the whole table, say --decimal "
                               f"{'point' if other == '.' else 'comma'}")
        return Fraction(re.sub(f"[{BLANKS}]", "", text).replace(",", "."))


@dataclass(frozen=True)
class Row:
    """A row of a table: its number as a spreadsheet counts it, and its cells by the names of their columns."""
    number: int
    place: str
    cells: dict[str, Cell]

    def __getitem__(self, column: str) -> Cell:
        return self.cells.get(column) or Cell("", f"{self.place}, column {column}, which isn't there")

    def trouble(self, what: str) -> Trouble:
        return Trouble(f"{self.place}: {what}")


@dataclass(frozen=True)
class Table:
    path: str
    form: Form
    rows: list[Row]


def plain(text: str) -> str:
    """A text with single blanks and composed letters, so that one name is one text however it was typed."""
    return " ".join(unicodedata.normalize("NFC", text).split())


def letter_of(index: int) -> str:
    """The letters by which a spreadsheet names a column: A for 0, AA for 26."""
    return (letter_of(index // 26 - 1) if index >= 26 else "") + chr(ord("A") + index % 26)


def read_table(path: str, columns: re.Pattern[str], separator: Optional[str] = None, decimal: Optional[str] = None,
               ignored: Container[str] = ()) -> Table:
    """Reads a table whose first row names its columns, each by a text of `columns` or one that is ignored; empty rows are
    passed over.

    A separator or a decimal sign that isn't given is seen from the file.
    """
    with open(path, "rb") as file:
        text = text_of(path, file.read())
    mark, text = text.startswith(MARK), text.lstrip(MARK)
    separator = separator or seen_separator(text)
    try:
        lines = list(csv.reader(io.StringIO(text, newline=""), delimiter=separator, strict=True))
    except csv.Error as error:
        raise Trouble(f"{path}: this is no table of cells parted by {separator!r}: {error}") from None
    form = Form(separator, decimal or "", "\r\n" if "\r\n" in text else "\n", mark)
    return table_of_lines(path, lines, columns, form, ignored)


def table_of_lines(path: str, lines: list[list[str]], columns: re.Pattern[str], form: Form,
                   ignored: Container[str] = ()) -> Table:
    """The table of lines of cells, of which the first names the columns. A decimal sign that the form hasn't is seen."""
    if not lines:
        raise Trouble(f"{path}: the file is empty")
    head = head_of(path, lines[0], columns, ignored)
    cells = [(k, [plain(cell) for cell in line]) for k, line in enumerate(lines[1:], 2) if any(map(str.strip, line))]
    decimal = form.decimal or seen_decimal(head, (line for _, line in cells), form.separator)
    return Table(path, replace(form, decimal=decimal), [row_of(path, k, line, head, decimal) for k, line in cells])


def text_of(path: str, data: bytes) -> str:
    try:
        return data.decode("utf-8")
    except UnicodeDecodeError as error:
        raise Trouble(f"{path}: byte {error.start + 1} is no UTF-8: save the table as CSV in UTF-8") from None


def seen_separator(text: str) -> str:
    """The one of the separators that the first row has most of, outside quotes."""
    lines = re.sub(r'"[^"]*"', "", text).splitlines()
    return max(SEPARATORS, key=lines[0].count) if lines else SEPARATORS[0]


def seen_decimal(head: list[str], lines: Iterable[list[str]], separator: str) -> str:
    """A comma where commas don't part the cells and some number has one, or semicolons do and no number has a point."""
    numbers = [cell for line in lines for name, cell in zip(head, line) if NUMERIC.fullmatch(name)]
    is_comma = any("," in cell for cell in numbers) or (separator == ";" and not any("." in cell for cell in numbers))
    return "," if separator != "," and is_comma else "."


def head_of(path: str, line: list[str], columns: re.Pattern[str], ignored: Container[str] = ()) -> list[str]:
    """The names of columns. One that is ignored is a note; where EVERY is, each that isn't in `columns` is."""
    head = [plain(name).lower().replace("_", " ") for name in line]
    head = [NOTE if name in ignored or (EVERY in ignored and not columns.fullmatch(name)) else name for name in head]
    for k, name in enumerate(head):
        place = f"{path}, row 1, column {letter_of(k)}"
        if name and not columns.fullmatch(name):
            raise Trouble(f"{place}: there is no column {name} in such a table; there are {named(columns)}")
        if name and name != NOTE and name in head[:k]:
            raise Trouble(f"{place}: there is a column {name} already")
    return head


def named(columns: re.Pattern[str]) -> str:
    """The names of columns, as people read them."""
    return columns.pattern.replace(STEPS, "quantity 1|at 1|quantity 2|at 2 and so on").replace("|", ", ")


def row_of(path: str, number: int, line: list[str], head: list[str], decimal: str) -> Row:
    place, cells = f"{path}, row {number}", {}
    for k, text in enumerate(line):
        name = head[k] if k < len(head) else ""
        if name:
            cells[name] = Cell(text, f"{place}, column {letter_of(k)} ({name})", decimal)
        elif text:
            raise Trouble(f"{place}, column {letter_of(k)}: {text} stands in a column without a name; "
                          "a decimal comma needs quotes where commas part the cells")
    return Row(number, place, cells)


def guarded(text: str) -> str:
    """A text that no spreadsheet takes for a formula."""
    is_formula = text[:1] in ("=", "@") or (text[:1] in ("+", "-") and not NUMBER.fullmatch(text))
    return "'" + text if is_formula else text


def written(form: Form, *tables: Iterable[Iterable[object]]) -> str:
    """Tables as text in a form, with an empty line between them; a number is a Fraction, or a whole one, and None is an
    empty cell."""
    out = io.StringIO(newline="")
    writer = csv.writer(out, delimiter=form.separator, lineterminator=form.line_end)
    for k, table in enumerate(tables):
        out.write(form.line_end if k > 0 else "")
        writer.writerows(list(cells_of(form, row)) for row in table)
    return (MARK if form.mark else "") + out.getvalue()


def cells_of(form: Form, row: Iterable[object]) -> Iterator[str]:
    for value in row:
        if isinstance(value, (int, Fraction)):
            yield digits(Fraction(value)).replace(".", form.decimal)
        else:
            yield guarded("" if value is None else str(value))


def digits(value: Fraction, most: int = 6) -> str:
    """A number in digits: exact where `most` digits after the point are enough, and otherwise rounded to these."""
    scaled = round(value * 10 ** most)
    whole, part = divmod(abs(scaled), 10 ** most)
    text = f"{whole}.{part:0{most}}".rstrip("0").rstrip(".")
    return "-" + text if scaled < 0 else text
