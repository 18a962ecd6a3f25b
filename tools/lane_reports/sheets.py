"""Tables out of files: CSV, or the first sheet of a workbook (.xlsx, .ods), where python3-openpyxl or python3-odf is."""
from __future__ import annotations

import pathlib
import re
import zipfile
from decimal import Decimal
from fractions import Fraction
from typing import Any, Container, Optional

from trading_networks.tables import Form, Table, Trouble, digits, read_table, table_of_lines

MOST_DIGITS = 18
MOST_REPEATED = 100  # as many cells that are one in a file are taken; more are empty ones to the end of a sheet


def read(path: str, columns: re.Pattern[str], separator: Optional[str], decimal: Optional[str],
         ignored: Container[str]) -> Table:
    """The table of a file; numbers of a workbook are as they were typed, and its table is written as CSV with commas."""
    readers = {".xlsx": lines_of_xlsx, ".ods": lines_of_ods}
    reader = readers.get(pathlib.Path(path).suffix.lower())
    if reader is None:
        return read_table(path, columns, separator, decimal, ignored)
    try:
        lines = reader(path)
    except ImportError as error:
        raise Trouble(f"{path}: to read this, python3-{'odf' if error.name == 'odf' else error.name} is needed; or save the "
                      "table as CSV in UTF-8") from None
    except (zipfile.BadZipFile, KeyError, ValueError) as error:
        raise Trouble(f"{path}: this is no workbook: {error}") from None
    return table_of_lines(path, lines, columns, Form(separator or ",", "."), ignored)


def lines_of_xlsx(path: str) -> list[list[str]]:
    import openpyxl
    book = openpyxl.load_workbook(path, read_only=True, data_only=True)
    return [[text_of(value) for value in row] for row in book.worksheets[0].iter_rows(values_only=True)]


def lines_of_ods(path: str) -> list[list[str]]:
    import odf.opendocument
    import odf.table
    sheet = odf.opendocument.load(path).getElementsByType(odf.table.Table)[0]
    lines: list[list[str]] = []
    for row in sheet.getElementsByType(odf.table.TableRow):
        cells: list[str] = []
        for cell in row.getElementsByType(odf.table.TableCell):
            cells += [ods_text(cell)] * min(int(cell.getAttribute("numbercolumnsrepeated") or 1), MOST_REPEATED)
        lines += [cells] * min(int(row.getAttribute("numberrowsrepeated") or 1), MOST_REPEATED)
    return lines


def ods_text(cell: Any) -> str:
    import odf.teletype
    value = cell.getAttribute("value")
    return odf.teletype.extractText(cell) if value is None else text_of(float(value))


def text_of(value: Any) -> str:
    """What stands in a cell, a number as the shortest decimal number that it is."""
    if value is None:
        return ""
    if isinstance(value, (int, float)) and not isinstance(value, bool):
        return digits(Fraction(Decimal(repr(value))), MOST_DIGITS)
    return str(value)
