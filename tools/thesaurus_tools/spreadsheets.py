"""Reads tables of cells from what spreadsheets save: CSV in its encodings, OpenDocument (ODS) and Excel (XLSX)."""
from __future__ import annotations

import datetime
import io
import zipfile
from collections.abc import Iterable, Iterator
from pathlib import Path
from typing import Any, NamedTuple

from thesaurus_tools.command_line import USAGE, ToolError
from thesaurus_tools.files import ARCHIVE, TableError, decode, read_table_file, rows_of_text
from thesaurus_tools.formulas import remove_guard
from thesaurus_tools.system_python import run_by_system_python

# The most bytes that a compressed file unpacks to, and the most rows, columns and cells that are read.
MOST_UNPACKED, MOST_ROWS, MOST_COLUMNS, MOST_CELLS = 256 << 20, 200_000, 1_000, 4_000_000
# What a formula that failed leaves in its cell.
FAILED = frozenset(("#REF!", "#NAME?", "#VALUE!", "#DIV/0!", "#N/A", "#NUM!", "#NULL!"))


class Row(NamedTuple):
    """A row that isn't blank: its line or row number in the file, and its cells as texts."""

    line: int
    cells: list[str]


def read_table(path: Path, encoding: str = "", sheet: str = "") -> list[Row]:
    """Returns the rows of a table that aren't blank, the heading first. Raises TableError for what is no table."""
    try:
        return rows_of_table(path, encoding, sheet)
    except TableError as error:
        error.status = USAGE
        raise


def rows_of_table(path: Path, encoding: str, sheet: str) -> list[Row]:
    """Returns the rows of a table that aren't blank, each as long as the first."""
    data = read_table_file(path)
    if data.startswith(ARCHIVE):
        cells = read_workbook(path, data, sheet)
    elif sheet:
        raise ToolError(f"{path}: --sheet is for ODS and XLSX files", USAGE)
    else:
        advice = "save the table as UTF-8, or name its encoding: --encoding cp1252 is that of Windows in the West"
        texts = rows_of_text(path, decode(path, data, encoding, advice))
        cells = ((line, [remove_guard(it.strip()) for it in row]) for line, row in texts)
    rows: list[Row] = []
    for line, row in cells:
        if any(row):
            rows.append(Row(line, row))
            check_row(path, rows[-1], len(rows[0].cells))
        is_many = (
            len(rows) > MOST_ROWS or len(row) > MOST_COLUMNS or rows and len(rows) * len(rows[0].cells) > MOST_CELLS
        )
        if is_many:
            raise TableError("many", path, line, rows=MOST_ROWS, columns=MOST_COLUMNS, cells=MOST_CELLS)
    if not rows:
        raise TableError("empty", path)
    width = len(rows[0].cells)
    return [Row(it.line, (it.cells + [""] * width)[:width]) for it in rows]


def check_row(path: Path, row: Row, width: int) -> None:
    """Refuses a row with more cells than columns, or with a formula that failed."""
    if any(row.cells[width:]):
        raise TableError("wide", path, row.line)
    if failed := next((it for it in row.cells if it in FAILED), ""):
        raise TableError("failed_formula", path, row.line, cell=failed)


def read_workbook(path: Path, data: bytes, sheet: str) -> Iterable[tuple[int, list[str]]]:
    """Returns the rows of a sheet of an ODS or XLSX file: the one of this name, or the first."""
    try:
        with zipfile.ZipFile(io.BytesIO(data)) as archive:
            names = set(archive.namelist())
            unpacked = sum(it.file_size for it in archive.infolist())
            if unpacked > MOST_UNPACKED:
                raise TableError("unpacks", path, megabytes=unpacked >> 20)
            for it in archive.infolist():
                check_entry(path, archive, it)
    except (zipfile.BadZipFile, NotImplementedError, RuntimeError, EOFError, ValueError) as error:
        raise TableError("damaged", path, form="ODS or XLSX", error=error) from None
    if "xl/workbook.xml" in names:
        return read_xlsx(path, data, sheet)
    if "content.xml" in names:
        return read_ods(path, data, sheet)
    raise TableError("other_archive", path)


def check_entry(path: Path, archive: zipfile.ZipFile, entry: zipfile.ZipInfo) -> None:
    """Refuses a part of an archive with entities of its own, which could grow without end."""
    if entry.filename.endswith((".xml", ".rels")):
        with archive.open(entry) as part:
            # (in UTF-16 there are zeros between; and it may come after any number of comments)
            if b"<!DOCTYPE" in part.read().replace(b"\0", b""):
                raise TableError("declares", path, part=entry.filename)


def read_xlsx(path: Path, data: bytes, sheet: str) -> Iterator[tuple[int, list[str]]]:
    """Yields the rows of a sheet of an Excel file, formulas by their last values."""
    try:
        import openpyxl  # (Debian's python3-openpyxl; only these files need it)
    except ImportError:
        run_by_system_python("openpyxl")
        raise TableError("needs", path, status=USAGE, form="XLSX", package="python3-openpyxl") from None
    try:
        # (once for the values, and once for the formulas, which may lack their values)
        books = [openpyxl.load_workbook(io.BytesIO(data), read_only=True, data_only=it) for it in (True, False)]
        name = choose_sheet(path, sheet, books[0].sheetnames)
        rows = zip(*(it[name].iter_rows(values_only=True) for it in books))
        for line, (values, written) in enumerate(rows, 1):
            if any(value is None and it is not None for value, it in zip(values, written)):
                raise TableError("no_value", path, line)
            yield line, [cell_text(it) for it in values]
    except TableError:
        raise
    except Exception as error:  # (openpyxl has no class of its own for damaged files)
        raise TableError("damaged", path, form="XLSX", error=f"{type(error).__name__}: {error}") from None


def read_ods(path: Path, data: bytes, sheet: str) -> Iterator[tuple[int, list[str]]]:
    """Yields the rows of a sheet of an OpenDocument file."""
    try:
        from odf import opendocument, table, teletype  # (Debian's python3-odf; only these files need it)
    except ImportError:
        run_by_system_python("odf")
        raise TableError("needs", path, status=USAGE, form="ODS", package="python3-odf") from None
    try:
        pages = {
            it.getAttribute("name"): it
            for it in opendocument.load(io.BytesIO(data)).spreadsheet.getElementsByType(table.Table)
        }
    except Exception as error:  # (odf passes on what its XML reader raises)
        raise TableError("damaged", path, form="ODS", error=f"{type(error).__name__}: {error}") from None
    line = 1
    for row in pages[choose_sheet(path, sheet, list(pages))].getElementsByType(table.TableRow):
        cells: list[str] = []
        for cell in row.getElementsByType(table.TableCell):
            # (between paragraphs there may be spaces, which are no elements)
            paragraphs = [it for it in cell.childNodes if getattr(it, "qname", ("", ""))[1] == "p"]
            text = "\n".join(map(teletype.extractText, paragraphs)).strip()
            # (a day has its form of the sheet in the text)
            text = day_of(cell.getAttribute("datevalue") or "") or text
            if not text and cell.getAttribute("formula") and not cell.getAttribute("valuetype"):
                raise TableError("no_value", path, line)
            room = MOST_COLUMNS + bool(text) - len(cells)
            cells += [text] * min(repeats(path, cell, "numbercolumnsrepeated"), max(0, room))
        while cells and not cells[-1]:
            cells.pop()
        times = repeats(path, row, "numberrowsrepeated")
        for at in range(times if cells else 0):
            yield line + at, list(cells)
        line += times


def repeats(path: Path, element: Any, name: str) -> int:
    """Returns how often a cell or a row of an OpenDocument file stands there."""
    text = element.getAttribute(name) or "1"
    if not (text.isascii() and text.isdigit() and len(text) < 16):
        raise TableError("damaged", path, form="ODS", error=f"{name} is {text!r}")
    return int(text)


def choose_sheet(path: Path, sheet: str, names: list[str]) -> str:
    """Returns the name of the sheet to read. Raises TableError if there is none of the name that the caller wants."""
    if not names or sheet and sheet not in names:
        raise TableError("no_sheet", path, sheet=sheet, sheets=", ".join(map(repr, names)) or "none")
    return sheet or names[0]


def cell_text(value: object) -> str:
    """Returns the text of a cell: a whole number without a point, nothing for an empty one."""
    if value is None:
        return ""
    if isinstance(value, float) and value.is_integer():
        return str(int(value))
    if isinstance(value, datetime.datetime):
        return day_of(value.isoformat())
    return str(value).strip()


def day_of(time: str) -> str:
    """Returns a day without the midnight that spreadsheets give it; another time with a space before the hours."""
    return time.removesuffix("T00:00:00").replace("T", " ")
