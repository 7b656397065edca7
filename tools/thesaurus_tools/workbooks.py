"""Writes tables as spreadsheets save them: Excel (XLSX) and OpenDocument (ODS). Each cell is a text."""
from __future__ import annotations

import importlib.util
import io
import re
from collections import Counter
from collections.abc import Iterable, Sequence
from dataclasses import dataclass, field

from thesaurus_tools.system_python import PackageError, run_by_system_python

# What XML, and so a cell, can't have; and the most characters of a cell of Excel.
NO_TEXT = re.compile("[\x00-\x08\x0b\x0c\x0e-\x1f\ufffe\uffff]")
LONGEST_CELL = 32_767
# The name of the sheet that says what cells can't have.
LEFT_OUT = "Left out"
# The forms that need a library, with its module: Debian's python3-odf and python3-openpyxl.
MODULES = {"ods": "odf", "xlsx": "openpyxl"}
MEDIA = {
    "csv": "text/csv; charset=utf-8",
    "ods": "application/vnd.oasis.opendocument.spreadsheet",
    "xlsx": "application/vnd.openxmlformats-officedocument.spreadsheetml.sheet",
}
Rows = Iterable[Sequence[str]]


@dataclass
class LeftOut:
    """What a file of cells hasn't: characters, as U+FFFE, by how often there are some; and how many texts are cut."""

    characters: Counter[str] = field(default_factory=Counter)
    cut: int = 0

    def __bool__(self) -> bool:
        return bool(self.characters or self.cut)

    def cell(self, text: str, most: int | None = None) -> str:
        """Returns what a cell has of a text, and notes the rest."""
        self.characters.update(f"U+{ord(it):04X}" for it in NO_TEXT.findall(text))
        shown = NO_TEXT.sub("", text)
        if most is not None and len(shown) > most:
            self.cut += 1
        return shown[:most]

    def rows(self) -> list[list[str]]:
        """Returns it as the rows of a sheet; none if nothing is left out."""
        found = [[it, str(count)] for it, count in sorted(self.characters.items())]
        return found + ([[f"texts after {LONGEST_CELL:,} characters", str(self.cut)]] if self.cut else [])


def writable_forms() -> list[str]:
    """Returns the forms of tables that can be written here."""
    return [it for it in MEDIA if it not in MODULES or importlib.util.find_spec(MODULES[it])]


def workbook(form: str, rows: Rows, left_out: LeftOut) -> bytes:
    """Returns rows as a file of a form that is no CSV, and notes what it hasn't."""
    return (ods if form == "ods" else xlsx)(rows, "1", left_out)


def xlsx(rows: Rows, title: str, left_out: LeftOut) -> bytes:
    """Returns a table as an Excel file. What would be a formula is a text. A second sheet says what is left out."""
    try:
        from openpyxl import Workbook  # (Debian's python3-openpyxl; only these files need it)
        from openpyxl.cell import WriteOnlyCell
    except ImportError:
        run_by_system_python("openpyxl")
        raise PackageError("python3-openpyxl") from None
    book = Workbook(write_only=True)

    def add_sheet(name: str, its: Rows) -> None:
        sheet = book.create_sheet(name)
        sheet.freeze_panes = "A2"
        for row in its:
            cells = [WriteOnlyCell(sheet, left_out.cell(it, LONGEST_CELL)) for it in row]
            for cell in cells:
                cell.data_type = "s"
            sheet.append(cells)

    add_sheet(re.sub(r"[\\/*?:\[\]]", " ", title)[:31] or "1", rows)
    if left_out:
        add_sheet(LEFT_OUT, left_out.rows())
    out = io.BytesIO()
    book.save(out)
    return out.getvalue()


def ods(rows: Rows, title: str, left_out: LeftOut) -> bytes:
    """Returns a table as an OpenDocument file: a line of a text is a paragraph. A second sheet says what is left
    out."""
    try:
        from odf import opendocument, table, teletype, text  # (Debian's python3-odf; only these files need it)
    except ImportError:
        run_by_system_python("odf")
        raise PackageError("python3-odf") from None
    book = opendocument.OpenDocumentSpreadsheet()

    def add_sheet(name: str, its: Rows) -> None:
        sheet = table.Table(name=name or "1")
        for row in its:
            line = table.TableRow()
            for it in row:
                cell = table.TableCell(valuetype="string") if it else table.TableCell()
                for part in left_out.cell(it).split("\n") if it else ():
                    paragraph = text.P()
                    teletype.addTextToElement(paragraph, part)
                    cell.addElement(paragraph)
                line.addElement(cell)
            sheet.addElement(line)
        book.spreadsheet.addElement(sheet)

    add_sheet(title, rows)
    if left_out:
        add_sheet(LEFT_OUT, left_out.rows())
    out = io.BytesIO()
    book.write(out)
    return out.getvalue()
