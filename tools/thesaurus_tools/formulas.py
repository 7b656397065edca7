"""Keeps spreadsheets from taking a cell of CSV for a formula: an apostrophe before what would be one, which goes when
the table is read. A spreadsheet may part cells otherwise than the file does, so what follows a sign that parts cells
somewhere is guarded, too."""
from __future__ import annotations

import re

# Where a cell begins for some spreadsheet, and a formula with any number of apostrophes before it.
BEGIN, FORMULA = r"((?:^|[,;\t\r\n])[ \"]*)", r"('*)(?=[=+\-@])"
UNGUARDED, GUARDED = re.compile(BEGIN + FORMULA), re.compile(f"{BEGIN}'{FORMULA}")


def guard(cell: str) -> str:
    """Returns a cell that no spreadsheet takes for a formula."""
    return UNGUARDED.sub(r"\1'\2", cell)


def remove_guard(cell: str) -> str:
    """Returns a cell without the apostrophes that `guard` has written."""
    return GUARDED.sub(r"\1\2", cell)
