"""Reads files and tables of cells, and writes what a tool makes."""
from __future__ import annotations

import codecs
import contextlib
import csv
import io
import os
import re
import sys
from collections.abc import Iterable, Iterator
from pathlib import Path

from thesaurus_tools.command_line import REFUSED, USAGE, ToolError
from thesaurus_tools.table_messages import TABLES

# The most bytes of a table.
MOST_BYTES = 64 << 20
BYTE_ORDER_MARKS = ((codecs.BOM_UTF8, "utf-8-sig"), (codecs.BOM_UTF16_LE, "utf-16"), (codecs.BOM_UTF16_BE, "utf-16"))
SEPARATORS = ",;\t"
SEPARATOR_LINE = re.compile('"?sep=([,;\t|])"?', re.IGNORECASE)
# What an ODS or XLSX file begins with.
ARCHIVE = b"PK\x03\x04"


class TableError(ToolError):
    """Why a file isn't read as a table: the key of its text in TABLES, by which others translate it, with its values,
    and the line, or 0."""

    def __init__(self, key: str, path: Path | str, line: int = 0, status: int = REFUSED, **values: object) -> None:
        place = f"{path}:{line}" if line else f"{path}"
        super().__init__(f"{place}: {TABLES[key].format(**values)}", status)
        self.key, self.line, self.values = key, line, values


def read_file(path: Path | str) -> bytes:
    """Returns the bytes of a file. Raises ToolError if it can't be read."""
    try:
        return Path(path).read_bytes()
    except OSError as error:
        raise ToolError(f"{path}: {error.strerror or error}") from None


def read_table_file(path: Path | str) -> bytes:
    """Returns the bytes of a table. Raises TableError for a file that is too large for one."""
    with contextlib.suppress(OSError):
        if os.stat(path).st_size > MOST_BYTES:
            raise TableError("large", path, status=USAGE, most=MOST_BYTES >> 20)
    return read_file(path)


def decode(path: Path | str, data: bytes, encoding: str = "", advice: str = "save the table as UTF-8") -> str:
    """Returns the text of a table: UTF-8 or UTF-16 by its first bytes, or in the encoding that the caller names."""
    found = next((name for mark, name in BYTE_ORDER_MARKS if data.startswith(mark)), encoding or "utf-8")
    try:
        return data.decode(found)
    except LookupError:
        raise ToolError(f"no encoding is called {encoding}: latin-1, cp1252 and utf-16 are some", USAGE) from None
    except UnicodeDecodeError as error:
        line = data[: error.start].count(b"\n") + 1
        raise TableError("no_text", path, line, encoding=found.upper(), advice=advice) from None


def rows_of_text(path: Path | str, text: str) -> Iterator[tuple[int, list[str]]]:
    """Yields the line and the cells of each row of CSV: the first row shows whether commas, semicolons or tabs part
    them. Raises TableError with `FILE:LINE` for what is no table."""
    if "\0" in text:
        raise TableError("nul", path, text[: text.index("\0")].count("\n") + 1)
    first, end, rest = text.partition("\n")
    # (Excel's own line, which says what parts the cells)
    before = 1 if (named := SEPARATOR_LINE.fullmatch(first.rstrip("\r"))) else 0
    separator = named[1] if named else max(SEPARATORS, key=first.count)
    reader = csv.reader(io.StringIO(rest if named else text, newline=""), delimiter=separator, strict=True)
    line = 1
    try:
        for cells in reader:
            yield before + line, cells
            line = reader.line_num + 1
    except csv.Error as error:
        raise TableError("csv", path, before + reader.line_num, error=error) from None


def read_cells(path: Path | str) -> Iterator[tuple[int, list[str]]]:
    """Yields the line and the cells of each row of a table that isn't blank: of CSV, or of the first sheet of an ODS or
    XLSX file. Raises TableError with `FILE:LINE` for what is no table."""
    data, columns = read_table_file(path), 0
    if data.startswith(ARCHIVE):
        from thesaurus_tools.spreadsheets import read_workbook  # (few tables are no CSV)

        rows: Iterable[tuple[int, list[str]]] = read_workbook(Path(path), data, "")
    else:
        rows = rows_of_text(path, decode(path, data))
    for line, cells in rows:
        if any(it.strip() for it in cells):
            columns = columns or len(cells)
            if any(it.strip() for it in cells[columns:]):
                raise TableError("wide", path, line)
            yield line, cells


def write_output(data: bytes, path: Path | None) -> None:
    """Writes what a tool makes to a file, or to standard output if none is named."""
    if path:
        path.write_bytes(data)
    else:
        sys.stdout.buffer.write(data)


def synchronize(path: Path) -> None:
    """Waits until the disk has a file or a folder."""
    opened = os.open(path, os.O_RDONLY)
    try:
        os.fsync(opened)
    finally:
        os.close(opened)


def give_to_owner(file: int, folder: Path) -> None:
    """Has an open file that root has made belong to the owner of its folder, who is to use it, too, if root may do so.

    It is still empty and has one name, so nothing of somebody else's is given away."""
    found, owner = os.fstat(file), folder.stat()
    if os.geteuid() == 0 and (found.st_uid, found.st_size, found.st_nlink) == (0, 0, 1):
        with contextlib.suppress(OSError):
            os.fchown(file, owner.st_uid, owner.st_gid)


def open_without_links(path: Path, flags: int) -> int:
    """Opens a file that is no symbolic link; makes it, for the owner of its folder alone, if there is none. Raises
    ToolError."""
    try:
        opened = os.open(path, flags | os.O_CREAT | os.O_NOFOLLOW | os.O_CLOEXEC, 0o600)
    except OSError as error:
        reason = "it is a symbolic link" if path.is_symlink() else error.strerror
        raise ToolError(f"{path}: {reason}") from None
    give_to_owner(opened, path.parent)
    return opened


def give_copy_to_owner(copy: Path, folder: Path) -> None:
    """Has a folder of files that root has made belong to the owner of the folder around it, if root may do so."""
    owner = folder.stat()
    if os.geteuid() == 0:
        with contextlib.suppress(OSError):
            for path in (*copy.iterdir(), copy):
                os.lchown(path, owner.st_uid, owner.st_gid)
