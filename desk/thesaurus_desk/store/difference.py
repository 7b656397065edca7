"""Whether a replica still is that of its store: by a mark of the store's files, else row by row."""
from __future__ import annotations

import contextlib
import os
import shutil
import sqlite3
import struct
import tempfile
from collections.abc import Iterator
from dataclasses import dataclass
from pathlib import Path
from typing import IO, Any

from thesaurus_desk.store.schema import COLUMNS, EMPTY
from thesaurus_tools.table_store import EMPTY_LOG, base_of

Row = tuple[Any, ...]
# The size of the header of a database, of its log, and of a page of the log.
HEADER, LOG_HEADER, LOG_PAGE = 100, 32, 24 + 4096


@dataclass(frozen=True, slots=True)
class Difference:
    """What the replica has of a table and the store hasn't, and the other way round."""

    table: str
    gone: list[Row]
    new: list[Row]


def mark_of(store: Path) -> str:
    """Returns the mark of a store's files: it is another one after each commit."""
    with open(store, "rb") as file:
        return mark_of_open(store, file)


def mark_of_open(store: Path, file: IO[bytes]) -> str:
    """Returns the mark of a store's files, of which one is open.

    Who holds a lock on the store asks so: another file of it that is closed takes the locks of its process with it."""
    return repr((mark_of_file(file), mark_of_log(Path(f"{store}-wal"))))


def mark_of_file(file: IO[bytes]) -> tuple[Any, ...]:
    """Returns the identity, the size and the time of a store's file, and the counters of its header."""
    it, header = os.fstat(file.fileno()), os.pread(file.fileno(), HEADER, 0)
    counters = struct.unpack(">II", header[24:32]) if len(header) == HEADER else ()
    return it.st_ino, it.st_size, it.st_mtime_ns, counters, header[92:96].hex()


def mark_of_log(log: Path) -> tuple[Any, ...] | None:
    """Returns the identity, the size and the time of a store's log, its header and that of its last page."""
    try:
        with open(log, "rb") as file:
            it, header = os.fstat(file.fileno()), file.read(LOG_HEADER)
            file.seek(max(LOG_HEADER, it.st_size - LOG_PAGE))
            last = file.read(24)
    except FileNotFoundError:
        return None
    return it.st_ino, it.st_size, it.st_mtime_ns, header.hex(), last.hex()


@contextlib.contextmanager
def attach_store(rows: sqlite3.Connection, store: Path) -> Iterator[None]:
    """Attaches a store that no program has open as `store`: itself, unless its log holds what it lacks, then a copy of
    both. Neither of its files changes. Raises ToolError for tables of another version."""
    log = Path(f"{store}-wal")
    with contextlib.ExitStack() as stack:
        address = f"{store.resolve().as_uri()}?mode=ro&immutable=1"
        if log.exists() and log.stat().st_size >= EMPTY_LOG:
            room = Path(stack.enter_context(tempfile.TemporaryDirectory()))
            shutil.copyfile(log, room / "store.db-wal")
            shutil.copyfile(store, room / "store.db")
            address = (room / "store.db").as_uri()
        rows.execute("ATTACH ? AS store", (address,))
        try:
            base_of(store, [tuple(it) for it in rows.execute("SELECT version, base FROM store.meta")])
            yield
        finally:
            rows.execute("DETACH store")


def differences(rows: sqlite3.Connection) -> list[Difference]:
    """Returns the tables in which the replica and the store that is attached differ."""
    found = (difference_of(rows, table) for table in COLUMNS)
    return [it for it in found if it.gone or it.new]


def difference_of(rows: sqlite3.Connection, table: str) -> Difference:
    """Compares a table: each row of one is looked up in the other.

    If no row of the replica is missing in the store, and both have as many, they have the same."""
    gone = missing(rows, table, "main", "store")
    counts = {rows.execute(f"SELECT count(*) FROM {it}.{table}").fetchone() for it in ("main", "store")}
    new = missing(rows, table, "store", "main") if gone or len(counts) > 1 else []
    return Difference(table, gone, new)


def missing(rows: sqlite3.Connection, table: str, here: str, there: str) -> list[Row]:
    """Returns the rows of a table in one database that the other one lacks."""
    columns = COLUMNS[table]
    # (IS serves no index, and no column of a key may be empty)
    same = " AND ".join(f"x.{it} {'IS' if it in EMPTY else '='} y.{it}" for it in columns)
    own = ", ".join(f"x.{it}" for it in columns)
    lacks = f"NOT EXISTS (SELECT 1 FROM {there}.{table} y WHERE {same})"
    return rows.execute(f"SELECT {own} FROM {here}.{table} x WHERE {lacks}").fetchall()
