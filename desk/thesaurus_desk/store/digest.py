"""A digest of all rows of a store, by which an earlier state of it is known again, as after a restore.

It is the sum of the digests of the rows, so that a plan adds and takes away those of its own rows alone. Where a
posting is assigned isn't in its row's digest: the rows of `move` have that."""
from __future__ import annotations

import hashlib
import sqlite3
from collections.abc import Iterable
from typing import Any

from thesaurus_desk.store.schema import COLUMNS, KEYS

SIZE = 16
ALL = 1 << 8 * SIZE


def digest_of_row(table: str, cells: tuple[Any, ...]) -> int:
    """Returns the digest of a row as a number."""
    if table == "posting":
        *cells_that_stay, _, withdrawn = cells
        also = digest_of_row("withdrawn", cells[:1]) if withdrawn else 0
        return also + digest_of_row("posting that stays", tuple(cells_that_stay))
    text = repr((table, *cells)).encode("utf-8", "surrogatepass")
    return int.from_bytes(hashlib.blake2b(text, digest_size=SIZE).digest(), "big")


def digest_of_rows(rows: sqlite3.Connection) -> int:
    """Returns the digest of all rows of the store's tables."""
    return sum(digest_of_row(table, row) for table in COLUMNS for row in rows_of(rows, table)) % ALL


def rows_of(rows: sqlite3.Connection, table: str) -> Iterable[tuple[Any, ...]]:
    cursor = rows.cursor()
    cursor.row_factory = None
    return cursor.execute(f"SELECT {', '.join(COLUMNS[table])} FROM main.{table} ORDER BY {', '.join(KEYS[table])}")


def add_to_digest(rows: sqlite3.Connection, more: int) -> None:
    """Adds to the digest in the replica."""
    if more:
        write_digest(rows, (int(read_digest(rows), 16) + more) % ALL)


def write_digest(rows: sqlite3.Connection, digest: int) -> None:
    """Writes the digest down in the replica."""
    rows.execute("INSERT OR REPLACE INTO replica VALUES ('digest', ?)", (f"{digest:0{2 * SIZE}x}",))


def read_digest(rows: sqlite3.Connection) -> str:
    """Returns the digest of the store, of which the replica is."""
    found = rows.execute("SELECT value FROM replica WHERE name = 'digest'").fetchone()
    return str(found[0])
