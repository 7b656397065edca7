"""A copy of a store's tables, in which SQLite makes the changes that the program reports."""
from __future__ import annotations

import sqlite3
from collections.abc import Mapping, Sequence
from typing import Any

Change = list[Any]
TABLES = {
    "resource": ("number", "kind", "scheme", "live", "replaced"),
    "outside": ("number", "iri"),
    "label": ("owner", "kind", "tag", "text"),
    "link": ("kind", "a", "b"),
    "hier": ("a", "b", "typ"),
    "posting": ("number", "key", "record", "first", "place", "withdrawn"),
    "move": ("number", "posting", "source", "target"),
}


class TableCopy:
    """The tables in a database of its own, in which reported changes are made."""

    def __init__(self, rows: Mapping[str, Sequence[Sequence[Any]]] | None = None) -> None:
        self.database = sqlite3.connect(":memory:")
        for table, columns in TABLES.items():
            self.database.execute(f"CREATE TABLE {table} ({', '.join(columns)})")
            for row in (rows or {}).get(table, []):
                self.make(["insert", table, *row])

    def change(self, words: str, *values: Any) -> None:
        """Makes a change of one row."""
        assert self.database.execute(words, values).rowcount == 1, (words, values)

    def make(self, change: Change) -> None:
        match change:
            case ["insert", table, *cells]:
                self.change(f"INSERT INTO {table} VALUES ({', '.join('?' * len(TABLES[table]))})", *cells)
            case ["delete", table, *cells]:
                where = " AND ".join(f"{it} IS ?" for it in TABLES[table])
                self.change(f"DELETE FROM {table} WHERE {where}", *cells)
            case ["retire", number]:
                self.change("UPDATE resource SET live = 0 WHERE number = ? AND live", number)
            case ["replace", number, by]:
                self.change("UPDATE resource SET live = 0, replaced = ? WHERE number = ? AND live", by, number)
            case ["withdraw", number]:
                self.change("UPDATE posting SET withdrawn = 1 WHERE number = ? AND NOT withdrawn", number)
            case ["place", number, place]:
                self.change("UPDATE posting SET place = ? WHERE number = ?", place, number)
            case ["move", source, target]:
                words = "UPDATE posting SET place = ? WHERE place = ? AND NOT withdrawn"
                self.database.execute(words, (target, source))
            case _:
                raise AssertionError(change)

    def rows(self) -> dict[str, list[tuple[Any, ...]]]:
        return {it: sorted(self.database.execute(f"SELECT * FROM {it}"), key=repr) for it in TABLES}
