"""A connection to the replica for each thread, and one moment of the replica for several look-ups."""
from __future__ import annotations

import contextlib
import sqlite3
import threading
from collections.abc import Callable, Iterator
from dataclasses import dataclass, field
from functools import wraps
from pathlib import Path
from typing import Any, Concatenate, ParamSpec, TypeVar

from thesaurus_desk.store.schema import PARTS

P = ParamSpec("P")
R = TypeVar("R")
V = TypeVar("V")
M = TypeVar("M", bound="ReadTransactions")
Row = tuple[Any, ...]
# How many values are kept until what they are made of changes.
MOST_KEPT = 2000
# How many resources that were read at a moment are kept.
MOST_READ = 5000
# Kilobytes of pages that a connection keeps, and how many bytes of the file are mapped: threads share them.
CACHE, MAPPED = 8_000, 2_147_418_112


@dataclass(slots=True)
class ReadTransaction:
    """What a thread has read of one moment of the replica."""

    # How often each part was changed.
    versions: dict[str, int]
    # Of resources: the row; the preferred labels with their sort keys; and what has been made of them.
    heads: dict[int, Row | None] = field(default_factory=dict)
    terms: dict[int, list[tuple[str, str, str]]] = field(default_factory=dict)
    resources: dict[int, Any] = field(default_factory=dict)
    views: dict[int, Any] = field(default_factory=dict)
    # Of concepts: the narrower ones with the kinds of the links to them, and how many there are.
    branches: dict[int, dict[int, tuple[str, ...]]] = field(default_factory=dict)
    narrower: dict[int, int] = field(default_factory=dict)

    def make_room(self, more: int = 1) -> None:
        """Forgets what was read, where more would be too much: a table of all concepts is made at one moment, too."""
        if len(self.terms) + more > MOST_READ:
            for name in ("heads", "terms", "resources", "views", "branches", "narrower"):
                getattr(self, name).clear()


class Local(threading.local):
    """What a thread has open."""

    rows: sqlite3.Connection | None = None
    # Which opening of the replica the connection is of.
    opening = 0
    transaction: ReadTransaction | None = None


def in_one_transaction(method: Callable[Concatenate[M, P], R]) -> Callable[Concatenate[M, P], R]:
    """Has a method see one moment: that of its caller, if it has one."""

    @wraps(method)
    def reading(self: M, /, *args: P.args, **named: P.kwargs) -> R:
        if self.local.transaction is not None:
            return method(self, *args, **named)
        with self.reading():
            return method(self, *args, **named)

    return reading


def connect(path: Path) -> sqlite3.Connection:
    """Returns a connection that only reads. Closing it from another thread is allowed."""
    # (it makes no file)
    address = f"{path.resolve().as_uri()}?mode=rw"
    rows = sqlite3.connect(
        address, uri=True, isolation_level=None, timeout=5, check_same_thread=False, cached_statements=512
    )
    for pragma in (f"mmap_size = {MAPPED}", f"cache_size = -{CACHE}", "temp_store = MEMORY", "query_only = 1"):
        rows.execute(f"PRAGMA {pragma}")
    return rows


class ReadTransactions:
    """The replica's file as threads read it."""

    def __init__(self, path: Path) -> None:
        self.path = path
        self.local = Local()
        self.lock = threading.Lock()
        self.opened: list[sqlite3.Connection] = []
        self.opening = 0
        # Values by their names, each with the versions of the parts that it was made of.
        self.kept: dict[Any, tuple[tuple[int, ...], Any]] = {}

    # --- connections ---

    def connection(self) -> sqlite3.Connection:
        """Returns the connection of the thread."""
        it = self.local
        if it.rows is None or it.opening != self.opening:
            it.rows, it.opening, it.transaction = self.connect(), self.opening, None
            with self.lock:
                self.opened.append(it.rows)
        return it.rows

    def connect(self) -> sqlite3.Connection:
        """Returns a new connection."""
        return connect(self.path)

    def close(self) -> None:
        """Closes the connections of all threads; who asks afterwards gets another one."""
        with self.lock:
            opened, self.opened, self.opening, self.kept = self.opened, [], self.opening + 1, {}
        for rows in opened:
            rows.close()

    def leave(self) -> None:
        """Closes the connection of the thread, which ends."""
        rows, self.local.rows, self.local.moment = self.local.rows, None, None
        if rows is not None:
            with self.lock:
                self.opened = [it for it in self.opened if it is not rows]
            rows.close()

    def all(self, query: str, *values: Any) -> list[Row]:
        """Returns the rows that a query finds; none for a number or a text that no row can have."""
        try:
            return self.connection().execute(query, values).fetchall()
        except (OverflowError, UnicodeEncodeError):
            return []

    def one(self, query: str, *values: Any) -> Row | None:
        """Returns the first row that a query finds."""
        return next(iter(self.all(query, *values)), None)

    def value(self, query: str, *values: Any) -> Any:
        """Returns the first value of the first row that a query finds."""
        found = self.one(query, *values)
        return None if found is None else found[0]

    def numbers_of(self, query: str, *values: Any) -> list[int]:
        """Returns the first values of the rows that a query finds."""
        return [it[0] for it in self.all(query, *values)]

    # --- transactions ---

    @contextlib.contextmanager
    def reading(self) -> Iterator[None]:
        """Has several look-ups of a thread see one moment of the replica."""
        if self.is_reading:
            yield
            return
        rows = self.begin()
        try:
            yield
        finally:
            if self.local.rows is rows:
                self.end()

    def begin(self) -> sqlite3.Connection:
        """Begins a moment of the thread."""
        rows = self.connection()
        rows.execute("BEGIN")
        self.local.transaction = ReadTransaction(
            dict(rows.execute("SELECT name, value FROM replica WHERE name NOT IN ('mark', 'digest')").fetchall())
        )
        return rows

    def end(self) -> None:
        """Ends the moment of the thread."""
        self.local.transaction = None
        if self.local.rows is not None and self.local.rows.in_transaction:
            self.local.rows.execute("COMMIT")

    def renew(self) -> None:
        """Has the thread see what was changed since its moment began, if it has one."""
        if self.local.transaction is not None:
            self.end()
            self.begin()

    @property
    def is_reading(self) -> bool:
        """Whether the thread sees one moment of the replica."""
        return self.local.transaction is not None and self.local.opening == self.opening

    @property
    def version(self) -> int:
        """What is another number after each plan that changes something."""
        with self.reading():
            return self.transaction.versions["version"]

    @property
    def transaction(self) -> ReadTransaction:
        """The transaction of the thread, within `reading`."""
        assert self.local.transaction is not None
        return self.local.transaction

    def once(self, name: Any, make: Callable[[], V], parts: tuple[str, ...] = PARTS) -> V:
        """Returns what a function makes, which is kept until one of the parts of the store changes that it is made
        of."""
        if not self.is_reading:
            with self.reading():
                return self.once(name, make, parts)
        made_of = tuple(self.transaction.versions[it] for it in parts)
        found = self.kept.get(name)
        if found is None or found[0] != made_of:
            if len(self.kept) >= MOST_KEPT:
                self.kept = {}
            found = self.kept[name] = made_of, make()
        value: V = found[1]
        return value
