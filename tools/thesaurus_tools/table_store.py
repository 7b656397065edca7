"""A thesaurus read from the tables of a store that no program has open."""
from __future__ import annotations

import contextlib
import shutil
import sqlite3
import tempfile
from collections.abc import Iterator, Sequence
from functools import cached_property
from pathlib import Path

from thesaurus_tools.command_line import ToolError
from thesaurus_tools.kinds import BROADER, LABEL_KINDS, MAPPINGS, RESOURCE_KINDS
from thesaurus_tools.program import lock_file
from thesaurus_tools.store import Label, Link, Move, Posting, Resource, Store

# What the numbers in the tables mean: of resources and labels from 1, of links in `link` from 2, of types in `hier`
# from 0.
KIND_OF_RESOURCE = dict(enumerate(RESOURCE_KINDS, 1))
KIND_OF_LABEL = dict(enumerate(LABEL_KINDS, 1))
KIND_OF_LINK = dict(enumerate(("related", *MAPPINGS, "member"), 2))
KIND_OF_TYPE = dict(enumerate(BROADER))
TABLES_VERSION = 2
# The size of a log without a whole page: its header, a page's header, the least page.
EMPTY_LOG = 32 + 24 + 512


@contextlib.contextmanager
def open_tables(path: Path | str) -> Iterator[sqlite3.Connection]:
    """Opens the tables of a store for reading, and changes neither of its files. No program can open the store
    meanwhile."""
    log = Path(f"{path}-wal")
    with contextlib.ExitStack() as stack:
        try:
            file = stack.enter_context(open(path, "rb"))
            lock_file(file, path)
            if log.exists() and log.stat().st_size >= EMPTY_LOG:
                # The log holds what the database lacks, and SQLite would copy it there, so it reads copies of both.
                room = Path(stack.enter_context(tempfile.TemporaryDirectory()))
                shutil.copyfile(log, room / "store.db-wal")
                with open(room / "store.db", "wb") as copy:
                    shutil.copyfileobj(file, copy)
                address = (room / "store.db").as_uri()
            else:
                address = f"{Path(path).resolve().as_uri()}?mode=ro&immutable=1"
        except OSError as error:
            raise ToolError(f"{path}: {error.strerror or error}") from None
        yield stack.enter_context(contextlib.closing(sqlite3.connect(address, uri=True)))


def base_of(name: Path | str, rows: Sequence[tuple]) -> str:
    """Returns what the IRIs of a store begin with, by the rows of its table `meta`: version and base. Raises ToolError
    for tables of another version."""
    if len(rows) != 1:
        raise ToolError(f"{name}: not the store of a thesaurus")
    ((version, base),) = rows
    if version != TABLES_VERSION:
        advice = "run `thesaurus migrate` on it first" if version < TABLES_VERSION else "these tools are older than it"
        raise ToolError(f"{name}: its tables have version {version}, not {TABLES_VERSION}: {advice}")
    return str(base)


class TableStore(Store):
    """A store whose tables are read when they are asked for."""

    def __init__(self, path: Path | str, tables: sqlite3.Connection):
        self.name, self.tables = str(path), tables

    def read_base(self) -> TableStore:
        """Reads the version and the base, and returns itself. Raises ToolError for tables of another version."""
        self.base = base_of(self.name, list(self.rows("SELECT version, base FROM meta")))
        return self

    def rows(self, query: str, *values: object) -> Iterator[tuple]:
        """Yields the rows that a query finds."""
        try:
            yield from self.tables.execute(query, values)
        except sqlite3.Error as error:
            raise ToolError(
                f"{self.name}: not the store of a thesaurus, or damaged ({error}): run `thesaurus check` on it"
            ) from None

    @staticmethod
    def kind(kinds: dict[int, str], number: int) -> str:
        """Returns the kind of a number."""
        if number not in kinds:
            raise ToolError(f"a kind has the number {number}: the store is damaged, run `thesaurus check` on it")
        return kinds[number]

    @cached_property  # type: ignore[override]
    def resources(self) -> dict[int, Resource]:
        rows = self.rows("SELECT num, kind, scheme, live, replaced FROM resource WHERE kind IN (1, 2, 3)")
        return {
            number: Resource(number, self.kind(KIND_OF_RESOURCE, kind), scheme, live == 1, by)
            for number, kind, scheme, live, by in rows
        }

    @cached_property  # type: ignore[override]
    def outside(self) -> dict[str, int]:
        return {iri: number for iri, number in self.rows("SELECT iri, num FROM outside")}

    @cached_property  # type: ignore[override]
    def labels(self) -> list[Label]:
        rows = self.rows("SELECT owner, kind, tag, text FROM label")
        return [Label(owner, self.kind(KIND_OF_LABEL, kind), tag, text) for owner, kind, tag, text in rows]

    @cached_property  # type: ignore[override]
    def links(self) -> set[Link]:
        iris = {number: iri for iri, number in self.outside.items()}
        links = {Link(self.kind(KIND_OF_TYPE, typ), a, b) for a, b, typ in self.rows("SELECT a, b, typ FROM hier")}
        rows = self.rows("SELECT kind, a, b FROM link")
        return links | {Link(self.kind(KIND_OF_LINK, kind), a, iris.get(b, b)) for kind, a, b in rows}

    def each_posting(self) -> Iterator[Posting]:
        rows = self.rows("SELECT num, pkey, record, first_at, at, withdrawn FROM posting ORDER BY num")
        for number, key, record, first, place, withdrawn in rows:
            yield Posting(number, key, record, first, place, withdrawn == 1)

    def each_move(self) -> Iterator[Move]:
        return (Move(*row) for row in self.rows("SELECT num, posting, source, target FROM move ORDER BY num"))

    def moves_of(self, number: int) -> list[Move]:
        return [
            Move(*row)
            for row in self.rows("SELECT num, posting, source, target FROM move WHERE posting = ? ORDER BY num", number)
        ]

    def count_postings(self) -> dict[int, int]:
        rows = self.rows("SELECT at, count(*) FROM posting WHERE withdrawn = 0 GROUP BY at")
        return {place: count for place, count in rows}
