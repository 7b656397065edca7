"""Makes a replica of an export, for what only reads: it has no postings, but the types of hierarchical links, places of
collections, the values of fields, and dates."""
from __future__ import annotations

import contextlib
import sqlite3
import tempfile
from collections.abc import Callable, Iterable
from pathlib import Path

from thesaurus_desk.interfaces.source import Changes, Source
from thesaurus_desk.store.build import build
from thesaurus_desk.store.model import Link, normal
from thesaurus_desk.store.replica import Replica
from thesaurus_desk.store.schema import COLUMNS, KIND_NUMBER, LABEL_NUMBER, LINK_NUMBER, TYPE_NUMBER
from thesaurus_tools.arrays import Places, no_places, number_places, places_of_triples
from thesaurus_tools.export_store import store_of_export
from thesaurus_tools.export_values import ExportFacts, read_facts
from thesaurus_tools.desk_export import typed_links
from thesaurus_tools.fields import STANDARD, Field, text_fields
from thesaurus_tools.ntriples import read_ntriples
from thesaurus_tools.store import Store
from thesaurus_tools.table_store import TABLES_VERSION

Rows = dict[str, list[tuple[object, ...]]]


class ExportReplica(Replica):
    """A replica of the rows of a store, in a folder that goes with it."""

    # Where collections are in the hierarchy.
    places: Places[int] = no_places()

    def __init__(self, rows: Rows, facts: ExportFacts | None = None) -> None:
        # What the export says beside the vocabulary.
        self.facts = facts or ExportFacts()
        self.folder = tempfile.TemporaryDirectory(prefix="replica-")
        super().__init__(Path(self.folder.name, "replica.sqlite"))
        tables = Path(self.folder.name, "store.db")
        write_tables(tables, rows)
        self.take(tables)
        tables.unlink()

    def take(self, tables: Path) -> None:
        """Makes it a replica of a store."""
        with contextlib.closing(sqlite3.connect(self.path, isolation_level=None)) as rows:
            # (it is made anew at each start)
            rows.execute("PRAGMA synchronous = OFF")
            build(rows, tables)
        self.close()


def read_export(path: Path) -> ExportReplica:
    """Reads an export of the program. Raises ToolError for another file."""
    triples = list(read_ntriples(path))
    store = store_of_export(str(path), triples)
    store.links |= {*typed_links(triples, store.base)}
    replica = ExportReplica(rows_of(store), read_facts(triples, store.base))
    replica.places = number_places(places_of_triples(triples), store.base)
    return replica


def export_source(current: Callable[[], ExportReplica], title: str = "") -> Source:
    """Returns what the interfaces for other programs read of an export."""

    def fields() -> list[Field]:
        known = {name: it for name, it in text_fields(STANDARD).items() if it.is_public}
        return [*{**known, **current().facts.fields}.values()]

    return Source(
        current,
        lambda number: current().facts.dates_of(number),
        Changes(since=lambda time: current().facts.changed_since(time)),
        lambda number: current().facts.values.get(number, ()),
        lambda: current().places,
        lambda: (current().facts.version, current().facts.day),
        fields,
        title=title,
    )


def rows_of(store: Store) -> Rows:
    """Returns the rows of the tables that a store would have.

    Outside concepts have no numbers in an export, so they get such as no resource has."""
    ends = sorted({it.b for it in store.links if isinstance(it.b, str)})
    outside = {iri: number for number, iri in enumerate(ends, 1 + max(store.resources, default=0))}
    resources = [
        (it.number, KIND_NUMBER[it.kind], it.scheme, int(it.is_live), it.replaced) for it in store.resources.values()
    ]
    links = [
        normal(Link(it.kind, it.a, outside[it.b] if isinstance(it.b, str) else it.b), isinstance(it.b, str))
        for it in store.links
        if isinstance(it.a, int)
    ]
    return {
        "meta": [(1, TABLES_VERSION, store.base)],
        "resource": [*resources, *((number, KIND_NUMBER["outside"], None, 1, None) for number in outside.values())],
        "outside": [(number, iri) for iri, number in outside.items()],
        "label": [(it.owner, LABEL_NUMBER[it.kind], it.tag, it.text) for it in store.labels],
        "hier": [(it.a, it.b, TYPE_NUMBER[it.kind]) for it in links if it.kind in TYPE_NUMBER],
        "link": [(LINK_NUMBER[it.kind], it.a, it.b) for it in links if it.kind not in TYPE_NUMBER],
    }


def write_tables(path: Path, rows: Rows) -> None:
    """Writes the tables of a store, each row once."""
    with contextlib.closing(sqlite3.connect(path, isolation_level=None)) as tables:
        tables.execute("BEGIN")
        for name, columns in COLUMNS.items():
            tables.execute(f"CREATE TABLE {name} ({', '.join(columns)})")
            marks = ", ".join("?" * len(columns))
            found: Iterable[tuple[object, ...]] = dict.fromkeys(rows.get(name, ()))
            tables.executemany(f"INSERT INTO {name} VALUES ({marks})", found)
        tables.execute("COMMIT")
