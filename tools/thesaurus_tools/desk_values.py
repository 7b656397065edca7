"""Reads from the journal of a desk what it keeps beside the store: the values of fields that everybody may see."""
from __future__ import annotations

import contextlib
import sqlite3
from collections import defaultdict
from collections.abc import Collection, Iterator
from pathlib import Path

from thesaurus_tools.arrays import places_of_values
from thesaurus_tools.command_line import ToolError
from thesaurus_tools.fields import DATES, HIDDEN, PLACE_FIELDS, TERM_SOURCE, Field, all_fields, in_rdf, text_fields
from thesaurus_tools.public_store import leave_out
from thesaurus_tools.store import Store
from thesaurus_tools.values import FieldValue


# The dates that resources had before the desk had them. That of a change is good until the desk changes a resource: in
# another plan than the one that brought the date, or than the others of its file.
STATED_DATES = """
SELECT owner, field, text FROM value JOIN plan made ON made.id = value.plan WHERE field = 'created'
  OR field = 'modified' AND coalesce(made.first, made.id) >= (SELECT max(coalesce(plan.first, plan.id)) FROM plan
    JOIN concern ON concern.plan = plan.id WHERE number = owner AND changes = 1 AND plan.state = 'done')"""


def journal_of(store: Path) -> Path:
    """Returns the journal of the desk of a store."""
    return store.with_name(f"{store.stem}-desk.sqlite")


@contextlib.contextmanager
def open_journal(path: Path) -> Iterator[sqlite3.Connection]:
    """Opens the journal of a desk for reading. Raises ToolError for what is none."""
    if not path.is_file():
        raise ToolError(f"{path}: no such file")
    try:
        with contextlib.closing(sqlite3.connect(f"{path.resolve().as_uri()}?mode=ro", uri=True)) as tables:
            yield tables
    except sqlite3.Error as error:
        raise ToolError(f"{path}: not the journal of a desk ({error})") from None


def has_table(tables: sqlite3.Connection, name: str) -> bool:
    """Whether there is a table: a journal of an older desk has fewer."""
    return tables.execute("SELECT 1 FROM sqlite_schema WHERE name = ?", (name,)).fetchone() is not None


def hidden_concepts(tables: sqlite3.Connection) -> set[int]:
    """Returns the concepts that the public doesn't see: candidates."""
    if not has_table(tables, "value"):
        return set()
    query = f"SELECT owner FROM value WHERE field = 'status' AND text IN ({', '.join(map(repr, HIDDEN))})"
    return {owner for owner, in tables.execute(query)}


def read_fields(tables: sqlite3.Connection) -> dict[str, Field]:
    """Returns all fields by their names."""
    return all_fields(tables.execute("SELECT name, spec FROM field") if has_table(tables, "field") else ())


def public_fields(tables: sqlite3.Connection) -> dict[str, Field]:
    """Returns the fields that everybody may see, by their names, but for what displays leave out; and that of the
    sources of terms."""
    every = read_fields(tables)
    found = {**text_fields(every), TERM_SOURCE: every[TERM_SOURCE]}
    return {name: it for name, it in found.items() if it.is_public and name not in DATES}


def rdf_fields(tables: sqlite3.Connection) -> dict[str, Field]:
    """Returns the fields that everybody may see in RDF, by their names."""
    return in_rdf(read_fields(tables))


def stated_dates(tables: sqlite3.Connection, fields: Collection[str]) -> dict[int, dict[str, str]]:
    """Returns the dates that resources had before the desk had them, of some fields."""
    found: dict[int, dict[str, str]] = defaultdict(dict)
    for owner, name, text in tables.execute(STATED_DATES) if has_table(tables, "value") else ():
        if name in fields:
            found[owner][name] = text
    return found


def public_values(tables: sqlite3.Connection, fields: dict[str, Field]) -> Iterator[FieldValue]:
    """Yields the values of fields, in the order in which they came."""
    if has_table(tables, "value"):
        for row in tables.execute("SELECT owner, field, tag, text, source FROM value ORDER BY id"):
            if row[1] in fields:
                yield FieldValue(*row)


def place_rows(tables: sqlite3.Connection) -> Iterator[tuple[int, str, str]]:
    """Yields the owners, the fields and the texts of the places of collections, as far as the public sees what they
    name."""
    hidden = hidden_concepts(tables)
    if has_table(tables, "value"):
        names = ", ".join("?" * len(PLACE_FIELDS))
        query = f"SELECT owner, field, text FROM value WHERE field IN ({names}) ORDER BY id"
        for owner, field, text in tables.execute(query, PLACE_FIELDS):
            if seen := " ".join(it for it in text.split() if int(it) not in hidden):
                yield owner, field, seen


def names_elsewhere(tables: sqlite3.Connection) -> dict[str, list[tuple[str, str]]]:
    """Returns what other publishers call concepts that are mapped to, by their IRIs: languages and labels."""
    found: dict[str, list[tuple[str, str]]] = defaultdict(list)
    if has_table(tables, "outside_name"):
        for iri, tag, text in tables.execute("SELECT iri, tag, text FROM outside_name ORDER BY iri, tag"):
            found[iri].append((tag, text))
    return found


def add_values(store: Store, journal: Path) -> None:
    """Gives a store the fields that everybody may see, and their values, the places of collections, and the names of
    concepts elsewhere; and leaves out the concepts that the public doesn't see."""
    found: dict[int, list[FieldValue]] = defaultdict(list)
    with open_journal(journal) as tables:
        leave_out(store, hidden_concepts(tables))
        store.fields = fields = public_fields(tables)
        for it in public_values(tables, fields):
            found[int(it.owner)].append(it)
        store.names_elsewhere = names_elsewhere(tables)
        there = store.resources
        store.places = places_of_values(
            (it for it in place_rows(tables) if it[0] in there), lambda it: store.live_end(it) if it in there else None
        )
    store.values_of = found
