"""What was there after an earlier plan: the changes that the journal has of later ones are taken back, for a look.

They are taken back in tables of a connection that only it sees, within one read transaction."""
from __future__ import annotations

import contextlib
import json
import sqlite3
from collections.abc import Iterable, Iterator, Sequence
from functools import cached_property
from itertools import groupby
from typing import TYPE_CHECKING, Any

from thesaurus_desk.journal.earlier_steps import are_determined, changes_of_step
from thesaurus_desk.journal.entries import step_of
from thesaurus_desk.journal.values import Values, inverse_of, source_of, text_of
from thesaurus_desk.store.changes import Change
from thesaurus_desk.store.read_transactions import ReadTransaction, connect
from thesaurus_desk.store.replica import Replica
from thesaurus_desk.store.schema import COLUMNS, PREF
from thesaurus_desk.store.text_keys import sort_text
from thesaurus_tools.arrays import Places, places_of_values

if TYPE_CHECKING:
    from thesaurus_desk.journal import Journal, Plan, Request

# The columns of the tables of which rows are taken back, those by which a row is known first. (The indexes of words
# stay as they are.)
LAID_OVER = {
    "resource": (("num",), ("kind", "scheme", "live", "replaced")),
    "outside": (("num",), ("iri",)),
    "label": (("owner", "kind", "tag", "text"), ("id", "fold", "sort")),
    "link": (("a", "kind", "b"), ()),
    "posting": (("num",), ("pkey", "record", "first_at", "at", "withdrawn")),
    "value": (("id",), ("owner", "field", "tag", "text", "source", "plan")),
}
# A table as the connection sees it: without the rows that are gone, and with those that were there before. (Look-ups
# use the indexes only if the columns have the same types.)
LAYER = """
CREATE TEMP TABLE gone_{table} AS SELECT {keys} FROM main.{table} WHERE 0;
CREATE UNIQUE INDEX temp.gone_{table}_keys ON gone_{table} ({keys});
CREATE TEMP TABLE past_{table} AS SELECT {columns} FROM main.{table} WHERE 0;
CREATE UNIQUE INDEX temp.past_{table}_keys ON past_{table} ({keys});
CREATE TEMP VIEW {table} AS
  SELECT {columns} FROM main.{table} AS its
  WHERE NOT EXISTS (SELECT 1 FROM gone_{table} AS gone WHERE {same_as_its})
  UNION ALL SELECT {columns} FROM past_{table};
CREATE TEMP TRIGGER insert_{table} INSTEAD OF INSERT ON {table} BEGIN
  INSERT OR REPLACE INTO past_{table} VALUES ({new});
  INSERT OR REPLACE INTO gone_{table} VALUES ({new_keys});
END;
CREATE TEMP TRIGGER delete_{table} INSTEAD OF DELETE ON {table} BEGIN
  DELETE FROM past_{table} WHERE {same_as_old};
  INSERT OR REPLACE INTO gone_{table} VALUES ({old_keys});
END;
CREATE TEMP TRIGGER update_{table} INSTEAD OF UPDATE ON {table} BEGIN
  INSERT OR REPLACE INTO past_{table} VALUES ({new});
  INSERT OR REPLACE INTO gone_{table} VALUES ({old_keys});
END;
"""
# (a tree counts the rows of this one, which it can't in two tables without reading all of them each time)
COPIED = """
CREATE TEMP TABLE hier (a INTEGER, b INTEGER, typ INTEGER, PRIMARY KEY (a, b, typ)) WITHOUT ROWID;
CREATE INDEX temp.past_hier_b ON hier (b, a, typ);
"""
# The values that come back have numbers after all others.
FIRST_VALUE = 1 << 40
NEW_VALUE = f"coalesce(NEW.id, 1 + (SELECT coalesce(max(id), {FIRST_VALUE}) FROM past_value))"
# What plans after one have changed, the last first: rows, and values.
LATER_ROWS = (
    "SELECT rows FROM change JOIN plan ON plan.id = change.plan WHERE plan.id > ? AND state = 'done' ORDER BY id DESC"
)
LATER_VALUES = (
    "SELECT request FROM step WHERE plan > ? AND state = 'done' AND json_extract(request, '$.do') = 'set'"
    " ORDER BY plan DESC, place DESC"
)
# The requests that change no terms and links.
OTHERS = ("set", "post", "withdraw", "import")
# The steps after a plan that change terms or links, and of which the journal has no changes of rows: those of earlier
# desks, the last plan first.
EARLIER = f"""
SELECT step.* FROM plan JOIN step ON step.plan = plan.id
WHERE plan.id > ? AND plan.state = 'done' AND step.state = 'done'
AND NOT EXISTS (SELECT 1 FROM change WHERE change.plan = plan.id)
AND json_extract(request, '$.do') NOT IN {OTHERS} ORDER BY step.plan DESC, place
"""
# The plans after one that have changed terms or links, and of which the journal has no changes of rows: of other
# programs, and of earlier desks.
WITHOUT_ROWS = f"""
SELECT * FROM plan WHERE id > ?1 AND state IN ('done', 'unknown')
AND id IN (SELECT plan FROM concern WHERE changes = 1 AND (?2 IS NULL OR number = ?2))
AND NOT EXISTS (SELECT 1 FROM change WHERE change.plan = plan.id)
AND (user = '' OR EXISTS (
  SELECT 1 FROM step WHERE step.plan = plan.id AND json_extract(request, '$.do') NOT IN {OTHERS})) ORDER BY id
"""


def layer_of(table: str, keys: Sequence[str], others: Sequence[str]) -> str:
    """Returns the statements that lay the past over a table."""
    columns = [*keys, *others]
    new = {it: f"NEW.{it}" for it in columns} | ({"id": NEW_VALUE} if table == "value" else {})
    parts = {
        "keys": ", ".join(keys),
        "columns": ", ".join(columns),
        "same_as_its": " AND ".join(f"gone.{it} = its.{it}" for it in keys),
        "same_as_old": " AND ".join(f"{it} = OLD.{it}" for it in keys),
        "new": ", ".join(new.values()),
        "new_keys": ", ".join(new[it] for it in keys),
        "old_keys": ", ".join(f"OLD.{it}" for it in keys),
    }
    return LAYER.format(table=table, **parts)


LAYERS = COPIED + "".join(layer_of(table, *columns) for table, columns in LAID_OVER.items())


class JournalSnapshot:
    """The journal's tables as a replica sees them at its moment: they are in one file."""

    def __init__(self, replica: Replica) -> None:
        self.replica = replica

    def all(self, query: str, *values: Any) -> list[sqlite3.Row]:
        """Returns the rows that a query finds."""
        cursor = self.replica.connection().cursor()
        cursor.row_factory = lambda its, row: sqlite3.Row(its, tuple(row))
        return cursor.execute(query, values).fetchall()

    def one(self, query: str, *values: Any) -> sqlite3.Row | None:
        """Returns the first row that a query finds."""
        return next(iter(self.all(query, *values)), None)


class PastReplica(Replica):
    """The replica as a connection sees it in the midst of a transaction."""

    def __init__(self, replica: Replica, rows: sqlite3.Connection) -> None:
        super().__init__(replica.path)
        self.rows, self.names = rows, replica.names

    def connect(self) -> sqlite3.Connection:
        """Returns the connection."""
        return self.rows

    def begin(self) -> sqlite3.Connection:
        """Begins a moment of the thread, within the transaction."""
        self.local.transaction = ReadTransaction(dict.fromkeys(self.versions(), -1))
        return self.connection()

    def versions(self) -> list[str]:
        """Returns the names of what counts how often it was changed."""
        return [name for name, in self.connection().execute("SELECT name FROM replica").fetchall()]

    def end(self) -> None:
        """Ends the moment of the thread, and not the transaction."""
        self.local.transaction = None

    @property
    def values(self) -> Values:
        """The values of fields."""
        snapshot: Any = JournalSnapshot(self)
        return Values(snapshot)

    @cached_property
    def places(self) -> Places[int]:
        """Where collections were in the hierarchy."""
        return places_of_values(((it.owner, it.field, it.text) for it in self.values.places()), self.final)


@contextlib.contextmanager
def past_of(replica: Replica) -> Iterator[PastReplica]:
    """Gives what a replica has now, of which changes can be taken back: the file stays as it is."""
    with contextlib.closing(connect(replica.path)) as rows:
        rows.execute("PRAGMA query_only = 0")
        rows.executescript(LAYERS)
        rows.execute("BEGIN")
        rows.execute("INSERT INTO temp.hier SELECT a, b, typ FROM main.hier")
        yield PastReplica(replica, rows)


@contextlib.contextmanager
def after_plan(replica: Replica, plan: int) -> Iterator[PastReplica]:
    """Gives the replica with what it had after a plan, as far as the journal knows that: terms, links and values, and
    no records."""
    with past_of(replica) as past:
        for (text,) in past.rows.execute(LATER_ROWS, (plan,)):
            changes: list[Change] = json.loads(text)
            take_back_rows(past.rows, [it for it in reversed(changes) if not is_of_record(it)])
        take_back_earlier(past, plan)
        requests = past.rows.execute(LATER_VALUES, (plan,)).fetchall()
        take_back_values(past.rows, (json.loads(it) for it, in requests))
        yield past


def unknown_after(journal: Journal, plan: int, number: int | None = None) -> list[Plan]:
    """Returns the plans after one of which it isn't known what was before them: of a resource, or of all."""
    return [it for it in journal.plans(WITHOUT_ROWS, plan, number) if not is_known(it)]


def is_known(plan: Plan) -> bool:
    """Whether the steps of a plan without changes of rows say what was before it."""
    changing = [it for it in plan.steps if it.state == "done" and it.request["do"] not in OTHERS]
    return plan.state == "done" and bool(changing) and are_determined(changing)


def take_back_earlier(past: PastReplica, plan: int) -> None:
    """Takes back what plans of earlier desks after one have changed, as far as their steps say that."""
    for _, rows in groupby(JournalSnapshot(past).all(EARLIER, plan), lambda it: it["plan"]):
        steps = [step_of(it) for it in rows]
        for step in reversed(steps) if are_determined(steps) else ():
            take_back_rows(past.rows, reversed(changes_of_step(past, step)))


def is_of_record(change: Change) -> bool:
    """Whether a change is one of records."""
    return change[0] in ("withdraw", "place", "move") or change[1] in ("posting", "move")


@contextlib.contextmanager
def before_plans(
    replica: Replica, journal: Journal, plans: Sequence[Plan], number: int
) -> Iterator[PastReplica | None]:
    """Gives the replica with what it had of a resource before plans, from the first of them on; None if the journal
    doesn't know what they have changed."""
    with past_of(replica) as past:
        is_known = all([take_back(past.rows, journal, it, number) for it in reversed(plans)])
        yield past if is_known else None


def take_back(rows: sqlite3.Connection, journal: Journal, plan: Plan, number: int) -> bool:
    """Takes back what a plan has changed of a resource, and returns whether the journal knows that."""
    done = [it for it in plan.steps if it.state == "done"]
    take_back_values(rows, (it.request for it in reversed(done) if is_of(it.request, number)))
    for step in done:
        if step.request["do"] == "import" and step.answer and "first" in step.answer:
            its = number, step.answer["first"], step.answer["last"]
            rows.execute("DELETE FROM posting WHERE first_at = ? AND num BETWEEN ? AND ?", its)
    changes = journal.changes_of(plan.id)
    take_back_rows(rows, [it for it in reversed(changes or ()) if number in it or it[0] == "withdraw"])
    return changes is not None or any(it.request["do"] == "import" for it in done)


def is_of(request: Request, number: int) -> bool:
    """Whether a request sets a value of a resource."""
    return request["do"] == "set" and request["owner"] == number


def take_back_values(rows: sqlite3.Connection, requests: Iterable[Request]) -> None:
    """Takes back requests `set`, the last one first."""
    for it in map(inverse_of, requests):
        old, new, key = text_of(it["old"]), text_of(it["new"]), (it["owner"], it["field"], it["tag"])
        same = "owner = ? AND field = ? AND tag = ? AND text = ?"
        if old is None:
            rows.execute("INSERT INTO value VALUES (NULL, ?, ?, ?, ?, ?, 0)", (*key, new, source_of(it["new"])))
        elif new is None:
            rows.execute(f"DELETE FROM value WHERE {same}", (*key, old))
        else:
            rows.execute(f"UPDATE value SET text = ?, source = ? WHERE {same}", (new, source_of(it["new"]), *key, old))


def take_back_rows(rows: sqlite3.Connection, changes: Iterable[Change]) -> None:
    """Takes back changes of rows, the last one first."""
    for change in changes:
        match change:
            case ["insert", "move", _, posting, source, _]:
                rows.execute("UPDATE posting SET at = ? WHERE num = ?", (source, posting))
            case ["insert", str(table), *cells]:
                same = " AND ".join(f"{it} IS ?" for it in COLUMNS[table])
                rows.execute(f"DELETE FROM {table} WHERE {same}", cells)
            case ["delete", "label", *cells]:
                key = sort_text(cells[3]) if cells[1] == PREF else None
                rows.execute(
                    "INSERT INTO label (owner, kind, tag, text, fold, sort) VALUES (?, ?, ?, ?, '', ?)", (*cells, key)
                )
            case ["delete", str(table), *cells]:
                columns = ", ".join(COLUMNS[table])
                marks = ", ".join("?" * len(cells))
                # (what an older store has that took the place of this one may be there)
                rows.execute(f"INSERT OR REPLACE INTO {table} ({columns}) VALUES ({marks})", cells)
            case ["withdraw", posting]:
                rows.execute("UPDATE posting SET withdrawn = 0 WHERE num = ?", (posting,))
            case ["retire", concept] | ["replace", concept, _]:
                rows.execute("UPDATE resource SET live = 1, replaced = NULL WHERE num = ?", (concept,))
