"""What is done by several plans: a table of many rows, a vocabulary, taking back one of these. Each is one entry of the
journal, is taken back as one, and says what is left of it where it was cut short."""
from __future__ import annotations

import json
import sqlite3
import zlib
from collections.abc import Sequence
from dataclasses import dataclass
from typing import Any

from thesaurus_desk.journal.entries import Batch, Journal, Plan, Step
from thesaurus_desk.journal.term_sources import follows

# The most bytes of what is left of a file, as it is kept until the file is done.
MOST_LEFT = 32 << 20
FOUND = "SELECT batch.*, plan.at, plan.user, plan.action FROM batch JOIN plan ON plan.id = batch.plan"
# The first part was performed, and nobody has taken the file back.
STANDING = (
    "plan.state = 'done' AND NOT EXISTS (SELECT 1 FROM plan AS back WHERE back.takes_back = plan.id AND"
    " back.state = 'done')"
)


def pack(left: object) -> bytes | None:
    """Returns what is left of a file as it is kept, unless that is too much."""
    data = zlib.compress(json.dumps(left, ensure_ascii=False, separators=(",", ":")).encode(), 1)
    return data if len(data) <= MOST_LEFT else None


def unpack(data: bytes) -> Any:
    """Returns what was packed."""
    return json.loads(zlib.decompress(data))


@dataclass
class Batches:
    """Looks up files, and keeps what becomes of them."""

    journal: Journal

    def begin(self, plan: int) -> None:
        """Notes that a file is under way, by its first plan."""
        self.journal.note(("INSERT OR IGNORE INTO under_way VALUES (?)", plan))

    def is_under_way(self, plan: int | None) -> bool:
        """Whether a file is under way, by its first plan."""
        return self.journal.one("SELECT 1 FROM under_way WHERE plan = ?", plan) is not None

    def begun(self, batch: Batch, plan: int, is_done: bool) -> None:
        """Notes the first plan of a file; one that wasn't performed is none."""
        if is_done:
            batch.plan = plan
            self.begin(plan)
        else:
            with self.journal.writing() as rows:
                rows.execute("DELETE FROM batch WHERE plan = ?", (plan,))

    def left(self, batch: Batch) -> None:
        """Notes that a file is no longer under way, be it done or cut short."""
        self.journal.note(("DELETE FROM under_way WHERE plan = ?", batch.plan or 0))

    def end(self, batch: Batch, refused: Sequence[Sequence[str]] = ()) -> None:
        """Notes that a file is done, how many of its rows were refused, and these as a table, with its heading."""
        if batch.plan is not None:
            kept = pack(refused) if refused else None
            with self.journal.writing() as rows:
                values = (batch.refused, batch.plan)
                rows.execute("UPDATE batch SET is_done = 1, rest = NULL, refused = ? WHERE plan = ?", values)
                rows.execute(
                    "DELETE FROM plan_row WHERE plan IN (SELECT id FROM plan WHERE ?1 IN (id, first))", values[1:]
                )
                if kept:
                    rows.execute("INSERT OR REPLACE INTO refused VALUES (?, ?)", (batch.plan, kept))
        self.left(batch)

    def has_refused(self, plan: int) -> bool:
        """Whether the rows of a file that were refused are kept, by its first plan."""
        return self.journal.one("SELECT 1 FROM refused WHERE plan = ?", plan) is not None

    def refused(self, plan: int) -> list[list[str]]:
        """Returns the rows of a file that were refused as a table, by its first plan; nothing if there are none."""
        found = self.journal.one("SELECT rows FROM refused WHERE plan = ?", plan)
        rows: list[list[str]] = unpack(found["rows"]) if found else []
        return rows

    def of(self, plan: int) -> Batch | None:
        """Returns the file whose first plan has a number."""
        return self.first(f"{FOUND} WHERE batch.plan = ?", plan)

    def same(self, digest: str) -> Batch | None:
        """Returns the last file with the same bytes that was brought in, and not taken back."""
        return self.first(f"{FOUND} WHERE digest = ? AND {STANDING} ORDER BY plan.id DESC", digest)

    def cut(self) -> list[Batch]:
        """Returns the files that were cut short: neither done nor under way, and not taken back."""
        is_left = "is_done = 0 AND plan.id NOT IN (SELECT plan FROM under_way)"
        return [*map(batch_of, self.journal.all(f"{FOUND} WHERE {is_left} AND {STANDING} ORDER BY plan.id"))]

    def first(self, query: str, *values: object) -> Batch | None:
        """Returns the first file that a query finds."""
        found = self.journal.one(query, *values)
        return batch_of(found) if found else None

    def rest(self, batch: Batch) -> Any:
        """Returns what a file asks for, as long as it isn't done; or None."""
        found = self.journal.one("SELECT rest FROM batch WHERE plan = ?", batch.plan)
        return unpack(found["rest"]) if found and found["rest"] else None

    def done(self, batch: Batch) -> list[Step]:
        """Returns the steps of a file that were done, in their order, without those that the desk has added."""
        first = self.journal.plan(batch.plan) if batch.plan else None
        parts = self.journal.parts(first) if first else []
        return [step for part in parts if part.state == "done" for step in part.steps if not follows(step)]

    def rows_done(self, batch: Batch) -> set[int]:
        """Returns the lines of the rows of a table that were done."""
        query = "SELECT line FROM plan_row JOIN plan ON plan.id = plan WHERE (id = ?1 OR first = ?1) AND state = 'done'"
        return {int(it["line"]) for it in self.journal.all(query, batch.plan)}

    def counts(self, plan: Plan) -> tuple[int, int]:
        """Returns how many parts of a plan were done, and how many steps they have."""
        found = self.journal.one(
            "SELECT count(DISTINCT plan.id) AS parts, count(*) AS steps FROM plan JOIN step ON step.plan = plan.id"
            " WHERE (plan.id = ?1 OR plan.first = ?1) AND step.state = 'done'",
            plan.id,
        )
        return (int(found["parts"]), int(found["steps"])) if found else (0, 0)


def batch_of(row: sqlite3.Row) -> Batch:
    """Returns the file of a row."""
    names = ("name", "digest", "size", "refused", "plan", "at", "user", "action")
    return Batch(**{it: row[it] for it in names}, is_done=bool(row["is_done"]))
