"""Plans in the journal: what was asked for, written before it is sent, and what came of it."""
from __future__ import annotations

import json
import sqlite3
from collections.abc import Callable, Collection, Iterable, Mapping, Sequence
from dataclasses import dataclass
from typing import Any

from thesaurus_desk.journal.chain import append
from thesaurus_desk.journal.schema import UNDER_WAY, Database, now, sent_form
from thesaurus_desk.journal.values import moved_by, write_values
from thesaurus_desk.store.changes import Change

Request = dict[str, Any]
Answer = dict[str, Any]
PARTS_OF_STEP = ("answer", "foreseen", "kept", "facts")
# What the note of a plan begins with, of which nobody knows what came of it, once somebody has looked.
LOOKED_AT = "looked at by"
LAST_PLAN = "SELECT coalesce(max(id), 0) FROM plan WHERE state <> 'sent'"
# The members of a request that name a resource.
NAMED = ("owner", "a", "b", "concept", "source", "target")


@dataclass(slots=True)
class Step:
    """A request of a plan, and what came of it."""

    request: Request
    # sent, done, refused, fault, unsent, undone (done, and taken back since a later step was refused), unknown, lost.
    state: str = "sent"
    answer: Answer | None = None
    # The answer if it is accepted; what it destroys, as far as it is needed to take it back; and what is so if it was
    # performed, and wasn't before.
    foreseen: Answer | None = None
    kept: dict[str, Any] | None = None
    facts: list[Any] | None = None

    @property
    def numbers(self) -> set[int]:
        """The resources that it concerns: those that it names, the one it made, and those where it moved something."""
        kept = self.kept or {}
        # (what a step that isn't performed would have made gets no number, or another step's)
        may_be_made = self.answer or (self.foreseen if self.state in ("sent", "unknown") else None)
        ends = {end for it in kept.get("links", ()) for end in it[1:]}
        places = {*kept.get("places", ()), *([kept["place"]] if "place" in kept else [])}
        return resources_of_request(self.request, may_be_made) | ends | places


@dataclass(slots=True)
class Plan:
    """A plan in the journal. It is performed whole or not at all."""

    id: int
    at: str
    user: str
    # What was asked for, as a key of the pages' words: "move", "merge" ..
    action: str
    # sent, done, refused, fault, unknown (not even looking shows it), lost (it wasn't performed).
    state: str
    steps: list[Step]
    # Who proposed it, where `user` has accepted a proposal.
    proposer: str | None = None
    # The plan that this one takes back, and the plans that took this one back.
    takes_back: int | None = None
    taken_back_by: int | None = None
    # The first part of a long plan that was cut.
    first: int | None = None
    note: str | None = None

    @property
    def made(self) -> int | None:
        """The number of the first resource or posting that it made."""
        return next((it.answer["ok"] for it in self.steps if it.answer and "ok" in it.answer), None)


@dataclass(frozen=True, slots=True)
class Acceptance:
    """The proposal that a plan performs: its number, its author, and the editor's word to the author."""

    proposal: int
    user: str
    word: str = ""


@dataclass(slots=True)
class Batch:
    """A file that is brought in by several plans: its name, the digest of its bytes, and how many rows or requests it
    has."""

    name: str
    digest: str
    size: int
    # What it asks for, as it is kept until all is done.
    rest: bytes | None = None
    # Its first plan, once that is performed; when, by whom and as what it was brought in.
    plan: int | None = None
    at: str = ""
    user: str = ""
    action: str = ""
    refused: int = 0
    is_done: bool = False
    # The lines of the rows that its next plan does.
    lines: Sequence[int] = ()


@dataclass(slots=True)
class Draft:
    """A plan that is about to be sent."""

    user: str
    action: str
    steps: list[Step]
    accepted: Acceptance | None = None
    takes_back: int | None = None
    first: int | None = None
    # The file whose first plan it is.
    batch: Batch | None = None
    # The changes of rows that it will make; None if they aren't known.
    changes: Sequence[Change] | None = None
    # The lines of the rows of a table that it does.
    lines: Sequence[int] = ()


def write_digest(rows: sqlite3.Connection, digest: str) -> None:
    """Writes down the digest of the store after a plan."""
    rows.execute("INSERT OR REPLACE INTO state VALUES ('digest', ?)", (digest,))


def to_text(value: Any) -> str | None:
    return None if value is None else json.dumps(value, ensure_ascii=False, separators=(",", ":"))


def from_text(text: str | None) -> Any:
    return None if text is None else json.loads(text)


def resources_of_request(request: Request, answer: Answer | None = None) -> set[int]:
    """Returns the resources that a request names, and the one that it made; of those in an order only those that come
    or go."""
    found = {request[name] for name in NAMED if isinstance(request.get(name), int)}
    found |= moved_by(request) if request["do"] == "set" else set()
    if answer and "ok" in answer and request["do"] not in ("post", "import"):
        found.add(answer["ok"])
    return found


def step_of(row: sqlite3.Row) -> Step:
    """Returns the step of a row."""
    return Step(json.loads(row["request"]), row["state"], *(from_text(row[name]) for name in PARTS_OF_STEP))


class Journal(Database):
    """Who asked for what, when, and what the program answered."""

    # --- writing ---

    def begin(self, draft: Draft) -> int:
        """Writes a plan down before it is sent, and returns its number."""
        accepted = draft.accepted
        numbers = set[int]().union(*(it.numbers for it in draft.steps))
        with self.writing() as rows:
            done = rows.execute(
                "INSERT INTO plan (at, user, action, state, proposer, takes_back, first)"
                " VALUES (?, ?, ?, 'sent', ?, ?, ?)",
                (now(), draft.user, draft.action, accepted and accepted.user, draft.takes_back, draft.first),
            )
            plan = int(done.lastrowid or 0)
            if accepted:
                values = (plan, accepted.proposal, accepted.word or None)
                rows.execute("INSERT INTO accepting VALUES (?, ?, ?)", values)
            if it := draft.batch:
                about = (plan, it.name, it.digest, it.size, it.refused, it.rest)
                rows.execute("INSERT OR REPLACE INTO batch VALUES (?, ?, ?, ?, ?, 0, ?)", about)
            rows.executemany("INSERT INTO plan_row VALUES (?, ?)", [(plan, it) for it in draft.lines])
            rows.execute("UPDATE sent SET plan = ? WHERE key = ? AND plan IS NULL", (plan, sent_form.get()))
            rows.executemany(
                "INSERT INTO step VALUES (?, ?, 'sent', ?, NULL, ?, ?, ?)",
                [
                    (plan, place, *map(to_text, (it.request, it.foreseen, it.kept, it.facts)))
                    for place, it in enumerate(draft.steps, 1)
                ],
            )
            if draft.changes is not None:
                rows.execute("INSERT INTO change VALUES (?, ?)", (plan, to_text(list(draft.changes))))
            self.concern(rows, plan, numbers, set())
            rows.execute("INSERT OR REPLACE INTO state VALUES (?, ?)", (UNDER_WAY, str(plan)))
        return plan

    @staticmethod
    def newly_set(rows: sqlite3.Connection, plan: int, steps: Sequence[Step]) -> list[Request]:
        """Returns the values that steps have set, and that weren't written before."""
        written = rows.execute("SELECT place FROM step WHERE plan = ? AND state = 'done'", (plan,)).fetchall()
        places = {it["place"] for it in written}
        done = (it.request for place, it in enumerate(steps, 1) if it.state == "done" and place not in places)
        return [it for it in done if it["do"] == "set"]

    @staticmethod
    def concern(rows: sqlite3.Connection, plan: int, numbers: Iterable[int], changed: set[int]) -> None:
        found = [(it, plan, it in changed) for it in changed.union(numbers)]
        rows.executemany("INSERT OR REPLACE INTO concern VALUES (?, ?, ?)", found)

    def finish(
        self,
        plan: int,
        state: str,
        steps: Sequence[Step],
        *,
        changed: Collection[int] = (),
        counts: Mapping[str, int] | None = None,
        note: str | None = None,
        perform: Callable[[sqlite3.Connection], Mapping[str, int]] | None = None,
        also: Callable[[sqlite3.Connection], None] | None = None,
    ) -> None:
        """Writes down what came of a plan, and which resources have other labels, links or another state by it. The
        proposal that it performs is accepted with it. What `perform` writes, which returns the counts of the
        store, is written before it, and what `also` writes after it, or nothing is."""
        numbers = set[int]().union(*(it.numbers for it in steps))
        with self.writing() as rows:
            if perform:
                counts = perform(rows)
            rows.execute("UPDATE plan SET state = ?, note = coalesce(?, note) WHERE id = ?", (state, note, plan))
            rows.execute("INSERT OR REPLACE INTO ended VALUES (?, ?)", (plan, now()))
            if state == "done":
                self.accept(rows, plan)
            write_values(rows, plan, self.newly_set(rows, plan, steps))
            rows.executemany(
                "UPDATE step SET state = ?, request = ?, answer = ?, kept = ? WHERE plan = ? AND place = ?",
                [
                    (it.state, *map(to_text, (it.request, it.answer, it.kept)), plan, place)
                    for place, it in enumerate(steps, 1)
                ],
            )
            rows.execute("DELETE FROM concern WHERE plan = ?", (plan,))
            self.concern(rows, plan, numbers, set(changed))
            append(rows, plan)
            rows.executemany("INSERT OR REPLACE INTO count VALUES (?, ?)", list((counts or {}).items()))
            if also:
                also(rows)
            rows.execute("DELETE FROM state WHERE name = ? AND value = ?", (UNDER_WAY, str(plan)))

    def leave_open(self) -> None:
        """Notes that no plan is under way any more: the one that was is settled later."""
        self.note(("DELETE FROM state WHERE name = ?", UNDER_WAY))

    @staticmethod
    def accept(rows: sqlite3.Connection, plan: int) -> None:
        """Accepts the proposal that a plan has performed, which its author, if it is another one, is to read."""
        found = rows.execute(
            "UPDATE proposal SET state = 'accepted', decided_at = ?, decided_by = plan.user, word = accepting.word,"
            " plan = plan.id FROM plan JOIN accepting ON accepting.plan = plan.id"
            " WHERE plan.id = ? AND proposal.id = accepting.proposal AND proposal.state = 'open'"
            " RETURNING proposal.id, proposal.user, decided_by",
            (now(), plan),
        ).fetchall()
        rows.executemany(
            "INSERT INTO unread VALUES (?)", [(it["id"],) for it in found if it["user"] != it["decided_by"]]
        )

    @staticmethod
    def set_apart(rows: sqlite3.Connection, last: int) -> None:
        """Sets apart what concerns resources that aren't there any more, as their numbers are after the last one, under
        the negative of each number: the next resource that gets the number has no history and no comments yet."""
        for table in ("concern", "comment"):
            rows.execute(f"UPDATE OR REPLACE {table} SET number = -number WHERE number > ?", (last,))

    @staticmethod
    def note_digest(rows: sqlite3.Connection, digest: str) -> None:
        """Notes the digest of the store as it is now, in place of those of its resources that an earlier desk noted."""
        write_digest(rows, digest)
        rows.execute("DELETE FROM seal")

    def note_stop(self, digest: str) -> None:
        """Notes that the desk ends, and the digest of the store."""
        with self.writing() as rows:
            rows.execute("INSERT INTO stop (at, digest) VALUES (?, ?)", (now(), digest))

    # --- reading ---

    def counts(self) -> dict[str, int]:
        """Returns how many resources, postings and moves there were after the last plan."""
        return {it["name"]: it["value"] for it in self.all("SELECT name, value FROM count")}

    def digest(self) -> str:
        """Returns the digest of the store after the last plan; "" in a new journal, and in that of an earlier desk."""
        found = self.one("SELECT value FROM state WHERE name = 'digest'")
        return str(found["value"]) if found else ""

    def changes_of(self, plan: int) -> list[Change] | None:
        """Returns the changes of rows that a plan was to make; None if they aren't known."""
        found = self.one("SELECT rows FROM change WHERE plan = ?", plan)
        changes: list[Change] | None = from_text(found["rows"]) if found else None
        return changes

    def last_plan(self) -> int:
        """Returns the number of the last plan that has ended, or 0: a page that is made while another one is under way
        shows nothing of that."""
        found = self.one(LAST_PLAN)
        return int(found[0]) if found else 0

    @property
    def under_way(self) -> int | None:
        """The number of the plan that is under way; its answer is on its way."""
        return int(self.state(UNDER_WAY) or 0) or None

    def plan(self, number: int) -> Plan | None:
        """Returns the plan of a number."""
        return next(iter(self.plans("SELECT * FROM plan WHERE id = ?", number)), None)

    def parts(self, plan: Plan) -> list[Plan]:
        """Returns the parts of a long plan that was cut, the plan itself among them; of any other, the plan alone."""
        first = plan.first or plan.id
        return self.plans("SELECT * FROM plan WHERE id = ?1 OR first = ?1 ORDER BY id", first)

    def last_plan_at(self, time: str) -> int:
        """Returns the number of the last plan that was begun up to a time, or 0."""
        found = self.one("SELECT id FROM plan WHERE at <= ? ORDER BY at DESC, id DESC LIMIT 1", time)
        return int(found["id"]) if found else 0

    def since(self, number: int, plan: int) -> list[Plan]:
        """Returns the plans after one that changed a resource, in their order."""
        which = "number = ? AND id > ? AND state = 'done' ORDER BY id"
        return self.plans(f"SELECT plan.* FROM plan JOIN concern ON plan = id WHERE {which}", number, plan)

    def others_since(self, plan: int, batch: int) -> list[Plan]:
        """Returns the plans after one that were done and are no parts of a file, which its first plan names, in their
        order."""
        which = "id > ? AND coalesce(first, id) <> ? AND state = 'done' ORDER BY id"
        return self.plans(f"SELECT * FROM plan WHERE {which}", plan, batch)

    def later_than(self, plans: Sequence[Plan]) -> list[tuple[int, int]]:
        """Returns what others have changed since of the resources that the parts of a plan concern: pairs of a resource
        and a plan."""
        first = plans[0].first or plans[0].id
        own = "SELECT id FROM plan WHERE id = ?1 OR first = ?1"
        found = self.all(
            "SELECT number, plan FROM concern JOIN plan ON plan.id = concern.plan WHERE plan.id > ?2 AND state = 'done'"
            f" AND plan.id NOT IN ({own}) AND number IN (SELECT number FROM concern WHERE plan IN ({own}))",
            first,
            plans[0].id,
        )
        return [(it["number"], it["plan"]) for it in found]

    def open_plans(self) -> list[Plan]:
        """Returns the plans of which it isn't known whether they were performed, and that nobody has taken back, or
        looked at and closed. One that is under way isn't among them."""
        back = "SELECT takes_back FROM plan WHERE state = 'done' AND takes_back IS NOT NULL"
        is_open = f"state IN ('sent', 'unknown') AND id NOT IN ({back}) AND coalesce(note, '') NOT LIKE '{LOOKED_AT}%'"
        return self.plans(f"SELECT * FROM plan WHERE {is_open} AND id <> ? ORDER BY id", self.under_way or 0)

    def cut_imports(self) -> list[Plan]:
        """Returns the imports of posting files that were cut short, with their rows."""
        first = "SELECT plan FROM step WHERE place = 1 AND json_extract(request, '$.do') = 'import'"
        has_rows = "json_type(kept, '$.rows') = 'array'"
        query = f"SELECT * FROM plan WHERE state = 'sent' AND id IN ({first} AND {has_rows}) AND id <> ? ORDER BY id"
        return self.plans(query, self.under_way or 0)

    def close_plan(self, plan: int, user: str) -> None:
        """Notes that somebody has looked at what came of a plan of which nobody knows that."""
        with self.writing() as rows:
            rows.execute("UPDATE plan SET note = ? WHERE id = ? AND state = 'unknown'", (f"{LOOKED_AT} {user}", plan))

    def plans(self, query: str, *values: Any) -> list[Plan]:
        """Returns the plans that a query finds, with their steps, all as they are at one moment."""
        with self.in_one_transaction():
            return [self.plan_of(it) for it in self.all(query, *values)]

    def plans_about(self, number: int, most: int) -> list[Plan]:
        """Returns the last plans that concern a resource, each with the steps alone that do; one of which none does has
        all."""
        query = "SELECT plan.* FROM plan JOIN concern ON plan = id WHERE number = ? ORDER BY id DESC LIMIT ?"
        with self.in_one_transaction():
            return [self.plan_of(it, self.steps_about(it["id"], number)) for it in self.all(query, number, most)]

    def steps_about(self, plan: int, number: int) -> list[Step]:
        """Returns the steps of a plan that concern a resource. Those alone are read that have its number anywhere: a
        plan may have hundreds, with long texts."""
        # (what hasn't its digits is passed over at once)
        has_number = " OR ".join(f"(instr({it}, ?3) AND {it} GLOB ?2)" for it in ("request", *PARTS_OF_STEP[:3]))
        query = f"SELECT * FROM step WHERE plan = ?1 AND ({has_number}) ORDER BY place"
        found = map(step_of, self.all(query, plan, f"*[^0-9]{number}[^0-9]*", str(number)))
        return [it for it in found if number in it.numbers]

    def plan_of(self, row: sqlite3.Row, its: Sequence[Step] = ()) -> Plan:
        """Returns a plan, with all its steps or some."""
        all_steps = "SELECT * FROM step WHERE plan = ? ORDER BY place"
        steps = list(its) or [step_of(it) for it in self.all(all_steps, row["id"])]
        first = row["first"] or row["id"]
        back = self.one("SELECT id FROM plan WHERE takes_back = ? AND state = 'done'", first)
        names = ("id", "at", "user", "action", "state", "proposer", "takes_back", "first", "note")
        return Plan(**{it: row[it] for it in names}, steps=steps, taken_back_by=back["id"] if back else None)
