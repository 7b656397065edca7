"""What the program says that a plan would do, before the plan is sent: its answers, its changes of rows, and so what it
destroys."""
from __future__ import annotations

import contextlib
import sqlite3
from collections.abc import Callable, Iterator, Sequence
from dataclasses import dataclass, field
from pathlib import Path
from typing import Any

from thesaurus_desk.journal import Answer, Request, Step
from thesaurus_desk.journal.references import resolve_request
from thesaurus_desk.store.changes import Change, Changes
from thesaurus_desk.store.plan_outcome import requests_for
from thesaurus_desk.store.program import Program
from thesaurus_desk.store.read_transactions import ReadTransaction, Row, V
from thesaurus_desk.store.replica import Replica
from thesaurus_desk.store.schema import KIND_OF_LABEL
from thesaurus_desk.store.step_changes import changes_of_step

# The requests of which it must be looked up what they destroy, as earlier requests of the plan leave it.
LOOKED_UP = ("withdraw", "merge", "deprecate")


@dataclass(slots=True)
class Trial:
    """What came of trying a plan."""

    changes: list[Change] = field(default_factory=list)
    # With numbers for references.
    requests: list[Request] = field(default_factory=list)
    # The step that was refused, and the answer to it.
    failed: Step | None = None
    answer: Answer | None = None


def try_steps(program: Program, replica: Replica, steps: Sequence[Step]) -> Trial:
    """Asks the program what a plan would do, and notes in its steps the answers that are to come. Raises NoAnswer and
    TooLong."""
    note_known(replica, steps)
    left, requests = requests_for(steps)
    answer = program.ask({"try": requests}) if left else {"changes": [], "done": []}
    if "done" not in answer:
        return Trial(failed=left[answer.pop("at", 1) - 1], answer=answer)
    for step, its in zip(left, answer["done"], strict=True):
        step.foreseen = its
    numbers: list[int | None] = []
    found = Trial(answer["changes"])
    for step in steps:
        foreseen = step.foreseen or {"done": True}
        if "same" in foreseen:
            foreseen = {"ok": numbers[foreseen["same"] - 1], "known": True}
        step.foreseen = foreseen
        found.requests.append(resolve_request(step.request, numbers))
        numbers.append(foreseen.get("ok", foreseen.get("again")))
    return found


def note_known(replica: Replica, steps: Sequence[Step]) -> None:
    """Notes which outside concepts are known, or made by an earlier step of the plan."""
    first: dict[str, int] = {}
    for place, step in enumerate(steps, 1):
        if step.request["do"] == "outside":
            iri = step.request["iri"]
            if (number := number_of_outside(replica, iri)) is not None:
                step.foreseen = {"ok": number, "known": True}
            elif iri in first:
                step.foreseen = {"same": first[iri], "known": True}
            else:
                first[iri] = place


# --- what a plan destroys ---


class TrialReplica(Replica):
    """The replica as the requests of a plan so far would leave it: read by the connection that writes."""

    def __init__(self, path: Path, rows: sqlite3.Connection) -> None:
        super().__init__(path)
        self.rows = rows
        self.local.transaction = ReadTransaction({})

    def all(self, query: str, *values: Any) -> list[Row]:
        cursor = self.rows.cursor()
        cursor.row_factory = None
        try:
            return cursor.execute(query, values).fetchall()
        except (OverflowError, UnicodeEncodeError):
            return []

    @contextlib.contextmanager
    def reading(self) -> Iterator[None]:
        yield

    def once(self, name: Any, make: Callable[[], V], parts: tuple[str, ...] = ()) -> V:
        return make()

    def make(self, changes: Sequence[Change]) -> None:
        """Makes changes, and forgets what was read before. Raises WrongChange."""
        Changes(self.rows).make(changes)
        self.local.transaction = ReadTransaction({})


def note_destroyed(rows: sqlite3.Connection, path: Path, steps: Sequence[Step], trial: Trial) -> None:
    """Notes in the steps of a plan what they destroy. `rows` is the connection that writes the replica's file; of the
    changes that are made by it nothing stays. Raises WrongChange."""
    last = max((at for at, it in enumerate(steps) if it.request["do"] in LOOKED_UP), default=-1)
    rest = list(reversed(trial.changes))
    with trial_replica(rows, path) if last >= 0 else contextlib.nullcontext() as replica:
        for at, (step, request) in enumerate(zip(steps, trial.requests, strict=True)):
            kept = looked_up(replica, request) if replica else None
            own = changes_of_step(request, step.foreseen or {}, rest, kept or {})
            step.kept = losses_of(request, own, kept)
            if replica and at < last:
                replica.make(own)


@contextlib.contextmanager
def trial_replica(rows: sqlite3.Connection, path: Path) -> Iterator[TrialReplica]:
    """Yields the replica to which changes can be made of which nothing stays."""
    rows.execute("BEGIN IMMEDIATE")
    try:
        yield TrialReplica(path, rows)
    finally:
        rows.execute("ROLLBACK")


def looked_up(replica: Replica, request: Request) -> dict[str, Any] | None:
    """Returns what there is before a request that destroys it."""
    do = request["do"]
    if do == "withdraw":
        posting = replica.postings.get(request["posting"])
        return {name: getattr(posting, name) for name in ("key", "record", "place")} if posting else None
    if do not in ("merge", "deprecate"):
        return None
    one = replica.resource(request["concept"] if do == "deprecate" else request["source"])
    kept: dict[str, Any] = {"labels": sorted(one.labels), "links": sorted(one.links()), "scheme": one.scheme}
    if do == "merge":
        target = replica.resource(request["target"])
        kept["target"] = {"labels": sorted(target.labels), "links": sorted(target.links())}
        kept["postings"] = replica.postings.numbers_at(one.number)
    return kept


def losses_of(request: Request, own: Sequence[Change], kept: dict[str, Any] | None) -> dict[str, Any] | None:
    """Returns what a request destroys, as far as it is needed to take it back."""
    do = request["do"]
    if do == "relabel":
        # (without changes the term was that already)
        return {"old": own[0][5] if own else request["text"]}
    if do == "post":
        return {"place": own[0][6] if own else request["concept"]}
    if do == "merge" and kept is not None:
        labels = [it for it in own if it[:2] == ["insert", "label"]]
        kept["copied"] = sorted((KIND_OF_LABEL[kind], tag, text) for *_, kind, tag, text in labels)
    return kept


def number_of_key(replica: Replica, key: str) -> int | None:
    """Returns the number of the posting that has a key."""
    found = replica.postings.with_key(key)
    return found.number if found else None


def number_of_outside(replica: Replica, iri: str) -> int | None:
    """Returns the number of the outside concept that has an IRI."""
    found = replica.by_iri(iri)
    return found if found is not None and replica.kind(found) == "outside" else None
