"""Compares the journal with the store, and with its own digests: `desk check`."""
from __future__ import annotations

import json
import sqlite3
from collections import defaultdict
from collections.abc import Iterator
from contextlib import closing
from pathlib import Path

from thesaurus_desk.journal.chain import breaks, has_digest, last_entry
from thesaurus_desk.journal.entries import Answer, Journal, Plan, Request, Step
from thesaurus_desk.journal.schema import journal_of
from thesaurus_desk.journal.values import Values, source_of, text_of
from thesaurus_desk.store.build import is_usable
from thesaurus_desk.store.changes import ENDS, PLACES
from thesaurus_desk.store.difference import attach_store, differences
from thesaurus_desk.store.resources import COUNTS
from thesaurus_desk.store.schema import KINDS
from thesaurus_tools.command_line import ToolError
from thesaurus_tools.table_store import TableStore, open_tables

MAKES = {"scheme": "scheme", "concept": "concept", "collection": "collection", "outside": "outside", "split": "concept"}
# A value of a field: its owner, field, tag, text and source.
PlainValue = tuple[int, str, str, str, str]
# How many plans are read at a time.
MANY = 500


def check(db: Path, digest: str = "") -> list[str]:
    """Returns in what the journal and the store of a path differ, where the journal isn't as desks have written it, and
    whether it lacks a digest that was noted: a sentence each.

    Raises ToolError if either can't be read."""
    path = journal_of(db)
    if not path.exists():
        raise ToolError(f"{path}: there is no journal")
    with open_tables(db) as tables, closing(Journal(path).open()) as journal:
        store = Rows(db, tables)
        return [
            *differing_counts(journal, store),
            *differing_plans(journal, store),
            *differing_rows(journal, store),
            *differing_values(journal),
            *breaks(journal),
            *([] if not digest or has_digest(journal, digest) else [f"no plan has the digest {digest}"]),
        ]


def last_digest(db: Path) -> str:
    """Returns the last digest of the journal of a store as it is printed, or nothing if no plan has one."""
    with closing(Journal(journal_of(db)).open()) as journal:
        last = last_entry(journal)
    return f"plan {last[0]} has the digest {last[1]}" if last else ""


class Rows(TableStore):
    """Looks up single rows of the store."""

    def __init__(self, path: Path, tables: sqlite3.Connection) -> None:
        super().__init__(path, tables)
        self.read_base()

    def kind_of(self, number: int) -> str | None:
        """Returns the kind of a resource."""
        found = next(self.rows("SELECT kind FROM resource WHERE num = ?", number), None)
        return KINDS[found[0]] if found else None

    def counts(self) -> dict[str, int]:
        """Returns how many resources, postings and moves there are."""
        return {name: next(self.rows(query))[0] for name, query in COUNTS.items()}


def differing_counts(journal: Journal, store: Rows) -> Iterator[str]:
    """Yields which counts are less than after the last plan."""
    now = store.counts()
    for name, count in journal.counts().items():
        if now[name] < count:
            yield f"the store has {now[name]:,} {name}, and had {count:,}: was it restored from a backup?"


def differing_plans(journal: Journal, store: Rows) -> Iterator[str]:
    """Yields the plans whose outcome isn't known, and those that aren't in the store as the journal has them."""
    last = 0
    while plans := journal.plans("SELECT * FROM plan WHERE id > ? ORDER BY id LIMIT ?", last, MANY):
        for plan in plans:
            if plan.state in ("sent", "unknown"):
                yield f"{plan_name(plan)}: nobody knows whether it was performed"
            for place, step in enumerate(plan.steps, 1):
                what = difference(store, step) if step.state in ("done", "undone") else None
                if what:
                    yield f"{plan_name(plan)}, step {place}: {what}"
        last = plans[-1].id


def plan_name(plan: Plan) -> str:
    return f"plan {plan.id} ({plan.at}, {plan.user}, {plan.action})"


def difference(store: Rows, step: Step) -> str | None:
    """Returns what the store lacks of what a step did that nothing takes back: numbers, ended concepts, postings."""
    request, answer = step.request, step.answer or {}
    do = request["do"]
    if do in MAKES:
        found = store.kind_of(answer["ok"])
        return None if found == MAKES[do] else f"number {answer['ok']} is {found or 'nothing'}, and no {MAKES[do]}"
    if do in ("merge", "deprecate"):
        ended = request["source"] if do == "merge" else request["concept"]
        state = next(store.rows("SELECT live, replaced FROM resource WHERE num = ?", ended), None)
        return None if state == (0, request.get("target")) else f"concept {ended} didn't end so"
    if do == "withdraw":
        posting = next(store.rows("SELECT withdrawn FROM posting WHERE num = ?", request["posting"]), None)
        return None if posting == (1,) else f"posting {request['posting']} isn't withdrawn"
    if do == "post":
        return difference_of_post(store, request, answer)
    if do == "import" and answer.get("last", 0) > store.counts()["postings"]:
        return f"there is no posting {answer['last']}"
    return None


def difference_of_post(store: Rows, request: Request, answer: Answer) -> str | None:
    number = answer.get("ok", answer.get("again"))
    it = next(store.rows("SELECT pkey, record, first_at FROM posting WHERE num = ?", number or 0), None)
    is_so = it == (request["key"], request["record"], request["concept"])
    return None if is_so else f"posting {number} isn't that of {request['record']} with {request['concept']}"


def differing_rows(journal: Journal, store: Rows) -> Iterator[str]:
    """Yields the resources that were changed by other means since the last plan."""
    if not is_usable(journal.rows):
        return
    with attach_store(journal.rows, Path(store.name)):
        found = differences(journal.rows)
    numbers: set[int] = set()
    for it in found:
        ends = (*ENDS.get(it.table, ()), *PLACES.get(it.table, ()))
        numbers.update(row[end] for row in (*it.gone, *it.new) for end in ends if row[end] is not None)
    for number in sorted(numbers):
        was = journal.one("SELECT kind FROM resource WHERE num = ?", number)
        kind = store.kind_of(number) or (KINDS[was["kind"]] if was else "resource")
        what = "was made" if was is None else "was changed" if store.kind_of(number) else "isn't there any more"
        yield f"{kind} {number} {what} by other means"


def differing_values(journal: Journal) -> Iterator[str]:
    """Yields the resources whose values aren't what the steps that set them come to, in their order."""
    kept: dict[int, list[PlainValue]] = defaultdict(list)
    for it in Values(journal).each():
        kept[it.owner].append((it.owner, it.field, it.tag, it.text, it.source))
    replayed = replay(journal)
    for owner in sorted({*kept, *replayed}):
        if kept.get(owner, []) != replayed.get(owner, []):
            yield f"the values of resource {owner} aren't those that the plans have set"


def replayed_values(journal: Journal) -> list[PlainValue]:
    """Returns the values that all steps that were done come to, in their order, by resource."""
    return [value for _, its in sorted(replay(journal).items()) for value in its]


def replay(journal: Journal) -> dict[int, list[PlainValue]]:
    """Returns the same for each resource."""
    made: dict[int, list[PlainValue]] = defaultdict(list)
    steps = journal.all(
        "SELECT request FROM step WHERE state = 'done' AND json_extract(request, '$.do') = 'set' ORDER BY plan, place"
    )
    for it in (json.loads(step["request"]) for step in steps):
        its, key = made[it["owner"]], (it["owner"], it["field"], it["tag"])
        new = [] if it["new"] is None else [(*key, text_of(it["new"]) or "", source_of(it["new"]))]
        old = None if it["old"] is None else (*key, text_of(it["old"]))
        # (what isn't there was set by no plan: that is a difference, and no fault)
        place = next((at for at, one in enumerate(its) if one[:4] == old), len(its))
        its[place : place + 1] = new
    return made
