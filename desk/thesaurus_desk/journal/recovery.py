"""Plans whose answer never came, and what other programs changed while the desk was down: found out by looking at
the replica, once it is that of the store again."""
from __future__ import annotations

import logging
from collections.abc import Iterable, Sequence
from dataclasses import dataclass, replace

from thesaurus_desk.journal.entries import Draft, Journal, Plan, Request, Step
from thesaurus_desk.journal.old_journals import differing_from_seals, look_up_by_facts
from thesaurus_desk.journal.references import resolve_request
from thesaurus_desk.journal.values import Values, set_request
from thesaurus_desk.store.outcome import look_for, touched_by
from thesaurus_desk.store.replica import Replica

log = logging.getLogger("desk")
# The action of a plan that notes what other programs changed.
BY_OTHERS = "by other means"
# What its note begins with, if the store was restored; the time of the backup follows, if it is known.
RESTORED = "restored from a backup"


@dataclass(frozen=True, slots=True)
class StartReport:
    """What a desk found when it opened the store."""

    # Plans that an earlier desk left open, as they are settled now.
    settled: tuple[Plan, ...] = ()
    # Whether something was changed by other means since, and which resources, as far as that is known.
    is_changed: bool = False
    changed: tuple[int, ...] = ()
    # When an earlier desk stopped with the store as it is now: it was restored from a backup. "" if only less is there
    # than was there.
    restored: str | None = None


# --- plans without an answer ---


def look_up(journal: Journal, replica: Replica, plan: Plan) -> str:
    """Settles whether a plan was performed, and returns its state: done, lost or unknown."""
    changes = journal.changes_of(plan.id)
    if changes is None:
        return look_up_by_facts(replica, plan.steps)
    state = look_for(replica, changes)
    mark_steps(plan.steps, state)
    return state


def mark_steps(steps: Sequence[Step], state: str) -> None:
    """Gives the steps of a plan its state, and those that were done the answers that were foreseen."""
    numbers: list[int | None] = []
    for step in steps:
        step.state = state
        step.answer = step.foreseen if state == "done" and step.answer is None else step.answer
        step.request = resolve_request(step.request, numbers)
        answer = step.answer or {}
        numbers.append(answer.get("ok", answer.get("again")))


def settle(journal: Journal, replica: Replica) -> list[Plan]:
    """Settles the plans that an earlier desk left open, but for imports that are sent again."""
    cut = {it.id for it in journal.cut_imports()}
    found = [it for it in journal.plans("SELECT * FROM plan WHERE state = 'sent' ORDER BY id") if it.id not in cut]
    for plan in found:
        if plan.steps and plan.steps[0].request["do"] == "import":
            plan.state = look_up_import(journal, replica, plan.steps[0])
        else:
            plan.state = look_up(journal, replica, plan)
        changed, counts = changed_by(plan.steps, Values(journal)), replica.counts()
        note = "settled by looking at the store"
        journal.finish(plan.id, plan.state, plan.steps, changed=changed, counts=counts, note=note)
        log.warning("plan %s had no answer: %s", plan.id, plan.state)
    return found


def look_up_import(journal: Journal, replica: Replica, step: Step) -> str:
    """Settles how far an import got: its postings are those that there are more than when it began."""
    before, now = (step.kept or {}).get("before", journal.counts().get("postings", 0)), replica.counts()["postings"]
    step.answer = {"outcomes": {}, **({"first": before + 1, "last": now} if now > before else {})}
    step.kept = {"places": replica.postings.places_after(before)}
    step.state = "done" if now > before else "lost"
    return step.state


def changed_by(steps: Iterable[Step], values: Values) -> set[int]:
    """Returns the resources that the steps that were done have changed."""
    return set[int]().union(*(it.numbers for it in steps if it.state == "done" and values.is_change(it.request)))


def explained_by(journal: Journal, replica: Replica, plans: Iterable[Plan]) -> set[int]:
    """Returns the resources that are other than before by plans that were performed, or may have been."""
    found = set[int]()
    for plan in plans:
        if plan.steps and plan.steps[0].request["do"] == "import":
            before = (plan.steps[0].kept or {}).get("before")
            found.update(plan.steps[0].numbers if before is None else replica.postings.places_after(before))
        elif plan.state in ("done", "unknown"):
            found |= touched_by(journal.changes_of(plan.id) or ())
            # (a posting at a concept that was merged is forwarded)
            for it in plan.steps:
                places = {replica.final(number) for number in it.numbers} if it.request["do"] == "post" else set()
                found |= it.numbers | {place for place in places if place}
    return found


# --- what others have changed ---


def start(journal: Journal, replica: Replica, differing: frozenset[int] | None) -> StartReport:
    """Settles what an earlier desk left open, notes what was changed by other means since, and has a journal of an
    earlier version be one of this version: all in one transaction. `differing` are the resources of which the replica
    had others than the store; None if it was made anew."""
    with journal.transaction() as rows:
        settled = settle(journal, replica)
        explained = explained_by(journal, replica, [*settled, *journal.cut_imports()])
        found = note_changes(journal, replica, differing, explained)
        journal.note_version(rows)
    return replace(found, settled=tuple(settled))


def note_changes(
    journal: Journal, replica: Replica, differing: frozenset[int] | None, explained: Iterable[int] = ()
) -> StartReport:
    """Notes as changed by other means what no plan explains."""
    explained = set(explained)
    digest = replica.digest()
    changed = differing_from_seals(journal, replica).union(differing or ()) - explained
    # (after a kill at the last start the replica is that of the store already, and nothing is noted)
    is_changed = bool(changed) or not explained and journal.digest() not in ("", digest)
    # (the next resource would get the number of one that a restored store lacks, and its values with it)
    lost = [Step(it, "done", {"done": True}) for it in removals(replica, Values(journal))]
    restored = None
    if is_changed or lost:
        restored = restored_from(journal, replica)
        note = None if restored is None else f"{RESTORED} of {restored}" if restored else RESTORED
        counts = replica.counts()
        with journal.transaction() as rows:
            plan = journal.begin(Draft("", BY_OTHERS, lost))
            journal.finish(plan, "done", lost, changed=changed, counts=counts, note=note)
            journal.set_apart(rows, last=counts["resources"])
            journal.note_digest(rows, digest)
        log.warning("%d resources were changed by other means%s", len(changed), f"; {note}" if note else "")
    elif digest != journal.digest():
        with journal.transaction() as rows:
            journal.note_digest(rows, digest)
    return StartReport((), is_changed or bool(lost), tuple(sorted(changed)), restored)


def removals(replica: Replica, values: Values) -> list[Request]:
    """Returns the requests that remove the values of resources that aren't there."""
    return [
        set_request(it.owner, it.field, it.tag, old=it.member) for it in values.each() if replica.kind(it.owner) is None
    ]


def restored_from(journal: Journal, replica: Replica) -> str | None:
    """Returns when an earlier desk stopped with the store as it is now; "" if it only has less than it had; else
    None."""
    same = journal.one("SELECT at FROM stop WHERE digest = ? ORDER BY id DESC LIMIT 1", replica.digest())
    if same:
        return str(same["at"])
    had = journal.counts()
    return "" if any(had.get(name, 0) > count for name, count in replica.counts().items()) else None
