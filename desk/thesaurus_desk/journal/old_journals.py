"""What the journal of an earlier desk has in place of the changes of rows: for each step what is so if it was
performed, and digests of resources."""
from __future__ import annotations

import hashlib
from collections.abc import Sequence
from typing import Any

from thesaurus_desk.journal.entries import Journal, Step
from thesaurus_desk.journal.references import resolve_request
from thesaurus_desk.store.model import Link
from thesaurus_desk.store.replica import Replica
from thesaurus_desk.store.trial import number_of_key, number_of_outside

SIZE = 8


def look_up_by_facts(replica: Replica, steps: Sequence[Step]) -> str:
    """Settles whether the steps of a plan were performed, and returns the plan's state: done, lost or unknown.

    A step without facts, as it changes nothing that a later one doesn't change again, goes with the others."""
    for step in steps:
        facts = [holds(replica, it) for it in step.facts or ()]
        if step.state in ("sent", "unknown"):
            step.state = "unknown" if not facts or any(facts) != all(facts) else "done" if all(facts) else "lost"
    known = {it.state for it in steps} - {"unsent", "unknown"}
    would_change = any(it.facts for it in steps)
    if len(known) == 1 and known <= {"done", "lost"} or not known and not would_change:
        (state,) = known or {"lost"}
        for step in steps:
            step.state = state
    else:
        state = "unknown"
    numbers: list[int | None] = []
    for step in steps:
        step.answer = step.foreseen if step.state == "done" and step.answer is None else step.answer
        step.request = resolve_request(step.request, numbers)
        answer = step.answer or {}
        numbers.append(answer.get("ok", answer.get("again")))
    return state


def holds(replica: Replica, fact: list[Any]) -> bool:
    """Whether something is so in the store."""
    name, *about, value = fact
    if name == "label":
        owner, *label = about
        it = replica.get(owner)
        return (it is not None and tuple(label) in it.labels) is value
    if name == "link":
        return replica.has_link(Link(*about)) is value
    if name == "outside":
        return number_of_outside(replica, about[0]) == int(value)
    if name == "dead":
        it = replica.get(about[0])
        return it is not None and not it.is_live and (it.replaced or 0) == int(value)
    if name == "key":
        return number_of_key(replica, about[0]) == int(value)
    posting = replica.postings.get(about[0])
    if posting is None:
        return False
    return posting.is_withdrawn if name == "withdrawn" else posting.place == int(value)


def seal(replica: Replica, number: int) -> bytes:
    """Returns the digest of a resource: its labels, its links, its state, and which postings are assigned to it."""
    it, here = replica.resource(number), replica.postings.numbers_at(number)
    parts = (it.kind, it.scheme, it.is_live, it.replaced, it.iri, sorted(it.labels), sorted(it.links()))
    return hashlib.blake2b(repr((*parts, len(here), sum(here))).encode(), digest_size=SIZE).digest()


def differing_from_seals(journal: Journal, replica: Replica) -> set[int]:
    """Returns the resources that have another digest than an earlier desk has noted. These are forgotten with
    the first digest of the store: from then on the replica shows what is other than it was."""
    before = {it["number"]: bytes(it["digest"]) for it in journal.all("SELECT number, digest FROM seal")}
    if not before:
        return set()
    with replica.reading():
        now = {it: seal(replica, it) for it in range(1, replica.counts()["resources"] + 1)}
    return {it for it in now.keys() | before.keys() if now.get(it) != before.get(it)}
