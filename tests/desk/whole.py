"""All that a replica has, for tests that look at the whole."""
from __future__ import annotations

from thesaurus_desk.store.model import Posting, Resource
from thesaurus_desk.store.replica import Replica


def resources(replica: Replica) -> dict[int, Resource]:
    """All resources by their numbers."""
    with replica.reading():
        found = {it: replica.get(it) for it in range(1, replica.counts()["resources"] + 1)}
    return {number: it for number, it in found.items() if it is not None}


def postings(replica: Replica) -> list[Posting]:
    """All postings, in the order of their numbers."""
    return replica.postings.several(range(1, replica.counts()["postings"] + 1))
