"""The replica as the plain program, for the dice that throw requests."""
from __future__ import annotations

from plain import Plain
from thesaurus_desk.store.replica import Replica
from whole import postings, resources


def as_plain(replica: Replica) -> Plain:
    """Returns the state of a replica as the plain program holds it."""
    return replica.once("plain", lambda: copied(replica))


def copied(replica: Replica) -> Plain:
    plain = Plain({})
    for it in resources(replica).values():
        scheme, replaced = it.scheme, it.replaced
        plain.resources.append(
            {"kind": it.kind, "scheme": scheme, "live": it.is_live, "replaced": replaced, "iri": it.iri}
        )
        plain.labels += [(it.number, kind, tag, text) for kind, tag, text in sorted(it.labels)]
        plain.links += [(link.kind, link.a, link.b) for link in sorted(it.links()) if link.a == it.number]
    its = postings(replica)
    for posting in its:
        row = {"key": posting.key, "record": posting.record, "first": posting.first}
        plain.postings.append({**row, "withdrawn": posting.is_withdrawn})
    moves = {move: (it.number, source, target) for it in its for move, source, target in it.moves}
    plain.moves = [moves[it] for it in sorted(moves)]
    return plain
