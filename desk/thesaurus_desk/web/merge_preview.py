"""What a merge would do: the program's changes of rows, as people read them."""
from __future__ import annotations

from collections.abc import Sequence
from dataclasses import dataclass

from thesaurus_desk.store.changes import Change
from thesaurus_desk.store.model import OPPOSITE, Link, OwnLabel
from thesaurus_desk.store.replica import Replica
from thesaurus_tools.kinds import BROADER
from thesaurus_tools.table_store import KIND_OF_LABEL, KIND_OF_LINK, KIND_OF_TYPE


@dataclass(frozen=True, slots=True)
class MergePreview:
    """What a merge would do."""

    # The labels that the target gets, and those of the source that it doesn't get.
    labels: tuple[OwnLabel, ...]
    dropped_labels: tuple[OwnLabel, ...]
    # The source's links: the kind as seen from it, the other end, and what becomes of it: moves, there or between.
    links: tuple[tuple[str, int, str], ...]
    # The postings that move; the number of their records, each counted once, and of those that the target has already.
    postings: tuple[int, ...]
    records: int
    doubles: int


def preview_of(replica: Replica, source: int, target: int, changes: Sequence[Change]) -> MergePreview:
    """Returns what the changes of a merge come to."""
    with replica.reading():
        labels = [(KIND_OF_LABEL[it[3]], it[4], it[5]) for it in changes if it[:2] == ["insert", "label"]]
        given = {it[1:] for it in labels}
        own = (it for it in replica.resource(source).labels if it[0] != "scope")
        postings = [it[3] for it in changes if it[:2] == ["insert", "move"]]
        records = replica.postings.records_of(postings)
        return MergePreview(
            tuple(sorted(labels)),
            tuple(sorted(it for it in own if it[1:] not in given)),
            tuple(links_of(source, target, changes)),
            tuple(postings),
            len(records),
            len(records & replica.postings.records_at(target)),
        )


def links_of(source: int, target: int, changes: Sequence[Change]) -> list[tuple[str, int, str]]:
    """Returns what becomes of the source's links: those that move first, and the one with the target last."""
    gone, made = (
        [link_of(it[1:]) for it in changes if it[0] == what and it[1] in ("link", "hier")]
        for what in ("delete", "insert")
    )
    moved = {seen_from(target, it) for it in made}
    found: dict[str, list[tuple[str, int, str]]] = {"moves": [], "there": [], "between": []}
    for link in sorted(gone):
        kind, other = seen_from(source, link)
        what = "between" if other == target else "moves" if (kind, other) in moved else "there"
        found[what].append((kind, other, what))
    return [it for links in found.values() for it in links]


def link_of(row: Sequence[int]) -> Link:
    """Returns the link of a row, after the name of its table."""
    table, *cells = row
    return Link(KIND_OF_TYPE[cells[2]], *cells[:2]) if table == "hier" else Link(KIND_OF_LINK[cells[0]], *cells[1:])


def seen_from(number: int, link: Link) -> tuple[str, int]:
    """Returns the kind of a link as seen from one of its ends, and the other end."""
    if link.kind == "member":
        return "collection", link.a
    if link.a == number:
        return link.kind, link.b
    kind = link.kind.replace("broader", "narrower") if link.kind in BROADER else OPPOSITE.get(link.kind, link.kind)
    return kind, link.a
