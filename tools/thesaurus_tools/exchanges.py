"""Preferred terms that rows of a table exchange, as A to B and B to A. Rules hold after each request, so the rows are
done together: in an order in which each term is free, or by way of a third one."""
from __future__ import annotations

from collections.abc import Iterable, Sequence
from typing import NamedTuple

from thesaurus_tools.drafts import Draft, Reference

# A preferred term that one live concept has: the scheme, the language and the text.
Term = tuple[int | None, str, str]
# More rows aren't done together: they wouldn't be one plan.
MOST_ROWS = 40


class Rename(NamedTuple):
    """A preferred term that the row at a place of the table changes."""

    place: int
    concept: Reference
    old: Term
    new: Term


def groups_of(renames: Iterable[Rename]) -> list[list[Rename]]:
    """Returns the renames of rows that are done together, since one of them needs a term that a later one has."""
    holders: dict[Term, Rename] = {}
    for it in renames:
        holders.setdefault(it.old, it)
    rows = {it.place: {it.place} for it in holders.values()}
    waiting = set()
    for it in holders.values():
        holder = holders.get(it.new)
        if holder and holder.place != it.place:
            waiting |= {it.place} if it.place < holder.place else set()
            joined = rows[it.place] | rows[holder.place]
            rows.update(dict.fromkeys(joined, joined))
    firsts = sorted({min(its) for its in rows.values() if its & waiting and len(its) <= MOST_ROWS})
    return [[it for it in holders.values() if it.place in rows[first]] for first in firsts]


def ordered_renames(draft: Draft, renames: Sequence[Rename], keep: bool) -> list[dict]:
    """Returns requests that do all renames, each of which takes a term that is free then."""
    requests: list[dict] = []
    left = {it.old: it for it in renames}
    while left:
        chain = {(first := next(iter(left.values()))).old: first}
        last = first
        while (holder := left.get(last.new)) and holder.old not in chain:
            chain[holder.old] = last = holder
        if holder:
            requests.append(relabel(holder, third_term(draft, holder.concept), keep))
        for it in reversed(chain.values()):
            requests += other_labels(draft, it)
            requests.append(relabel(it, it.new[2], keep and it is not holder))
            del left[it.old]
    return requests


def relabel(it: Rename, text: str, keep: bool) -> dict:
    """Returns a request that gives a concept a term."""
    return {"do": "relabel", "owner": it.concept, "tag": it.old[1], "text": text, "keep": keep}


def third_term(draft: Draft, concept: Reference) -> str:
    """Returns a text that nothing has as a label."""
    text = f"[{concept}]"
    while draft.by_text.get(text):
        text = f"[{text}]"
    return text


def other_labels(draft: Draft, it: Rename) -> list[dict]:
    """Returns requests that drop a concept's new term where it is a label of another kind."""
    _, tag, text = it.new
    kinds = [kind for kind in ("alt", "hidden") if (kind, tag, text) in draft.labels_of(it.concept)]
    return [{"do": "dropLabel", "owner": it.concept, "kind": kind, "tag": tag, "text": text} for kind in kinds]
