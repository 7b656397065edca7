"""What steps of an earlier desk say of what they have changed, in place of the changes of rows: what is so after their
plan and wasn't before, and what they have destroyed."""
from __future__ import annotations

from collections.abc import Iterator, Sequence
from typing import Any

from thesaurus_desk.journal.entries import Step
from thesaurus_desk.store.changes import Change
from thesaurus_desk.store.model import Link
from thesaurus_desk.store.replica import Replica
from thesaurus_desk.store.schema import COLUMNS, LABEL_NUMBER, LINK_NUMBER, TYPE_NUMBER

# The requests that make resources, and those that end concepts.
MAKING = ("scheme", "concept", "collection", "split", "outside")
ENDING = ("merge", "deprecate")


def are_determined(steps: Sequence[Step]) -> bool:
    """Whether the steps of a plan that aren't about records or values say what was before them.

    A link that the plan makes or removes, and of which an end dies in it, has no fact; and of two merges the later one
    doesn't know what the earlier one has moved."""
    ends = [it.request["do"] for it in steps if it.request["do"] in ENDING]
    if any(it.facts is None or it.request["do"] in ENDING and it.kept is None for it in steps):
        return False
    if ends and any(it.request["do"] in ("link", "unlink") and not it.facts for it in steps):
        return False
    return len(ends) < 2 or "merge" not in ends


def changes_of_step(replica: Replica, step: Step) -> list[Change]:
    """Returns the changes of rows that are known of a step, as the replica is after it: those that its facts tell,
    which hold after the whole plan, and those of what it makes or ends. A row that is inserted may be none that the
    store has."""
    changes = [it for fact in step.facts or () if (it := change_of_fact(fact))]
    do, answer = step.request["do"], step.answer or {}
    if do in MAKING and not answer.get("known"):
        changes += rows_of_resource(replica, answer["ok"])
    elif do == "deprecate":
        changes += [
            ["retire", step.request["concept"]],
            *(row_of_link("delete", it) for it in (step.kept or {})["links"]),
        ]
    elif do == "merge":
        changes += changes_of_merge(replica, step)
    return changes


def change_of_fact(fact: list[Any]) -> Change | None:
    """Returns the change that makes a fact of a label or a link so."""
    name, *about, value = fact
    what = "insert" if value else "delete"
    if name == "label":
        owner, kind, tag, text = about
        return [what, "label", owner, LABEL_NUMBER[kind], tag, text]
    return row_of_link(what, about) if name == "link" else None


def row_of_link(what: str, link: Sequence[Any]) -> Change:
    """Returns the change of a link's row."""
    kind, a, b = link
    return [what, "hier", a, b, TYPE_NUMBER[kind]] if kind in TYPE_NUMBER else [what, "link", LINK_NUMBER[kind], a, b]


def rows_of_resource(replica: Replica, number: int) -> Iterator[Change]:
    """Yields the changes that make a resource."""
    for table in ("resource", "outside"):
        for row in replica.all(f"SELECT {', '.join(COLUMNS[table])} FROM {table} WHERE num = ?", number):
            yield ["insert", table, *row]


def changes_of_merge(replica: Replica, step: Step) -> Iterator[Change]:
    """Yields the changes of a merge: labels that were copied, and links that went to the target."""
    source, target, kept = step.request["source"], step.request["target"], step.kept or {}
    yield ["replace", source, target]
    for kind, tag, text in kept["copied"]:
        yield ["insert", "label", target, LABEL_NUMBER[kind], tag, text]
    had = {tuple(it) for it in kept["target"]["links"]}
    for kind, *ends in kept["links"]:
        yield row_of_link("delete", (kind, *ends))
        link = replica.normal(Link(kind, *(target if it == source else it for it in ends)))
        if link.a != link.b and tuple(link) not in had:
            yield row_of_link("insert", link)
