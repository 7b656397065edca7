"""Which of a plan's changes of rows are those of each of its steps."""
from __future__ import annotations

from collections.abc import Callable
from typing import Any

from thesaurus_desk.store.changes import Change
from thesaurus_desk.store.schema import LABEL_NUMBER

Request = dict[str, Any]
Answer = dict[str, Any]
# Whether a change that comes next is one of the step, too.
Test = Callable[[Change], bool]
PREF, ALT = LABEL_NUMBER["pref"], LABEL_NUMBER["alt"]


def changes_of_step(request: Request, answer: Answer, rest: list[Change], kept: dict[str, Any]) -> list[Change]:
    """Takes the changes of a step from those of a plan that are left, and returns them.

    `rest` has the next one last. Of a concept that ends, `kept` has its labels and links."""
    if "again" in answer or answer.get("known") or request["do"] == "set":
        return []
    do, made = request["do"], answer.get("ok")
    if do in ("scheme", "concept", "collection", "outside"):
        return take(rest, 2)
    if do == "relabel":
        return of_relabel(request, rest)
    if do == "post":
        return take(rest, 1) + take_while(rest, lambda it: is_move(it) and it[3] == made)
    if do == "split":
        return take(rest, 2) + take_while(
            rest, lambda it: (is_move(it) or it[0] in ("place", "move")) and it[-1] == made
        )
    if do == "merge":
        return of_merge(request, rest, kept)
    if do == "deprecate":
        return take(rest, 1) + take_while(rest, lambda it: is_link(it, "delete", request["concept"]))
    return take(rest, 1)


def take(rest: list[Change], count: int) -> list[Change]:
    """Takes the next changes, as many as are wanted."""
    return [rest.pop() for _ in range(min(count, len(rest)))]


def take_while(rest: list[Change], test: Test) -> list[Change]:
    """Takes the next changes as long as they pass a test."""
    found: list[Change] = []
    while rest and test(rest[-1]):
        found.append(rest.pop())
    return found


def is_move(change: Change) -> bool:
    """Whether a change inserts a row of `move`."""
    return change[:2] == ["insert", "move"]


def is_link(change: Change, what: str, end: int) -> bool:
    """Whether a change inserts or deletes a link of a resource."""
    if change[0] != what or change[1] not in ("link", "hier"):
        return False
    return end in (change[3:5] if change[1] == "link" else change[2:4])


def of_relabel(request: Request, rest: list[Change]) -> list[Change]:
    owner, tag = request["owner"], request["tag"].lower()
    if not rest or rest[-1][:5] != ["delete", "label", owner, PREF, tag]:
        return []
    found = take(rest, 2)
    old = ["insert", "label", owner, ALT, tag, found[0][5]]
    return found + (take(rest, 1) if request["keep"] and rest and rest[-1] == old else [])


def of_merge(request: Request, rest: list[Change], kept: dict[str, Any]) -> list[Change]:
    source, target = request["source"], request["target"]
    texts = {(tag, text) for kind, tag, text in kept["labels"] if kind != "scope"}
    found = take(rest, 1)
    found += take_while(rest, lambda it: it[:3] == ["insert", "label", target] and tuple(it[4:]) in texts)
    gone = take_while(rest, lambda it: is_link(it, "delete", source))
    sent = {as_sent(it, source, target) for it in gone}
    found += gone + take_while(rest, lambda it: it[0] == "insert" and tuple(sorted(map(str, it[1:]))) in sent)
    found += take_while(rest, lambda it: it == ["move", source, target])
    return found + take_while(rest, lambda it: is_move(it) and it[4:] == [source, target])


def as_sent(change: Change, source: int, target: int) -> tuple[str, ...]:
    """Returns the row of a link with another end, without regard to which end is the first."""
    return tuple(sorted(map(str, ends_sent(change[1:], source, target))))


def ends_sent(row: Change, source: int, target: int) -> Change:
    """Returns the row of a link, as it is with the target in place of the source."""
    first = 2 if row[0] == "link" else 1
    return [target if first <= at < first + 2 and it == source else it for at, it in enumerate(row)]
