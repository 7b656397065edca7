"""What a form carries of what its author saw, and what has changed since."""
from __future__ import annotations

import hashlib
import json
import logging
import re
import sqlite3
from collections.abc import Iterable
from dataclasses import dataclass
from typing import TYPE_CHECKING, Any

from thesaurus_desk.journal.entries import LAST_PLAN
from thesaurus_desk.journal.past_replica import JournalSnapshot, before_plans
from thesaurus_desk.journal.values import Values, source_of, text_of
from thesaurus_desk.store.replica import Replica
from thesaurus_tools.kinds import LABEL_KINDS

if TYPE_CHECKING:
    from thesaurus_desk.journal import Journal, Plan, Request, Step

# The parts of a resource: a change of one doesn't disturb who edits another.
PARTS: dict[str, tuple[str, ...]] = {
    "labels": ("is_live", "pref", "alt", "hidden"),
    "notes": ("is_live", "scope"),
    "links": ("is_live", "broader", "narrower", "related", "typed", "untyped", "mappings", "collections", "members"),
    "state": ("is_live", "replaced"),
    "postings": ("is_live", "postings"),
}
# What the part of a field's values begins with: who edits another field isn't disturbed.
OF_FIELD = "field-"
PARTS["all"] = tuple(dict.fromkeys(name for names in PARTS.values() for name in names))
# The parts of which forms carry marks; those of tables also look at each concept that is linked.
OF_FORMS = tuple(PARTS)
# What a table may have of a resource, without and with what is below it; records aren't among it, so that a table isn't
# old with each new one.
PARTS["table"] = ("is_live", *LABEL_KINDS, "above", "related", "mappings", "collections", "members")
PARTS["tables"] = (*PARTS["table"], "below")
OF_TABLES = ("table", "tables")
# The requests that change each part, beside those of labels and those that end a concept.
REQUESTS = {"labels": ("relabel",), "links": ("link", "unlink"), "postings": ("post", "withdraw", "import", "split")}
# What a form carries: the number, the part, the digest and the last plan.
MARK = re.compile(r"([0-9]{1,10})\.([^.]+)\.([^.]*)\.([0-9]{1,18})", re.ASCII)
log = logging.getLogger("desk")


@dataclass(frozen=True, slots=True)
class Change:
    """One difference between what was seen and what is: `sign` is "+", "-" or "=" (what a single value is now)."""

    sign: str
    # The name of a field of View, or of the part of a field's values.
    name: str
    value: Any


@dataclass(frozen=True, slots=True)
class Conflict:
    """A part of a resource that isn't as its editor saw it."""

    number: int
    part: str
    # What has changed, as far as what was seen is still known, and the plans that changed it: who and when.
    changes: list[Change]
    plans: list[Plan]
    # What a form that is sent again carries.
    seen: str


# A value of a field: its tag, its text and its source.
Valued = tuple[str, str, str]
# What a part of a resource holds, by fields of View; the values of a field by its part's name.
Content = dict[str, Any]


def digest(content: Content) -> str:
    """Returns a short digest of a part of a resource."""
    text = json.dumps(content, ensure_ascii=False, separators=(",", ":"))
    return hashlib.blake2b(text.encode(), digest_size=9).hexdigest()


def content_of(replica: Replica, values: Values, number: int, part: str) -> Content | None:
    """Returns what a part of a resource holds; None if there is no such resource."""
    view = replica.view(number)
    if view is None:
        return None
    if part.startswith(OF_FIELD):
        held = values.held(number, part.removeprefix(OF_FIELD))
        return {"is_live": view.is_live, part: tuple((it.tag, it.text, it.source) for it in held)}
    content: Content = {name: getattr(view, name) for name in PARTS[part]}
    if part in OF_TABLES:
        held = [it for its in values.of(number).values() for it in its]
        content["values"] = tuple((it.field, it.tag, it.text, it.source) for it in held)
        content["names"] = names_in(replica, content)
    return content


def names_in(replica: Replica, content: Content) -> tuple[Any, ...]:
    """Returns the preferred terms by which the cells of a table may name the other ends of links."""
    pairs = [it for name in ("above", "below", "mappings") for it in content.get(name, ())]
    ends = [*(number for _, number in pairs), *(it for name in ("related", "collections") for it in content[name])]
    views = map(replica.view, [*ends, *content["members"]])
    return tuple(it.pref for it in views if it is not None)


def mark_of_row(replica: Replica, values: Values, number: int, *, has_below: bool, plan: int) -> str:
    """Returns what the row of a table carries of what a resource was, after the plan that was the journal's last."""
    part = "tables" if has_below else "table"
    content = content_of(replica, values, number, part)
    return f"{number}.{part}.{digest(content) if content else ''}.{plan}"


def is_as_seen(replica: Replica, values: Values, mark: str) -> bool:
    """Whether a resource is as the row of a table has it."""
    number, part, was, _ = read_mark(mark)
    content = content_of(replica, values, number, part)
    return content is not None and digest(content) == was


def content_now(replica: Replica, number: int, part: str) -> Content | None:
    """Returns what a part of a resource holds at the moment of a replica, its values among it."""
    snapshot: Any = JournalSnapshot(replica)
    return content_of(replica, Values(snapshot), number, part)


@dataclass
class FormMarks:
    """Gives forms what they carry, and finds out whether it still holds."""

    replica: Replica
    journal: Journal

    def mark(self, number: int, part: str = "all") -> str:
        """Returns what a form that edits a part of a resource carries, as `12.labels.9f3c….77`.

        The last number is that of the journal's last plan."""
        return self.marks(number, (part,))[part]

    def marks(self, number: int, parts: Iterable[str]) -> dict[str, str]:
        """Returns what forms that edit parts of a resource carry, by part."""
        with self.replica.reading():
            plan = self.replica.value(LAST_PLAN)
            contents = {part: content_now(self.replica, number, part) for part in parts}
        return {part: f"{number}.{part}.{digest(it) if it else ''}.{plan}" for part, it in contents.items()}

    def conflict(self, mark: str) -> Conflict | None:
        """Returns what has changed since a form was made, or None. A mark that no form has made is a conflict, too."""
        number, part, was, plan = read_mark(mark)
        content = content_now(self.replica, number, part)
        if content is not None and digest(content) == was:
            return None
        old = self.content_after(number, part, plan) if was and content else None
        changes = differences(old, content) if old and content else []
        return Conflict(number, part, changes, self.since(number, part, plan), self.mark(number, part))

    def content_after(self, number: int, part: str, plan: int) -> Content | None:
        """Returns what a part of a resource held after a plan, as far as the journal knows what was changed since."""
        try:
            with before_plans(self.replica, self.journal, self.journal.since(number, plan), number) as past:
                return content_now(past, number, part) if past else None
        except (sqlite3.Error, TypeError) as error:
            log.warning("it isn't known what %s held after plan %s: %s", number, plan, error)
            return None

    def since(self, number: int, part: str, plan: int) -> list[Plan]:
        """Returns the plans after one that changed a part of a resource; what others changed by other means is among
        them."""
        plans = self.journal.since(number, plan)
        return [it for it in plans if not it.steps or any(is_change(step, number, part) for step in it.steps)]

    def since_of(self, requests: Iterable[Request], plan: int) -> list[Plan]:
        """Returns the plans after one that changed what requests are about to change, in their order."""
        parts = {it for request in requests for it in parts_of(request)}
        found = {it.id: it for number, part in parts for it in self.since(number, part, plan)}
        return [found[it] for it in sorted(found)]


def parts_of(request: Request) -> set[tuple[int, str]]:
    """Returns what a request changes of resources that are there: numbers and parts. Indexing changes none of them."""
    do = request["do"]
    if do in ("addLabel", "dropLabel", "relabel"):
        found = {(request["owner"], "notes" if request.get("kind") == "scope" else "labels")}
    elif do in ("link", "unlink"):
        ends = {request["a"], request["b"]}
        # (a place below a concept for a new one changes nothing that was there)
        found = {(it, "links") for it in ends} if all(isinstance(it, int) for it in ends) else set()
    elif do == "set":
        found = {(request["owner"], OF_FIELD + request["field"])}
    else:
        found = {(request.get(it), "all") for it in ("source", "target") if do == "merge"}
        found |= {(request.get("concept"), "all")} if do == "deprecate" else set()
    return {(number, part) for number, part in found if isinstance(number, int)}


def read_mark(mark: str) -> tuple[int, str, str, int]:
    """Returns the parts of a mark; of one that is malformed, such as match nothing."""
    found = MARK.fullmatch(mark)
    if found is None or not (found[2] in PARTS or found[2].startswith(OF_FIELD)):
        return 0, "all", "", 0
    return int(found[1]), found[2], found[3], int(found[4])


def is_change(step: Step, number: int, part: str) -> bool:
    """Whether a step that was performed is one that changes a part of a resource."""
    request, do = step.request, step.request["do"]
    if part == "all" or number not in step.numbers:
        return part == "all"
    if do in ("merge", "deprecate"):
        # (both ends of a link that goes with a concept have other links)
        return part == "links" or number in (request.get(it) for it in ("source", "target", "concept"))
    if do == "set":
        return part == OF_FIELD + request["field"]
    if do in ("addLabel", "dropLabel"):
        return part == ("notes" if request["kind"] == "scope" else "labels")
    return do in REQUESTS.get(part, ())


def value_now(conflict: Conflict, value: Valued) -> Valued | None:
    """Returns what a value of a field is that others have changed since; None, if they have removed it."""
    found: Valued | None = value
    for plan in conflict.plans:
        requests = [it.request for it in plan.steps if it.state == "done" and it.request["do"] == "set"]
        its = [it for it in requests if (it["owner"], OF_FIELD + it["field"]) == (conflict.number, conflict.part)]
        # (a value with another language is removed, and added)
        added = next((value_content(it, "new") for it in its if it["old"] is None), None)
        for it in its:
            if found is not None and value_content(it, "old") == found:
                found = value_content(it, "new") or added
    return found


def value_content(request: Request, name: str) -> Valued | None:
    """Returns the value that a request sets, or that it sets another one for; None where there is none."""
    text = text_of(request[name])
    return None if text is None else (request["tag"], text, source_of(request[name]))


def differences(old: Content, new: Content) -> list[Change]:
    """Returns in what a part differs between two moments."""
    found = []
    for name, after in new.items():
        before = old[name]
        if isinstance(after, tuple):
            found += [Change("-", name, it) for it in before if it not in after]
            found += [Change("+", name, it) for it in after if it not in before]
        elif before != after:
            found.append(Change("=", name, after))
    return found
