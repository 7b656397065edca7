"""What pages show of the status of a concept, and of what is to be done with it."""
from __future__ import annotations

from dataclasses import dataclass
from datetime import UTC, datetime
from typing import Any

from thesaurus_desk.store.model import View
from thesaurus_desk.web.context import person, say, tags, the_desk, the_entry, the_replica, the_rights
from thesaurus_desk.web.field_views import mark_of
from thesaurus_tools.fields import HIDDEN, OF_WORK, STATUSES

FORM = "work"
APPROVED = "approved"


@dataclass(frozen=True)
class Work:
    """The status of a concept, and what is to be done with it; what isn't said is empty."""

    status: str = ""
    person: str = ""
    due: str = ""
    task: str = ""

    @property
    def is_hidden(self) -> bool:
        """Whether the public doesn't see the concept."""
        return self.status in HIDDEN

    @property
    def is_overdue(self) -> bool:
        """Whether the day has passed."""
        return bool(self.due) and self.due < today()[: len(self.due)]


def today() -> str:
    """Returns this day, as a value has it."""
    return datetime.now(UTC).date().isoformat()


def work_of(number: int) -> Work:
    """Returns the status of a concept, and what is to be done with it."""
    held = the_desk().values.of(number)
    return Work(**{name: held[name][0].text for name in OF_WORK if name in held})


def work_of_view(view: View) -> Work | None:
    """Returns what the page of a concept shows of it; nothing to a visitor."""
    return work_of(view.number) if view.kind == "concept" and person().name else None


def work_form(number: int) -> dict[str, Any]:
    """Returns what the form has by which it is changed."""
    work = work_of(number)
    return {
        "marks": [mark_of(number, it) for it in OF_WORK],
        "statuses": [(it, say(f"status.{it}")) for it in choices_for(work)],
        "persons": [("", say("status.nobody")), *((it, it) for it in sorted({*names(), *filter(None, [work.person])}))],
    }


def choices_for(work: Work) -> list[str]:
    """Returns the statuses that the reader may give a concept: who doesn't approve leaves it to others whether the
    public sees it."""
    approves = person().role >= the_rights().approver
    return [it for it in (APPROVED, *STATUSES) if approves or (it in HIDDEN) == work.is_hidden]


def names() -> list[str]:
    """Returns the names of those who may be in charge of something."""
    accounts = the_entry().accounts
    return [it.name for it in accounts.all()] if accounts else [person().name]


# --- lists ---

LISTS = ("mine", "due", "candidates", "revise")
# Of each list which values its concepts have; the value that is asked for is the reader's name, or this day.
OF_LISTS = {
    "mine": "field = 'person' AND text = ?",
    "due": "field = 'due' AND text <= ?",
    "candidates": f"field = 'status' AND text IN ({', '.join(map(repr, HIDDEN))}) AND ? <> ''",
    "revise": "field = 'status' AND text = 'revise' AND ? <> ''",
}


def found_in(which: str) -> dict[int, str]:
    """Returns the concepts in use of a list, with the values that bring them there."""
    query = "SELECT owner, text FROM value CROSS JOIN resource ON num = owner AND live = 1"
    asked = person().name if which == "mine" else today()
    return {owner: text for owner, text in the_replica().all(f"{query} WHERE {OF_LISTS[which]}", asked)}


def concepts_of_list(which: str) -> list[int]:
    """Returns the concepts of a list in their order: those that are due by their days, all others by their terms."""
    found = found_in(which)
    numbers = the_replica().ordered(found, tags())
    return sorted(numbers, key=lambda it: found[it]) if which == "due" else numbers


def list_counts() -> dict[str, int]:
    """Returns how many concepts are in each list."""
    return {it: len(found_in(it)) for it in LISTS}
