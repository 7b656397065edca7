"""What becomes of the values of a concept that is merged or split: which are copied, and which move."""
from __future__ import annotations

from collections.abc import Sequence
from dataclasses import dataclass, replace

from thesaurus_desk.journal.entries import Request
from thesaurus_desk.journal.values import Value, set_request
from thesaurus_desk.web.context import the_desk, the_fields
from thesaurus_tools.fields import text_fields

# What may be ticked: a value that is copied, that comes beside another of its language, or that moves.
TAKEN = ("copied", "beside", "moves")


@dataclass(frozen=True)
class Copy:
    """A value of the source, and what becomes of it at the target.

    copied; beside (the target has another in that language); moves (no two concepts in use have one value); there (the
    target has it); full (the target has one, and takes one only)."""

    value: Value
    outcome: str

    @property
    def is_taken(self) -> bool:
        """Whether the target may get it."""
        return self.outcome in TAKEN


def copies_to(source: int, target: int) -> list[Copy]:
    """Returns the values of a concept, with what becomes of each when it is merged into another one."""
    there = the_desk().values.of(target)
    return [Copy(it, outcome_at(it, there.get(it.field, []))) for it in values_of(source)]


def copies_to_new(source: int) -> list[Copy]:
    """Returns the values of a concept that may be copied to the one that is split off."""
    fields = the_fields()
    return [Copy(it, "copied") for it in values_of(source) if not fields[it.field].is_unique]


def values_of(number: int) -> list[Value]:
    """Returns the values of a concept that can be given to another one."""
    fields = the_fields()
    found = (it for held in the_desk().values.of(number).values() for it in held)
    # (the sources of terms go with their terms)
    shared = [name for name, it in text_fields(fields).items() if not it.is_retired]
    return [it for it in found if it.field in shared]


def outcome_at(value: Value, held: Sequence[Value]) -> str:
    """Returns what becomes of a value at a concept that has some values of its field."""
    field = the_fields()[value.field]
    if (value.tag, value.text) in [(it.tag, it.text) for it in held]:
        return "there"
    if not field.is_many and held:
        return "full"
    if field.is_unique:
        return "moves"
    return "beside" if field.tag and any(it.tag == value.tag for it in held) else "copied"


def copies_from_ended(source: int, target: int) -> list[Copy]:
    """Returns the values of a concept that has ended, with what becomes of each at the one that replaces it: nothing
    is removed from what has ended."""
    found = copies_to(source, target)
    return [replace(it, outcome="copied") if it.is_taken else it for it in found]


def copy_requests(copies: Sequence[Copy], target: int | str, ticked: Sequence[str]) -> list[Request]:
    """Returns the requests for the values that are ticked, by their ids: each is set at the target, and one that moves
    is first removed from the source."""
    requests: list[Request] = []
    for it in copies:
        if str(it.value.id) in ticked and it.is_taken:
            value = it.value
            if it.outcome == "moves":
                requests.append(set_request(value.owner, value.field, value.tag, old=value.member))
            requests.append(set_request(target, value.field, value.tag, new=value.member))
    return requests
