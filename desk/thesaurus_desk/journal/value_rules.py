"""Why the desk refuses a value that a plan sets: found before anything of the plan is sent."""
from __future__ import annotations

from collections.abc import Mapping, Sequence
from typing import Any

from thesaurus_desk.journal.values import Request, Value, Values, source_of, text_of
from thesaurus_desk.store.replica import Replica
from thesaurus_tools.fields import (
    HIDDEN,
    LONGEST_LINE,
    SUPERORDINATE,
    TERM_SOURCE,
    WITHIN,
    Field,
    has_form,
    is_value,
    names_resources,
)
from thesaurus_tools.kinds import BROADER

# A value by which values are compared: its tag and its text.
Key = tuple[str, str]
MAKING = ("scheme", "concept", "collection", "split")


class ValueRules:
    """Goes through a plan, with what its earlier requests have made, ended and set.

    The names of refusals, in the order in which they are looked for: UnknownField; UnknownResource; WrongKind (no field
    of such a resource); NotLive; NoSuchValue (the old value isn't there); Retired (the field gets no new values);
    BadValue; ValueThere; OnlyOne (the field has one value at most); ValueTaken (another one of the scheme has it);
    BadSuperordinate, BadWithin, BadOrder (a collection can't be there, or have that in it); NestedRing (a collection
    would be within itself); BelowCandidate (a concept is approved, and one above it isn't). `TermSources` has one more:
    UnknownTerm (the plan leaves a source of a term that the resource hasn't)."""

    def __init__(self, replica: Replica, values: Values) -> None:
        self.replica, self.values = replica, values
        self.fields = values.fields()
        # The kind and the scheme of what the plan has made, what it has ended, and values as it has left them.
        self.made: dict[int, tuple[str, int | None]] = {}
        self.ended: set[int] = set()
        self.held: dict[tuple[int, str], list[Value]] = {}
        # Which links to broader concepts it has made and removed: pairs of a concept and the one above it.
        self.above: dict[tuple[int, int], bool] = {}

    def refusal_of_plan(
        self, requests: Sequence[Request], answers: Sequence[Mapping[str, Any]]
    ) -> tuple[int, str] | None:
        """Returns the place, from 1, and the name of the first refusal. The requests name numbers, not references;
        `answers` are those that they get if none is refused."""
        for place, (it, answer) in enumerate(zip(requests, answers, strict=True), 1):
            if it["do"] == "set":
                if name := self.refusal(it):
                    return place, name
                self.note(it)
            elif it["do"] in MAKING:
                self.note_made(it, answer["ok"])
            elif it["do"] in ("link", "unlink") and it["kind"] in BROADER:
                self.above[it["a"], it["b"]] = it["do"] == "link"
            elif it["do"] in ("merge", "deprecate"):
                self.ended.add(it["source"] if it["do"] == "merge" else it["concept"])
        return None

    def note_made(self, request: Request, number: int) -> None:
        """Notes what a request makes."""
        if request["do"] == "scheme":
            self.made[number] = "scheme", number
        elif request["do"] == "split":
            self.made[number] = "concept", self.scheme(request["source"])
        else:
            self.made[number] = request["do"], request["scheme"]

    def kind(self, number: int) -> str | None:
        """Returns the kind of a resource; None if there is none."""
        return self.made[number][0] if number in self.made else self.replica.kind(number)

    def scheme(self, number: int) -> int | None:
        """Returns the scheme to which a resource belongs; a scheme belongs to itself."""
        if number in self.made:
            return self.made[number][1]
        it = self.replica.get(number)
        return None if it is None else number if it.kind == "scheme" else it.scheme

    def is_live(self, number: int) -> bool:
        """Whether a resource is in use."""
        return number not in self.ended and (number in self.made or self.replica.is_live(number))

    def values_of(self, owner: int, field: str) -> list[Value]:
        """Returns the values of a field of a resource, as the plan has left them."""
        if (owner, field) not in self.held:
            # (what the plan makes has the number of nothing that has values)
            self.held[owner, field] = [] if owner in self.made else self.values.held(owner, field)
        return self.held[owner, field]

    def refusal(self, it: Request) -> str | None:
        """Returns the name of what refuses a value, or None."""
        owner, field = it["owner"], self.fields.get(it["field"])
        kind = self.kind(owner)
        if field is None or kind is None:
            return "UnknownField" if field is None else "UnknownResource"
        if kind not in field.owners:
            return "WrongKind"
        if not self.is_live(owner):
            return "NotLive"
        held = self.values_of(owner, field.name)
        if it["old"] is None and it["new"] is None:
            return "NoSuchValue"
        if it["old"] is not None:
            old = it["tag"], text_of(it["old"]), source_of(it["old"])
            if old not in [(one.tag, one.text, one.source) for one in held]:
                return "NoSuchValue"
        refused = None if it["new"] is None else self.refusal_of_new(it, field, held)
        return refused or (self.refusal_of_approval(it) if field.name == "status" else None)

    def refusal_of_approval(self, it: Request) -> str | None:
        """Returns the name of what refuses that the public sees a candidate: one above it that it doesn't see."""
        if text_of(it["old"]) not in HIDDEN or text_of(it["new"]) in HIDDEN:
            return None
        return "BelowCandidate" if any(self.is_hidden(one) for one in self.broader(it["owner"])) else None

    def broader(self, number: int) -> set[int]:
        """Returns the broader concepts of a concept, as the plan has left them."""
        found = self.replica.get(number)
        now = {one for (low, one), is_there in self.above.items() if low == number and is_there}
        gone = {one for (low, one), is_there in self.above.items() if low == number and not is_there}
        return (set(found.broader) if found and number not in self.made else set()) - gone | now

    def is_hidden(self, number: int) -> bool:
        """Whether the public doesn't see a concept, as the plan has left it."""
        return any(it.text in HIDDEN for it in self.values_of(number, "status"))

    def refusal_of_new(self, it: Request, field: Field, held: Sequence[Value]) -> str | None:
        """Returns the name of what refuses a value that comes."""
        new = it["tag"], text_of(it["new"]) or ""
        others = [key for key in map(key_of, held) if key != (it["tag"], text_of(it["old"]))]
        if field.is_retired and it["old"] is None:
            return "Retired"
        is_list = isinstance(it["new"], list) and all(isinstance(one, int) for one in it["new"])
        source = source_of(it["new"])
        if is_list != names_resources(field) or not is_value(field, *new) or not is_source(field, source):
            return "BadValue"
        if new in others:
            return "ValueThere"
        if not field.is_many and others:
            return "OnlyOne"
        if field.is_unique and self.holder(it["owner"], field, new) is not None:
            return "ValueTaken"
        return self.refusal_of_place(it["owner"], field.name, it["new"]) if names_resources(field) else None

    def refusal_of_place(self, owner: int, field: str, numbers: Sequence[int]) -> str | None:
        """Returns the name of what refuses where a collection is, or what is in it."""
        if field == SUPERORDINATE:
            is_there = self.is_of_scheme(owner, numbers[0], "concept") and self.is_live(numbers[0])
            return None if is_there else "BadSuperordinate"
        if field == WITHIN:
            if not self.is_of_scheme(owner, numbers[0], "collection"):
                return "BadWithin"
            return "NestedRing" if self.is_within(numbers[0], owner) else None
        are_there = all(self.is_of_scheme(owner, it, "concept", "collection") for it in numbers)
        return None if are_there and len(set(numbers)) == len(numbers) else "BadOrder"

    def is_of_scheme(self, owner: int, number: int, *kinds: str) -> bool:
        """Whether a resource is of a kind, and of the scheme of another one."""
        return self.kind(number) in kinds and self.scheme(number) == self.scheme(owner)

    def is_within(self, inner: int, outer: int) -> bool:
        """Whether a collection is another one, or within it."""
        way = [inner]
        while way[-1] != outer and (held := self.values_of(way[-1], WITHIN)) and held[0].numbers[0] not in way:
            way.append(held[0].numbers[0])
        return outer in way

    def holder(self, owner: int, field: Field, value: Key) -> int | None:
        """Returns another resource in use, of the same scheme, that has a value."""
        changed = {one for one, name in self.held if name == field.name}
        found = set(self.values.holders(field.name, *value)) - changed - {owner}
        found |= {
            one for one in changed - {owner} if value in [(it.tag, it.text) for it in self.values_of(one, field.name)]
        }
        scheme = self.scheme(owner)
        return min((it for it in found if self.is_live(it) and self.scheme(it) == scheme), default=None)

    def note(self, it: Request) -> None:
        """Notes a value that was set."""
        held, old = self.values_of(it["owner"], it["field"]), text_of(it["old"])
        place = next((at for at, one in enumerate(held) if key_of(one) == (it["tag"], old)), len(held))
        new = [] if it["new"] is None else [value_of(it)]
        held[place : place + 1] = new


def key_of(value: Value) -> Key:
    """Returns what a value is compared by."""
    return value.tag, value.text


def value_of(request: Request) -> Value:
    """Returns the value that a request sets."""
    text, source = text_of(request["new"]) or "", source_of(request["new"])
    return Value(0, request["owner"], request["field"], request["tag"], text, source, 0)


def is_source(field: Field, source: str) -> bool:
    """Whether a field takes a source."""
    if not source:
        return field.name != TERM_SOURCE
    return field.has_source and len(source) <= LONGEST_LINE and has_form(SOURCE, source)


SOURCE = Field("source of a note", "line")
