"""Ticks in a long list: in pages, with a filter, kept from page to page by the form itself."""
from __future__ import annotations

import re
from collections.abc import Callable, Iterable, Sequence
from dataclasses import dataclass

from flask import request
from markupsafe import Markup

from thesaurus_desk.store.model import Posting
from thesaurus_desk.store.text_keys import fold
from thesaurus_desk.web.concept_choice import is_number
from thesaurus_desk.web.context import record_name, record_title, tags, term, the_replica
from thesaurus_desk.web.posting_keys import posting_name

PAGE = 100
# The buttons of a form that show another part of the list and perform nothing.
LOOKING = ("go", "tick", "look")


@dataclass(frozen=True)
class TickRow:
    """What can be ticked: its number, its name, and what tells it from others."""

    number: int
    text: str
    note: str | Markup = ""


@dataclass(frozen=True)
class TickSource:
    """Where the rows of a list come from: the name of its boxes, all numbers in their order, the highest number that
    there is, those of some numbers that have a folded text, and the rows of some numbers."""

    name: str
    numbers: Sequence[int]
    most: int
    filtered: Callable[[Sequence[int], str], list[int]]
    rows: Callable[[Sequence[int]], list[TickRow]]


@dataclass(frozen=True)
class TickList:
    """A page of a list, with those that are ticked on it and elsewhere."""

    name: str
    rows: list[TickRow]
    ticked: frozenset[int]
    page: int
    # The text by which the list is filtered, the number of those that have it, and that of all.
    filter: str
    matching: int
    total: int
    # Those that are ticked on other pages, and those on this page, as ranges: what the form carries.
    kept: str
    shown: str
    # Whether the form asked for no more than another part of the list: then the list has the focus.
    is_looked_at: bool

    @property
    def elsewhere(self) -> int:
        """The number of those that are ticked on other pages."""
        return len(self.ticked - {it.number for it in self.rows})


def is_looking() -> bool:
    """Whether the form asks for another part of its list: by a button, or because its filter was changed."""
    form = request.form
    return any(it in form for it in LOOKING) or form.get("filter", "") != form.get("filtered", "")


def tick_list(source: TickSource) -> TickList:
    """Returns a list as the form has it, after what its buttons ask for."""
    form, numbers = request.form, source.numbers
    kept, shown = (numbers_of(form.get(it, ""), source.most) for it in ("kept", "shown"))
    ticked = (ticked_numbers(source.name) | kept - shown) & set(numbers)
    text = form.get("filter", "").strip()
    matching = source.filtered(numbers, fold(text)) if fold(text) else numbers
    is_new_filter = text != form.get("filtered", "").strip()
    page = 0 if is_new_filter else page_of(form.get("go", form.get("page", "0")), len(matching))
    on_page = matching[page * PAGE : (page + 1) * PAGE]
    wanted = form.get("tick", "")
    ticked = set() if wanted == "none" else ticked | set({"page": on_page, "all": matching}.get(wanted, ()))
    return TickList(
        source.name,
        source.rows(on_page),
        frozenset(ticked),
        page,
        text,
        len(matching),
        len(numbers),
        ranges_of(ticked - set(on_page)),
        ranges_of(on_page),
        request.method == "POST" and is_looking(),
    )


# --- postings ---


def ticks_of(concept: int) -> TickList:
    """Returns the list of a concept's postings."""
    postings = the_replica().postings

    def rows(numbers: Sequence[int]) -> list[TickRow]:
        return [TickRow(it.number, record_name(it.record), posting_name(it)) for it in postings.several(list(numbers))]

    numbers = postings.numbers_at(concept)
    return tick_list(TickSource("posting", numbers, postings.totals()["accepted"], filtered_postings, rows))


def filtered_postings(numbers: Sequence[int], folded: str) -> list[int]:
    """Returns the postings that have a folded text in their keys, or in the names or titles of their records."""
    found = the_replica().postings.several(list(numbers))
    return [it.number for it in found if any(folded in fold(one) for one in texts_of(it))]


def texts_of(it: Posting) -> tuple[str, ...]:
    """Returns the texts by which a posting is found in a list."""
    return it.record, it.key, record_title(it.record)


# --- concepts ---


def ticks_of_concepts(numbers: Sequence[int]) -> TickList:
    """Returns a list of concepts."""
    return tick_list(TickSource("concept", numbers, most_number(), filtered_concepts, concept_rows))


def most_number() -> int:
    """Returns the highest number that a concept may have."""
    return the_replica().counts()["resources"]


def filtered_concepts(numbers: Sequence[int], folded: str) -> list[int]:
    """Returns the concepts that have a folded text in a term."""
    query = "SELECT DISTINCT owner FROM label WHERE kind < 4 AND instr(fold, ?)"
    having = {owner for owner, in the_replica().all(query, folded)}
    return [it for it in numbers if it in having]


def concept_rows(numbers: Sequence[int]) -> list[TickRow]:
    """Returns the rows of concepts, each with the terms of those above it."""
    replica = the_replica()
    replica.look_at(numbers)
    above = replica.above(numbers)
    return [TickRow(it, term(it), ", ".join(map(term, replica.ordered(above[it], tags())))) for it in numbers]


# --- numbers in forms ---


def ticked_numbers(name: str) -> set[int]:
    """Returns the numbers of the boxes that are ticked on the page."""
    return {int(it) for it in request.form.getlist(name) if is_number(it)}


def page_of(text: str, count: int, size: int = PAGE) -> int:
    """Returns the page that a form asks for, if there is such a one, or else the last."""
    wanted = int(text) if re.fullmatch("[0-9]{1,7}", text) else 0
    return max(0, min(wanted, (count - 1) // size))


def ranges_of(numbers: Iterable[int]) -> str:
    """Returns numbers as ranges, as in `1-4,7`."""
    found: list[list[int]] = []
    for number in sorted(numbers):
        if found and found[-1][1] == number - 1:
            found[-1][1] = number
        else:
            found.append([number, number])
    return ",".join(f"{low}-{high}" if low < high else str(low) for low, high in found)


def numbers_of(ranges: str, most: int) -> set[int]:
    """Returns the numbers of ranges; what is malformed, or beyond the highest one that there is, isn't among them."""
    numbers = set[int]()
    for part in ranges.split(","):
        found = re.fullmatch(r"([0-9]{1,10})(?:-([0-9]{1,10}))?", part.strip())
        if found:
            numbers.update(range(int(found[1]), min(int(found[2] or found[1]), most) + 1))
    return numbers
