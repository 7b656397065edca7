"""Explains why the desk refuses a value of a field."""
from __future__ import annotations

from collections.abc import Callable

from markupsafe import Markup

from thesaurus_desk.journal.values import text_of
from thesaurus_desk.web.refusals.case import Case
from thesaurus_desk.words.field_words import value_words


def explain_value(case: Case) -> Markup:
    """Says what is so with the field, the value and the resource."""
    asked = case.request
    text = text_of(asked.get("new")) or text_of(asked.get("old")) or ""
    field = case.links.field(str(asked.get("field")))
    return case.say("text", owner=case.link(asked.get("owner")), field=field, value=value_words(text))


def explain_place(case: Case) -> Markup:
    """Says what is so with the collection, and with what was named."""
    named = case.request.get("new") or [None]
    return case.say("text", owner=case.link(case.request.get("owner")), other=case.link(named[0]))


def explain_candidate(case: Case) -> Markup:
    """Says which candidate is above a concept that is to be approved."""
    owner = case.request.get("owner")
    above = case.links.candidate_above(owner) if isinstance(owner, int) else None
    return case.say("text", owner=case.link(owner), above=case.link("$1" if above is None else above))


PLACE_NAMES = ("BadSuperordinate", "BadWithin", "BadOrder", "NestedRing")
OF_VALUES = ("UnknownField", "NoSuchValue", "Retired", "BadValue", "ValueThere", "OnlyOne", "ValueTaken", "UnknownTerm")
NAMES = (*OF_VALUES, "BelowCandidate")
EXPLAIN: dict[str, Callable[[Case], Markup]] = {
    **dict.fromkeys(OF_VALUES, explain_value),
    **dict.fromkeys(PLACE_NAMES, explain_place),
    "BelowCandidate": explain_candidate,
}
