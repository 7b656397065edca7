"""Which fields and values of a resource its page shows."""
from __future__ import annotations

from collections.abc import Iterator, Mapping

from thesaurus_desk.journal.edit_conflicts import OF_FIELD
from thesaurus_desk.journal.values import Value
from thesaurus_desk.store.model import View
from thesaurus_desk.store.text_keys import has_language
from thesaurus_desk.web.context import person, the_desk, the_fields
from thesaurus_tools.fields import DATES, TERM_SOURCE, Field, text_fields


def shown_fields(view: View) -> list[Field]:
    """Returns the fields of a resource that the reader sees."""
    found = text_fields(the_fields()).values()
    return [it for it in found if view.kind in it.owners and (it.is_public or person().name)]


def shown_values(view: View, held: Mapping[str, list[Value]]) -> dict[str, list[Value]]:
    """Returns those of a resource's values that the reader sees, by field."""
    names = {it.name for it in shown_fields(view)}
    return {name: its for name, its in held.items() if name in names}


def term_sources(held: Mapping[str, list[Value]]) -> dict[tuple[str, str], str]:
    """Returns the sources of a resource's terms that the reader sees, by language and text, of all its values."""
    if not (the_fields()[TERM_SOURCE].is_public or person().name):
        return {}
    return {(it.tag, it.text): it.source for it in held.get(TERM_SOURCE, ())}


def public_values(number: int, lang: str) -> Iterator[tuple[Field, Value]]:
    """Yields the values of a resource that everybody sees, in a language or in none, in the order of the fields."""
    held = the_desk().values.of(number)
    for field in text_fields(the_fields()).values() if held else ():
        if field.is_public and field.name not in DATES:
            for it in held.get(field.name, ()):
                if field.tag != "language" or has_language(it.tag, lang):
                    yield field, it


def mark_of(number: int, field: str) -> str:
    """Returns what a form of a field carries of what its author saw."""
    return the_desk().seen.mark(number, OF_FIELD + field)


def choices_of(field: Field) -> list[tuple[str, str]]:
    """Returns the choices of a field as pairs of a value and its words."""
    return [(it, it) for it in field.choices]
