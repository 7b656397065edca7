"""The names of fields, and their values, in the reader's words."""
from __future__ import annotations

from markupsafe import Markup

from thesaurus_desk.words import Words
from thesaurus_tools.fields import Field

# How many characters of a value a sentence has.
MOST_QUOTED = 80


def field_name(field: Field, words: Words) -> str:
    """Returns the name of a field in the reader's language; of one that the office has made in any that it has."""
    if field.names:
        return field.names.get(words.language) or next(iter(field.names.values()))
    key = f"fields.name.{field.name}"
    return words(key) if words.has(key) else field.name


def value_words(text: str) -> Markup:
    """Returns the beginning of a value on one line, as a sentence names it."""
    line = " ".join(text.split())
    shown = line if len(line) <= MOST_QUOTED else f"{line[:MOST_QUOTED]} …"
    return Markup('<span dir="auto">{}</span>').format(shown)
