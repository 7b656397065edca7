"""The words of the pages in three languages.

  catalogues   the files of words, `en.po`, `de.po` and `fr.po`
  languages    the languages of terms: which one a reader sees first, and what each is called
  field_words  the names of fields, and their values, in the reader's words
"""
from __future__ import annotations

from babel import Locale
from babel.numbers import format_decimal
from markupsafe import Markup, escape

from thesaurus_desk.words.catalogues import Text, texts_of

__all__ = ["LANGUAGES", "Text", "Words", "best_language", "texts_of"]

LANGUAGES = {"en": "English", "de": "Deutsch", "fr": "Français"}
# The placeholders that hold counts: their digits are grouped, and `n` chooses between singular and plural.
COUNTS = ("n", "of", "more", "rows", "columns", "cells")


class Words:
    """The words of one language. A call returns the text of a key with its placeholders filled in."""

    def __init__(self, language: str):
        self.language = language if language in LANGUAGES else "en"
        self.locale = Locale.parse(self.language)
        self.texts = texts_of(self.language)

    def __call__(self, key: str, /, **values: object) -> str:
        """Returns the text of a key. It is markup, with all else escaped, if a value is."""
        found = self.texts.get(key, key)
        # (a page asks for hundreds of texts, most of them without placeholders)
        if not values and isinstance(found, str):
            return found
        text = self.choose(found, values.get("n"))
        filled = {name: self.count(it) if name in COUNTS else it for name, it in values.items()}
        if any(hasattr(it, "__html__") for it in values.values()):
            return Markup(escape(text)).format(**filled)
        return text.format(**filled) if filled else text

    def choose(self, text: Text, n: object) -> str:
        """Returns the singular or the plural of a text."""
        if isinstance(text, str):
            return text
        singular, plural = text
        return singular if isinstance(n, int) and self.locale.plural_form(n) == "one" else plural

    def count(self, value: object) -> object:
        """Returns a count with its digits grouped as the language does; any other value as it is."""
        if not isinstance(value, int) or isinstance(value, bool):
            return value
        # (a list has hundreds of small counts, in which no language groups digits)
        return str(value) if 0 <= value < 1000 else format_decimal(value, locale=self.locale)

    def has(self, key: str) -> bool:
        """Whether there is a text for a key."""
        return key in self.texts


def best_language(accepted: list[str]) -> str:
    """Returns the language of the pages for what a browser accepts, best first."""
    return next((it[:2].lower() for it in accepted if it[:2].lower() in LANGUAGES), "en")
