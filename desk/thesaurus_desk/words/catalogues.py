"""The catalogues of words: a file of gettext a language, `en.po`, `de.po` and `fr.po`, read by Babel.

The id of a message is its key, as `find.title`, since pages put keys together. Beside each text of another language its
English one is a comment, for those who translate.
"""
from __future__ import annotations

import re
from collections.abc import Iterable
from functools import cache
from io import BytesIO
from pathlib import Path

from babel import Locale
from babel.messages.catalog import Catalog, Message
from babel.messages.plurals import get_plural
from babel.messages.pofile import read_po, write_po

FOLDER = Path(__file__).parent
# A text, or its singular and its plural.
Text = str | tuple[str, str]
HEADER = """# The words of the desk's pages. `tests/run --write words` orders a file, and writes its comments anew.
msgid ""
msgstr ""
"Language: {language}\\n"
"Plural-Forms: {plural}\\n"
"Content-Type: text/plain; charset=utf-8\\n"
"Content-Transfer-Encoding: 8bit\\n"

"""


@cache
def texts_of(language: str) -> dict[str, Text]:
    """Returns all texts of a language by their keys."""
    with open(path_of(language), "rb") as file:
        return {key_of(it): it.string for it in read_po(file, locale=language) if it.id}


def path_of(language: str) -> Path:
    """Returns the file of a language."""
    return FOLDER / f"{language}.po"


def key_of(message: Message) -> str:
    """Returns the key of a message."""
    return str(message.id[0] if message.pluralizable else message.id)


def forms_of(text: Text) -> tuple[str, ...]:
    """Returns the forms of a text: one, or its singular and its plural."""
    return (text,) if isinstance(text, str) else tuple(text)


def written_catalogue(language: str, texts: dict[str, Text]) -> bytes:
    """Returns the file of a language, ordered by keys, with the English texts beside those of another."""
    catalogue = Catalog(locale=Locale.parse(language))
    english = texts_of("en") if language != "en" else {}
    for key, text in texts.items():
        message = catalogue.add(key if isinstance(text, str) else (key, key), text)
        message.auto_comments = list(forms_of(english[key])) if key in english else []
        message.flags = {"python-brace-format"} if has_placeholder(forms_of(text)) else set()
    head = HEADER.format(language=language, plural=get_plural(language).plural_forms)
    return head.encode() + body_of(catalogue)


def has_placeholder(forms: Iterable[str]) -> bool:
    """Whether a text has a name in braces."""
    return any(re.search(r"\{\w+\}", it) for it in forms)


def body_of(catalogue: Catalog) -> bytes:
    """Returns the messages of a catalogue as gettext has them, a text a line."""
    file = BytesIO()
    write_po(file, catalogue, width=0, no_location=True, omit_header=True, sort_output=True)
    return file.getvalue()
