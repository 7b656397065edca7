"""What Python makes of texts for the replica: folded texts, sort keys as texts, and words."""
from __future__ import annotations

import re
import unicodedata
from functools import lru_cache

from thesaurus_tools import texts

WORD = re.compile(r"\w+")
# After each character of a text.
LAST = "\U0010ffff"
# Folding follows the version of Unicode that Python has.
UNICODE = unicodedata.unidata_version
sort_key = lru_cache(1 << 17)(texts.sort_key)


def fold(text: str) -> str:
    """Returns a text without case, accents and variants of characters."""
    # (most texts are ASCII, of which nothing but the case is lost)
    return text.lower() if text.isascii() else texts.fold(text)


def sort_text(text: str) -> str:
    """Returns the key by which terms are sorted as one text: such texts have the order of the keys."""
    is_other, folded, own = texts.sort_key(text or " ")
    return f"{int(is_other)}{folded}\x01{own}"


def words_of(folded: str) -> set[str]:
    """Returns the words of a folded text."""
    return set(WORD.findall(folded))


def parts_of(folded: str) -> set[str]:
    """Returns a folded text from its beginning, and from each later word on."""
    return {folded, *(folded[it.start() :] for it in WORD.finditer(folded))}


def has_language(tag: str, lang: str) -> bool:
    """Whether a language tag is that of a language: `de-at` is `de`, too."""
    return tag == lang or tag.startswith(f"{lang}-")
