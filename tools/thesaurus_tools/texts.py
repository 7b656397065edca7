"""Compares texts without regard to case, accents and the like."""
from __future__ import annotations

import re
import unicodedata

MARKS = re.compile("[\u0300-\u036f]+")
# What two labels may differ in and still be duplicates: spaces, dashes, brackets, quotes and stops.
LIGHT_CATEGORIES = {"Zs", "Pd", "Ps", "Pe", "Pi", "Pf"}
LIGHT_SIGNS = set("'\".,;:\u00b7")


def fold(text: str) -> str:
    """Returns a text without case, accents and variants of characters."""
    return unicodedata.normalize("NFKC", MARKS.sub("", unicodedata.normalize("NFKD", text).casefold()))


def normalize(text: str) -> str:
    """Returns a text without case and variants of characters, and with one space for spaces and light signs."""
    folded = unicodedata.normalize("NFKC", unicodedata.normalize("NFKC", text).casefold())
    return " ".join(
        "".join(
            " " if unicodedata.category(it) in LIGHT_CATEGORIES or it in LIGHT_SIGNS else it for it in folded
        ).split()
    )


def without_marks(text: str) -> str:
    """Returns a text without case and marks, those of other scripts among them, for sorting."""
    lower = text.casefold()
    return (
        lower
        if lower.isascii()
        else "".join(it for it in unicodedata.normalize("NFKD", lower) if not unicodedata.combining(it))
    )


def sort_key(text: str) -> tuple[bool, str, str]:
    """Returns the key by which terms are sorted: letters before all else, without case, accents and marks before the
    first word."""
    folded = without_marks(text).lstrip("\"'«»„“”‘’([-. ") or text
    return not folded[0].isalpha(), folded, text
