"""The terms of a web site: what its lists have for each, and the pages to which they lead."""
from __future__ import annotations

import hashlib
import json
import re
import unicodedata
from pathlib import Path
from typing import NamedTuple

from thesaurus_tools.site_export import Resource
from thesaurus_tools.texts import without_marks

FILES = Path(__file__).resolve().parents[2] / "share" / "site"


def words_of(lang: str) -> dict[str, str]:
    """The words of the pages in a language; the English ones with the tag as the language's name, where there are
    none."""
    every = json.loads((FILES / "words.json").read_text(encoding="utf-8"))
    return every.get(lang.split("-")[0]) or {**every["en"], "language": lang}


class Entry(NamedTuple):
    """A line of A to Z: a term and its page; and its concept, or those to use in its place."""

    key: tuple
    text: str
    page: str
    concept: Resource | None
    use: tuple[Resource, ...] = ()


def letter_of(entry: Entry) -> str:
    """The heading of a term. A script of thousands of characters has one heading."""
    first = entry.key[1][0]
    if not first.isalpha():
        return "0–9" if first.isdigit() else "#"
    # (Python names no ideographs of Tangut, and all other letters)
    return first.upper() if ord(first) < 0x2E80 else re.split("[ -]", unicodedata.name(first, "Tangut"))[0].title()


def page_of_letter(letter: str) -> str:
    """The name of a letter's page: its own if that needs no escape in a link."""
    plain = {"0–9": "0-9", "#": "other"}.get(letter, letter.lower())
    return plain if re.fullmatch("[a-z0-9-]+", plain) else "-".join(f"{ord(it):04x}" for it in plain)


def page_of_lead(text: str) -> str:
    """The page of an alternative label: it stays the same as others come and go."""
    words = re.sub(r"[^a-z0-9]+", "-", without_marks(text)).strip("-")[:40]
    return f"use-{words}-{hashlib.sha256(text.encode()).hexdigest()[:8]}"
