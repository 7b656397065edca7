"""Where a parser of another library has stopped in a file, by its message: each writes that in a way of its own."""
from __future__ import annotations

import re
from typing import NamedTuple

# The messages of parsers of XML; of Turtle; of JSON, and of Python's ElementTree.
FORMS = (
    re.compile(r"(?:<unknown>|None|file:\S*):(?P<line>[0-9]+):(?P<column>[0-9]+): (?P<reason>.*)"),
    re.compile(r"at line (?P<line>[0-9]+) of <[^>]*>: *(?P<reason>.*)"),
    re.compile(r"(?P<reason>.*): line (?P<line>[0-9]+),? column (?P<column>[0-9]+)(?: \(char [0-9]+\))?"),
)
# What a tool prints of one: the file, the line, the column if it is known, and the reason.
TOLD = re.compile(r":(?P<line>[0-9]+)(?::(?P<column>[0-9]+))?: (?P<reason>.*)")


class ParsePlace(NamedTuple):
    """Where a parser has stopped, with 0 for what isn't known, and why."""

    line: int
    column: int
    reason: str


def place_of_match(found: re.Match[str]) -> ParsePlace:
    """Returns the place that a message has."""
    its = found.groupdict()
    return ParsePlace(int(its["line"]), int(its.get("column") or 0), its["reason"])


def place_in(message: str) -> ParsePlace:
    """Returns the place that a parser's message has."""
    text = " ".join(message.split())
    found = next(filter(None, (it.fullmatch(text) for it in FORMS)), None)
    return place_of_match(found) if found else ParsePlace(0, 0, text)


def text_of_place(place: ParsePlace) -> str:
    """Returns what a tool prints behind the name of a file."""
    return "".join(f":{it}" for it in (place.line, place.column) if it) + f": {place.reason}"


def place_of_text(name: str, text: str) -> ParsePlace:
    """Returns the place in a file that a tool has printed, with the rest of the text."""
    found = TOLD.fullmatch(text.removeprefix(name)) if text.startswith(name) else None
    return place_of_match(found) if found else ParsePlace(0, 0, text)
