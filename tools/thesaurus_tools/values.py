"""The values of fields that a desk keeps beside a store: in requests, and in the cells of tables."""
from __future__ import annotations

import re
from collections.abc import Sequence
from typing import Any, NamedTuple

from thesaurus_tools.fields import TERM_SOURCE, Field, tidy

# What parts several values of a cell: those of several lines have it alone on a line between them.
SIGN = "|"
SIGNS_ALONE = re.compile(r"^\|+$", re.MULTILINE)
ONE_SIGN = re.compile(r"(?<!\|)\|(?!\|)")
# What parts a term and its source in a cell; within a term it is doubled.
EQUALS = "="
ONE_EQUALS = re.compile("(?<!=)=(?!=)")


class FieldValue(NamedTuple):
    """A value of a field of a resource, with its language or code."""

    owner: int | str
    field: str
    tag: str
    text: str
    source: str = ""


def member_of(text: str, source: str = "") -> str | dict[str, str]:
    """Returns a value as a request has it."""
    return {"text": text, "source": source} if source else text


def text_of(member: Any) -> str | None:
    """Returns the text of a value of a request, of resources that it names their numbers; None where there is none."""
    if isinstance(member, list):
        return " ".join(map(str, member))
    return member["text"] if isinstance(member, dict) else member


def source_of(member: Any) -> str:
    """Returns the source of a value of a request; "" where there is none."""
    return str(member["source"]) if isinstance(member, dict) else ""


def set_request(owner: int | str, field: str, tag: str, *, old: Any = None, new: Any = None) -> dict[str, Any]:
    """Returns the request that adds, changes or removes a value."""
    return {"do": "set", "owner": owner, "field": field, "tag": tag, "old": old, "new": new}


def as_in_cell(it: FieldValue) -> str:
    """Returns a value as a cell has it: a term with its source, of others the text alone."""
    return f"{it.text.replace(EQUALS, EQUALS * 2)} {EQUALS} {it.source}" if it.field == TERM_SOURCE else it.text


def member_of_cell(field: str, text: str, source: str = "") -> str | dict[str, str]:
    """Returns the value of a cell as a request has it: a term with the source that the cell names, others with the one
    that is given."""
    if field != TERM_SOURCE:
        return member_of(text, source)
    term, *rest = ONE_EQUALS.split(text, maxsplit=1)
    return member_of(term.strip().replace(EQUALS * 2, EQUALS), "".join(rest).strip())


def cell_of(field: Field, texts: Sequence[str]) -> str:
    """Returns the values of a field as one cell, which `texts_of` reads: a sign within a value is doubled."""
    if field.kind == "text":
        return f"\n{SIGN}\n".join(SIGNS_ALONE.sub(r"|\g<0>", it) for it in texts)
    return f" {SIGN} ".join(it.replace(SIGN, SIGN * 2) for it in texts)


def texts_of(field: Field, cell: str) -> list[str]:
    """Returns the values that a cell has."""
    if field.kind == "text":
        parts = [SIGNS_ALONE.sub(lambda it: it[0][1:], part) for part in split_lines(tidy(cell, field.kind))]
    else:
        parts = [it.replace(SIGN * 2, SIGN) for it in ONE_SIGN.split(cell)]
    tidied = (tidy(it, field.kind) for it in parts)
    return list(dict.fromkeys(it for it in tidied if it))


def split_lines(cell: str) -> list[str]:
    """Returns the parts of a cell between lines that are the sign alone."""
    parts: list[list[str]] = [[]]
    for line in cell.split("\n"):
        if line == SIGN:
            parts.append([])
        else:
            parts[-1].append(line)
    return ["\n".join(it) for it in parts]
