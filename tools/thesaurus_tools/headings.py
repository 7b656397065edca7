"""Finds out what the columns of a table hold, from the headings that people write."""
from __future__ import annotations

import re
import tomllib
from collections.abc import Iterable, Mapping
from pathlib import Path
from types import MappingProxyType
from typing import NamedTuple

from thesaurus_tools.command_line import USAGE, ToolError
from thesaurus_tools.fields import Field, is_tag
from thesaurus_tools.files import read_file
from thesaurus_tools.kinds import BROADER, LABEL_KINDS, MAPPINGS
from thesaurus_tools.texts import fold

WORDS = tomllib.loads(Path(__file__).with_suffix(".toml").read_text(encoding="utf-8"))
BY_HEADING, SHOWN, BY_LABEL, BY_LANGUAGE = (
    {name: meaning for meaning, names in WORDS[part].items() for name in names}
    for part in ("roles", "shown", "labels", "languages")
)
TAG = re.compile("[a-z]{1,8}(-[a-z0-9]{1,8})*")
# What names the concept that a row is about.
REFERENCES = ("concept", "iri")
LINKS = (*BROADER, "narrower", "related", *MAPPINGS, "member", "members")
# The role of a column that is left out, and that of one whose heading says nothing that is known.
LEFT_OUT, UNKNOWN = "-", "?"
ROLES = (*WORDS["roles"], LEFT_OUT)
# How many columns a list of changes between releases has beside the concept.
COLUMNS_OF_RELEASES = 4
# The status of a concept that has none.
APPROVED = "approved"
BY_STATUS = {name: status for status, names in WORDS["statuses"].items() for name in names}
# The roles of terms that a column may have in a language that its heading names.
TERMS = ("old", "new")
# What the role of a column with values of a field begins with; its name follows.
OF_FIELD = "field:"
Fields = Mapping[str, Field]
# (a store without a desk has no values of fields)
NO_FIELDS: Fields = MappingProxyType({})
# A heading with the name by which tables know a field: Repertoire [repertoire]@en
NAMED_FIELD = re.compile(r".*?\[([a-z][A-Za-z0-9]{1,30})\](?:@(.+))?", re.DOTALL)


class Column(NamedTuple):
    """A column: its heading, what it holds, and the language of a label, or the language or code of values."""

    heading: str
    role: str
    tag: str = ""

    @property
    def field(self) -> str:
        """The name of the field whose values it has, or nothing."""
        return self.role.removeprefix(OF_FIELD) if self.role.startswith(OF_FIELD) else ""

    def __str__(self) -> str:
        return f"{self.role}@{self.tag}" if self.tag else self.role


def fold_heading(text: str) -> str:
    """Returns a heading without case, accents and signs."""
    return " ".join(re.findall(r"\w+", fold(text.replace("ß", "ss"))))


def status_of(cell: str) -> str:
    """Returns the status that a cell names in any of the languages; the cell, if it names none."""
    return BY_STATUS.get(fold_heading(cell), cell)


def find_column(heading: str, lang: str, fields: Fields = NO_FIELDS) -> Column:
    """Returns what a column seems to hold: `-` if it is only shown, `?` if its heading says nothing that is known."""
    named = NAMED_FIELD.fullmatch(heading)
    if named and named[1] in fields:
        return column_of_field(heading, fields[named[1]], named[2] or "", lang)
    column = column_of_store(heading, lang)
    # (a notation is a code only where there are no fields)
    return (column_by_field(heading, lang, fields) if column.role in (UNKNOWN, "code") else None) or column


def column_by_field(heading: str, lang: str, fields: Fields) -> Column | None:
    """Returns what a column holds whose heading has the name of a field, with a language or a code; None otherwise."""
    by_name = fields_by_heading(fields)
    name, _, tag = heading.partition("@")
    if field := by_name.get(fold_heading(name)):
        return column_of_field(heading, field, tag, lang)
    words = fold_heading(heading).split()
    for rest, word in ((words[:-1], words[-1:]), (words[1:], words[:1])):
        field, of = by_name.get(" ".join(rest)), language_of(word[0], heading) if word else ""
        if field and of and field.tag == "language":
            return column_of_field(heading, field, of, lang)
    return None


def column_of_field(heading: str, field: Field, tag: str, lang: str) -> Column:
    """Returns the column of a field: it isn't understood if its language is nowhere said."""
    its = tag.lower() or lang if field.tag == "language" else tag
    return Column(heading, f"{OF_FIELD}{field.name}", its) if is_tag(field, its) else Column(heading, UNKNOWN)


def fields_by_heading(fields: Fields) -> dict[str, Field]:
    """Returns fields by the folded headings of their columns: their names, in all languages."""
    found: dict[str, Field] = {}
    for it in fields.values():
        for name in (it.name, *it.names.values(), *WORDS["fields"].get(it.name, ())):
            found.setdefault(fold_heading(name), it)
    return found


def column_of_store(heading: str, lang: str) -> Column:
    """Returns what a column seems to hold of what a store has."""
    name, _, tag = heading.partition("@")
    if tag and (kind := BY_LABEL.get(fold_heading(name))) and TAG.fullmatch(tag.lower()):
        return Column(heading, kind, tag.lower())
    folded = fold_heading(heading)
    if known := BY_HEADING.get(folded) or SHOWN.get(folded):
        return Column(heading, known)
    # (a language alone is its preferred term, as in "English"; or it is at one end, as in "Synonym (German)")
    words = folded.split()
    for rest, word in ((words[:-1], words[-1:]), (words[1:], words[:1])):
        of = language_of(word[0], heading) if word else ""
        kind = kind_of_term(" ".join(rest)) if rest else "pref"
        if of and kind:
            return Column(heading, kind, of)
    if folded in BY_LABEL:
        return Column(heading, BY_LABEL[folded], lang)
    return Column(heading, UNKNOWN)


def kind_of_term(name: str) -> str:
    """Returns the role of a term or a note that a folded heading names, to which a language belongs, or nothing."""
    role = BY_HEADING.get(name, "")
    return BY_LABEL.get(name) or (role if role in TERMS else "")


class ColumnsError(ToolError):
    """What is wrong with the roles that a user gives to headings: all roles, or the names that no heading has."""

    def __init__(self, text: str, *, roles: str = "", names: str = "") -> None:
        super().__init__(text, USAGE)
        self.roles, self.names = roles, names


def language_of(word: str, heading: str) -> str:
    """Returns the tag of a language that a word names, as `german` or `de`; nothing for another word."""
    is_tag = word in WORDS["languages"] and re.search(rf"(^|[\s(_-]){word}[\s)]*$", heading, re.IGNORECASE)
    return word if is_tag else BY_LANGUAGE.get(word, "")


def column_in_words(text: str) -> str:
    """Returns the role, with its language, that a text names as a heading does; nothing for a role itself, and for a
    term without a language."""
    _, role, tag = column_of_store(text.strip(), "")
    has_language = role in (*LABEL_KINDS, *TERMS)
    if role == UNKNOWN or fold_heading(text) == role or has_language != bool(tag):
        return ""
    return f"{role}@{tag}" if tag else role


def read_choices(text: str, fields: Fields = NO_FIELDS) -> dict[str, str]:
    """Returns the roles that a user gives to headings: HEADING=ROLE,.. or a file with such a text in each line."""
    if text and "=" not in text:
        text = ",".join(read_file(Path(text)).decode("utf-8", "replace").split("\n"))
    choices = {}
    for it in filter(None, (it.strip() for it in text.split(","))):
        heading, is_given, role = it.rpartition("=")
        kind, _, tag = role.strip().partition("@")
        if is_given and kind in fields and kind not in ROLES:
            choices[fold_heading(heading)] = str(column_of_field(heading, fields[kind], tag, ""))
            continue
        if is_given and (found := column_in_words(role)):
            choices[fold_heading(heading)] = found
            continue
        has_tag = kind in (*LABEL_KINDS, *TERMS) and TAG.fullmatch(tag.lower())
        if not is_given or not (has_tag or kind in ROLES and not tag):
            roles = ", ".join((*(f"{kind}@TAG" for kind in LABEL_KINDS), *ROLES))
            raise ColumnsError(f"--columns: {it!r} isn't HEADING=ROLE; roles are {roles}", roles=roles)
        choices[fold_heading(heading)] = f"{kind}@{tag.lower()}" if tag else kind
    return choices


def find_columns(
    headings: Iterable[str], lang: str, choices: dict[str, str], fields: Fields = NO_FIELDS
) -> list[Column]:
    """Returns what each column holds: as a user says, or as its heading does. Raises ToolError for an unused choice."""
    columns, unused, chosen = [], dict(choices), dict[int, Column]()
    for place, heading in enumerate(headings):
        columns.append(find_column(heading, lang, fields))
        if choice := unused.pop(fold_heading(heading), ""):
            role, _, tag = choice.partition("@")
            columns[place] = chosen[place] = Column(heading, role, tag)
    if unused:
        raise ColumnsError(f"--columns: no column is called {', '.join(unused)}", names=", ".join(unused))
    return [chosen.get(place, it) for place, it in enumerate(beside_others(columns))]


def beside_others(columns: list[Column]) -> list[Column]:
    """Returns what columns hold, of which some mean something else beside others."""
    roles = {it.role for it in columns}
    if "record" in roles and not roles & {*REFERENCES}:
        # (in a list of records, the place is the concept of each, and no broader term)
        columns = [it._replace(role="concept") if fold_heading(it.heading) == "place" else it for it in columns]
    of_releases = [it for it in columns if fold_heading(it.heading) in WORDS["releases"][LEFT_OUT]]
    if len(of_releases) == COLUMNS_OF_RELEASES:
        columns = [it._replace(role=LEFT_OUT) if it in of_releases else it for it in columns]
    if {"label", "text"} <= roles:
        # (in a list of terms that are alike, the group is no collection)
        columns = [it._replace(role=LEFT_OUT) if fold_heading(it.heading) == "group" else it for it in columns]
    if any(it.role in REFERENCES for it in columns):
        # (a term beside a number, whose heading names no language, shows which concept is meant: it changes nothing)
        return [it._replace(tag="") if it.role == "pref" and is_plain(it) else it for it in columns]
    if "new" in roles and not roles & {"old", "record"}:
        # (a term beside a new one is the old one)
        return [it._replace(role="old") if it.role == "pref" and is_plain(it) else it for it in columns]
    return columns


def is_plain(column: Column) -> bool:
    """Whether the heading of a term names no language."""
    return fold_heading(column.heading) in BY_LABEL
