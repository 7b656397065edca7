"""Turns a table of concepts, as a spreadsheet saves it, into a script for tools/load.

The first row names the columns; commas, semicolons or tabs part them, as the first row shows. A row is a concept; |
parts several values:

  id,broader,related,pref@en,pref@fr,alt@en,scope@en,exact
  h,s,,Harps,Harpes,Angular harps|Arched harps,,http://www.wikidata.org/entity/Q47369
  s,,,String instruments,,,For all instruments with strings.,

  tools/from-csv museum.csv --scheme "Musical instruments" --lang en --drop > museum.jsonl
  tools/load --db museum.db --journal museum.journal museum.jsonl

Columns: id; pref, alt, hidden, scope, each with @ and a language tag (or --lang); broader, broaderGeneric,
broaderPartitive, broaderInstantial, narrower, related, with ids, or preferred labels that only one row has; exact,
close, broad, narrow, relMatch, with IRIs. They may have the names that tools/from-table knows, as Term, Oberbegriff or
Synonym (German): what such a column is taken for is printed, and --columns corrects it. Rows may be in any order. The
id of a row without one is its first preferred label. Other columns are lost. What is lost or breaks a rule is reported
with the row before anything is written, and left out with --drop; otherwise nothing is written, and the status is 1.

Exit status: 0 done, 1 something was found and there is no --drop, 2 usage, 3 a file can't be read."""
from __future__ import annotations

import argparse
from collections import defaultdict
from collections.abc import Iterator
from pathlib import Path
from typing import NamedTuple

from thesaurus_tools.command_line import REFUSED, ToolError, parser_of, run, say
from thesaurus_tools.conversion import add_converter_options, write_script
from thesaurus_tools.entities import entity_address
from thesaurus_tools.files import read_cells
from thesaurus_tools.headings import Column, find_columns, read_choices
from thesaurus_tools.kinds import BROADER, LABEL_KINDS, MAPPINGS
from thesaurus_tools.link_rules import IRI_FORM, OUTSIDE
from thesaurus_tools.vocabulary import Resource, Vocabulary

TOOL = "from-csv"
OWN_LINKS = (*BROADER, "narrower", "related")
# What names the concept of a row; the first that a table has is its id.
IDS = ("concept", "iri")
ID = "id"
READ = (ID, *LABEL_KINDS, *OWN_LINKS, *MAPPINGS)


class Cell(NamedTuple):
    """A cell with values: the heading of its column, what that holds, the language of labels, and the values."""

    heading: str
    role: str
    tag: str
    values: list[str]


def read_rows(given: argparse.Namespace) -> Iterator[tuple[int, list[Cell]]]:
    """Yields the line of each row, and its cells with values. Raises ToolError with FILE:LINE for what is no table."""
    rows = read_cells(given.file)
    _, head = next(rows, (1, list[str]()))
    columns = check_columns(given, [it.strip() for it in head])
    for line, cells in rows:
        parted = ([it.strip() for it in cell.split("|") if it.strip()] for cell in cells)
        yield line, [Cell(*column, values) for column, values in zip(columns, parted) if values]


def check_columns(given: argparse.Namespace, headings: list[str]) -> list[Column]:
    """Returns what each column holds, and prints it where a heading isn't its plain name."""
    if not headings:
        raise ToolError(f"{given.file}:1: no row with the names of the columns", REFUSED)
    named = [it for it in headings if it]
    if len(set(named)) < len(named):
        raise ToolError(f"{given.file}:1: two columns have one name", REFUSED)
    columns = with_languages(find_columns(headings, given.lang, read_choices(given.columns)), given.lang)
    if not any(it.role == "pref" for it in columns):
        raise ToolError(f"{given.file}:1: no column pref@TAG; the first row names the columns", REFUSED)
    for it in columns:
        if it.role in READ and it.heading not in (str(it), it.role):
            say(TOOL, f"column {it.heading}: {it}")
    return columns


def with_languages(columns: list[Column], lang: str) -> list[Column]:
    """Returns columns with the language of each label, and the first one that names concepts as their ids."""
    names = next((it for role in IDS for it in columns if it.role == role), None)
    columns = [it._replace(role=ID) if it is names else it for it in columns]
    return [it._replace(tag=it.tag or lang) if it.role in LABEL_KINDS else it for it in columns]


class Reader:
    """Makes a vocabulary of rows."""

    def __init__(self, given: argparse.Namespace):
        self.given, self.vocabulary = given, Vocabulary(given.texts, adopts=given.adopt, second=given.second)
        self.scheme = f"scheme {given.scheme}"
        self.rows: dict[str, list[Cell]] = {}
        self.by_label: dict[str, list[str]] = defaultdict(list)

    def read(self) -> Vocabulary:
        """Returns the vocabulary, checked."""
        scheme = self.vocabulary.resources[self.scheme] = Resource(self.scheme, "scheme")
        self.vocabulary.add_label(scheme, "pref", self.given.lang, self.given.scheme)
        for line, row in read_rows(self.given):
            self.read_row(f"{self.given.file}:{line}", row)
        for name, row in self.rows.items():
            self.read_links(name, row)
        self.vocabulary.check(self.given.lang, bool(self.given.qualify))
        return self.vocabulary

    def read_row(self, where: str, row: list[Cell]) -> None:
        """Adds the concept of a row, with its labels."""
        labels = [(kind, it.tag, text) for kind in LABEL_KINDS for it in row if it.role == kind for text in it.values]
        preferred = [text for kind, _, text in labels if kind == "pref"]
        ids = [text for it in row if it.role == ID for text in it.values] or preferred[:1]
        name = ids[0] if len(ids) == 1 else ""
        if not name or name in self.vocabulary.resources or name.startswith(OUTSIDE):
            said = {"text": name} if name else {}
            self.vocabulary.find("id", where, "id_twice" if name else "no_id", **said)
            return
        self.rows[name] = row
        self.vocabulary.places[name] = f"{where}: {name}"
        concept = self.vocabulary.resources[name] = Resource(name, "concept", self.scheme)
        for kind, tag, text in labels:
            self.vocabulary.add_label(concept, kind, tag, text)
        for text in dict.fromkeys(preferred):
            self.by_label[text].append(name)
        if self.given.hidden_codes:
            self.vocabulary.add_label(concept, "hidden", self.given.hidden_codes, name)

    def read_links(self, name: str, row: list[Cell]) -> None:
        """Adds the links of a row, and notes values in columns that nothing reads."""
        for it in row:
            for text in it.values:
                if it.role in OWN_LINKS:
                    self.vocabulary.links.append(self.own_link(it.role, name, text))
                elif it.role in MAPPINGS:
                    self.vocabulary.links.append((it.role, name, OUTSIDE + entity_address(text)))
                elif it.role not in READ:
                    said = {"column": it.heading} if it.heading else {}
                    key = "column" if it.heading else "column_without_name"
                    self.vocabulary.find("lost", name, key, **said, text=text)
        if self.given.keep_iris and IRI_FORM.fullmatch(name):
            self.vocabulary.links.append(("exact", name, OUTSIDE + name))
        elif self.given.keep_iris:
            self.vocabulary.find("BadIri", name, "id_no_iri")

    def own_link(self, role: str, name: str, text: str) -> tuple[str, str, str]:
        """Returns the link to what a cell names: a row by its id, or by a preferred label that only one row has."""
        found = [text] if text in self.rows else self.by_label.get(text, [])
        other = found[0] if len(found) == 1 else text
        return ("broader", other, name) if role == "narrower" else (role, name, other)


def arguments() -> argparse.Namespace:
    parser = parser_of(TOOL, __doc__)
    parser.add_argument("file", type=Path, metavar="FILE", help="the table, in UTF-8")
    parser.add_argument(
        "--columns",
        default="",
        metavar="MAP",
        help="what columns hold: Begriff=pref@de,Oberbegriff=broader; or a file of such lines",
    )
    add_converter_options(parser)
    given = parser.parse_args()
    if not given.scheme or not given.lang:
        parser.error(
            "--scheme and --lang are needed: the label of the scheme that the concepts belong to, and its language"
        )
    return given


def main() -> int:
    given = arguments()
    return write_script(Reader(given).read(), given, TOOL)


def command() -> None:
    """Runs it, and ends with its exit status."""
    run(TOOL, main)
