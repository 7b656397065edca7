"""Reads dumps of vocabularies, which may have gigabytes: N-Triples and CSV line by line, RDF/XML and Turtle by other
programs that make such lines of them. What these lack, and other forms, are read by rdflib, as a whole.

What a dump says is a list of facts. A line that can't be read is counted, and the others are taken."""
from __future__ import annotations

import csv
import io
from collections.abc import Iterable, Iterator
from dataclasses import dataclass, field
from pathlib import Path
from typing import BinaryIO, NamedTuple

from thesaurus_tools.command_line import REFUSED, USAGE, ToolError
from thesaurus_tools.ntriples import BOM, DCTERMS, OWL, QUAD, RDF, SKOS, STATEMENT, Blank, Literal, Triple
from thesaurus_tools.ntriples import parse_statement
from thesaurus_tools.rdf_files import FORMATS, OTHER_WAY, PACKED, TooLargeError, beginning_of, form_of, read_triples
from thesaurus_tools.rdf_streams import MOST_BYTES, STREAMERS, TOO_LARGE, open_as_ntriples, open_dump, streamer_of
from thesaurus_tools.skos_xl import FORM, XL
from thesaurus_tools.vocabulary_tables import LABEL_KINDS
from thesaurus_tools.zthes import is_zthes

# The forms of lines, and the most bytes of one.
LINES, LONGEST_LINE = ("nt", "nquads"), 1 << 20
# How many of the lines that can't be read are kept, and how much of each.
MOST_BAD, SHOWN = 100, 200
# The beginning of a note that is kept.
LONGEST_NOTE = 500
# How the names of dumps end.
ENDS = (*FORMATS, ".csv", PACKED)
KINDS = {f"{SKOS}{name}Label": kind for kind, name in enumerate(LABEL_KINDS)}
XL_KINDS = {f"{XL}{name}Label": kind for kind, name in enumerate(LABEL_KINDS)}
NOTES = (f"{SKOS}scopeNote", f"{SKOS}definition")
# What has labels and is no concept.
OTHERS = tuple(f"{SKOS}{it}" for it in ("ConceptScheme", "Collection", "OrderedCollection"))
# What a line of N-Triples has that says something of a label, a place or an end; most lines of a dump don't.
MARKS = tuple(it.encode() for it in (SKOS, XL, f"{OWL}deprecated", f"{DCTERMS}isReplacedBy"))
COLUMNS = ("iri", "label", "lang", "broader")


class Fact(NamedTuple):
    """What a dump says of something, by its IRI: its label (kind, tag, text), a term, which is its preferred label if
    it is the first in its language, what is above it, its note, that it is no concept, that it is deprecated or by what
    it is replaced. Of SKOS-XL: which node is its label, and a node's text."""

    what: str
    of: str
    text: str = ""
    tag: str = ""
    kind: int = 0


@dataclass
class BadLines:
    """The lines that can't be read: how many there are, and the first ones with their numbers."""

    count: int = 0
    first: list[tuple[int, str]] = field(default_factory=list)

    def add(self, line: int, text: str) -> None:
        """Notes a line."""
        self.count += 1
        if len(self.first) < MOST_BAD:
            self.first.append((line, text[:SHOWN]))


def read_dump(path: Path, bad: BadLines) -> Iterator[Fact]:
    """Yields what a dump says. Raises ToolError for a file that is no dump as a whole."""
    form = "csv" if path.name.lower().removesuffix(PACKED).endswith(".csv") else form_of(path.name)
    if not form:
        raise ToolError(f"{path}: its name ends with none of {' '.join(ENDS)}", USAGE)
    if form in LINES:
        with open_dump(path) as file:
            yield from facts_of(triples_of(numbered_lines(file, str(path)), form, bad))
    elif form == "csv":
        with open_dump(path) as file:
            yield from facts_of_rows(file, str(path), bad)
    elif (streamer := streamer_of(form)) and not is_zthes(beginning_of(path)):
        with open_as_ntriples(path, streamer) as pipe:
            yield from facts_of(triples_of(lines_of(pipe), "nt", bad))
    else:
        yield from facts_of(read_whole(path, form))


def read_whole(path: Path, form: str) -> Iterator[Triple]:
    """Yields the triples of a file that is held in memory. Raises ToolError for one that is too large, which names the
    program that would read it."""
    try:
        yield from read_triples(path, form)
    except TooLargeError as error:
        lacking = STREAMERS.get(form)
        way = f"{lacking.program}, of Debian's {lacking.package}, reads larger ones" if lacking else OTHER_WAY
        raise TooLargeError(path, error.is_packed, way) from None


def lines_of(file: BinaryIO) -> Iterator[tuple[int, bytes]]:
    """Yields the lines of what a program has made, which have no numbers in the dump."""
    while line := file.readline(LONGEST_LINE):
        yield 0, line


def numbered_lines(file: BinaryIO, name: str) -> Iterator[tuple[int, bytes]]:
    """Yields the lines of a file with their numbers. Raises ToolError for one that is too large."""
    size, number = 0, 0
    while line := file.readline(LONGEST_LINE):
        number += 1
        size += len(line)
        if size > MOST_BYTES:
            raise ToolError(f"{name}: {TOO_LARGE}", USAGE)
        yield number, line.removeprefix(BOM) if number == 1 else line


def triples_of(lines: Iterable[tuple[int, bytes]], form: str, bad: BadLines) -> Iterator[Triple]:
    """Yields those triples of N-Triples or N-Quads that may say something of a label, a place or an end."""
    pattern = QUAD if form == "nquads" else STATEMENT
    for number, line in lines:
        if not any(it in line for it in MARKS):
            # (to parse all lines would take five times as long)
            stripped = line.strip()
            if stripped and not stripped.startswith(b"#") and not (stripped[:1] in (b"<", b"_") and b"." in stripped):
                bad.add(number, line.decode("utf-8", "replace").rstrip())
            continue
        try:
            triple = parse_statement(line.decode("utf-8").rstrip("\r\n"), pattern)
        except ValueError:
            bad.add(number, line.decode("utf-8", "replace").rstrip())
            continue
        if triple:
            yield triple


def facts_of(triples: Iterable[Triple]) -> Iterator[Fact]:
    """Yields what triples say of labels, places and ends."""
    for subject, predicate, value in triples:
        if isinstance(value, Literal):
            if fact := fact_of_literal(subject, predicate, value):
                yield fact
        elif fact := fact_of_link(subject, predicate, value):
            yield fact


def fact_of_literal(subject: str, predicate: str, value: Literal) -> Fact | None:
    """Returns what a literal says, or None."""
    if predicate == FORM:
        return Fact("form", subject, value.text, value.tag)
    if isinstance(subject, Blank):
        return None
    if predicate in KINDS:
        return Fact("label", subject, value.text, value.tag, KINDS[predicate])
    if predicate in NOTES:
        return Fact("note", subject, value.text[:LONGEST_NOTE])
    is_gone = predicate == f"{OWL}deprecated" and value.text.strip().lower() not in ("false", "0")
    return Fact("gone", subject) if is_gone else None


def fact_of_link(subject: str, predicate: str, value: str) -> Fact | None:
    """Returns what a link says, or None."""
    if isinstance(subject, Blank):
        return None
    if predicate in XL_KINDS:
        return Fact("node", subject, value, kind=XL_KINDS[predicate])
    if isinstance(value, Blank):
        return None
    if predicate == f"{SKOS}broader":
        return Fact("above", subject, value)
    if predicate == f"{SKOS}narrower":
        return Fact("above", value, subject)
    if predicate == f"{DCTERMS}isReplacedBy":
        return Fact("replaced", subject, value)
    return Fact("other", subject) if predicate == f"{RDF}type" and value in OTHERS else None


def facts_of_rows(file: BinaryIO, name: str, bad: BadLines) -> Iterator[Fact]:
    """Yields what the rows of a table say: `iri,label,lang,broader`, in any order. The first label of an entry in a
    language is its preferred one. Raises ToolError for a table without an IRI or a label."""
    text = io.TextIOWrapper(file, encoding="utf-8-sig", errors="replace", newline="")
    rows = csv.reader(text)
    heading = [it.strip().lower() for it in next(rows, [])]
    if not {"iri", "label"} <= set(heading):
        raise ToolError(f"{name}: its first row names no columns iri and label", REFUSED)
    while (cells := next_row(rows, bad)) is not None:
        found = {column: it.strip() for column, it in zip(heading, cells)}
        iri, label, tag, above = (found.get(it, "") for it in COLUMNS)
        if not iri or not (label or above) or "\N{REPLACEMENT CHARACTER}" in label:
            if cells:
                bad.add(rows.line_num, ",".join(cells))
            continue
        if label:
            yield Fact("term", iri, label, tag)
        if above:
            yield Fact("above", iri, above)


def next_row(rows: Iterator[list[str]], bad: BadLines) -> list[str] | None:
    """Returns the next row of a table, or None at its end; one that is no row of CSV is counted, and is empty."""
    try:
        return next(rows, None)
    except csv.Error as error:
        bad.add(getattr(rows, "line_num"), str(error))
        return []
