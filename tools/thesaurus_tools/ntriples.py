"""Reads N-Triples, and names the vocabularies of RDF that an export uses."""
from __future__ import annotations

import re
from collections.abc import Iterator
from pathlib import Path
from typing import NamedTuple

from thesaurus_tools.command_line import REFUSED, USAGE, ToolError

RDF = "http://www.w3.org/1999/02/22-rdf-syntax-ns#"
SKOS = "http://www.w3.org/2004/02/skos/core#"
OWL = "http://www.w3.org/2002/07/owl#"
DCTERMS = "http://purl.org/dc/terms/"
XSD = "http://www.w3.org/2001/XMLSchema#"

# The most bytes of the first line.
LONGEST_LINE = 1 << 20
# What some programs write before a text in UTF-8.
BOM = b"\xef\xbb\xbf"


class Iri(str):
    """An IRI, with its escapes undone."""

    __slots__ = ()


class Blank(str):
    """A blank node: its label with the `_:` before it, so that it equals no IRI."""

    __slots__ = ()


class Literal(NamedTuple):
    """A literal: its text, its language tag as written or "", and its datatype's IRI or ""."""

    text: str
    tag: str = ""
    datatype: str = ""


Node = Iri | Blank | Literal


class Triple(NamedTuple):
    subject: Iri | Blank
    predicate: Iri
    object: Node


CODE = r"\\u[0-9A-Fa-f]{4}|\\U[0-9A-Fa-f]{8}"
IN_IRI = r'[^\x00-\x20<>"{}|^`\\]*'
IRI_TERM = rf"<({IN_IRI}(?:(?:{CODE}){IN_IRI})*)>"
BLANK_TERM = r"(_:\w(?:[\w.·-]*[\w·-])?)"
IN_TEXT = r'[^"\\\n\r]*'
TEXT_TERM = rf'"({IN_TEXT}(?:(?:\\[tbnrf"\'\\]|{CODE}){IN_TEXT})*)"'
TYPE_OR_TAG = rf"(?:@([A-Za-z]+(?:-[A-Za-z0-9]+)*)|\^\^{IRI_TERM})?"
TERMS = rf"[ \t]*(?:{IRI_TERM}|{BLANK_TERM})[ \t]*{IRI_TERM}[ \t]*(?:{IRI_TERM}|{BLANK_TERM}|{TEXT_TERM}{TYPE_OR_TAG})"
END = r"[ \t]*\.[ \t]*(?:#.*)?"
STATEMENT = re.compile(TERMS + END)
# A line of N-Quads, which may have the name of a graph.
QUAD = re.compile(rf"{TERMS}(?:[ \t]*(?:{IRI_TERM}|{BLANK_TERM}))?{END}")
NO_STATEMENT = re.compile(r"[ \t]*(?:#.*)?")
ESCAPE = re.compile(r"\\(?:u([0-9A-Fa-f]{4})|U([0-9A-Fa-f]{8})|(.))")
ESCAPED = {"t": "\t", "b": "\b", "n": "\n", "r": "\r", "f": "\f", '"': '"', "'": "'", "\\": "\\"}


def unescape(text: str) -> str:
    """Undoes the escapes of N-Triples. Raises ValueError for a code that is no character."""
    if "\\" not in text:
        return text

    def character(match: re.Match) -> str:
        code = match[1] or match[2]
        if not code:
            return ESCAPED[match[3]]
        number = int(code, 16)
        if 0xD800 <= number <= 0xDFFF or number > 0x10FFFF:
            raise ValueError(f"U+{number:04X} is no character")
        return chr(number)

    return ESCAPE.sub(character, text)


def parse_statement(line: str, pattern: re.Pattern[str] = STATEMENT) -> Triple | None:
    """Returns the triple of a line, or None for a blank line or a comment. Raises ValueError for anything else."""
    match = pattern.fullmatch(line)
    if not match:
        if NO_STATEMENT.fullmatch(line):
            return None
        raise ValueError("no triple of N-Triples")
    iri, blank, predicate, object_iri, object_blank, text, tag, datatype = match.groups()[:8]
    target = Literal(unescape(text), tag or "", unescape(datatype or "")) if text is not None else None
    return Triple(node_name(iri, blank), Iri(unescape(predicate)), target or node_name(object_iri, object_blank))


def node_name(iri: str | None, blank: str) -> Iri | Blank:
    """Returns the node with an IRI, or with the label of a blank node."""
    if iri is None:
        return Blank(blank)
    return Iri(unescape(iri))


def parse_ntriples(data: bytes, name: str, pattern: re.Pattern[str] = STATEMENT) -> Iterator[Triple]:
    """Yields the triples of a document in the order of its lines; `name` is what an error calls it."""
    for number, line in enumerate(re.split(rb"\r\n|\n|\r", data.removeprefix(BOM)), 1):
        try:
            triple = parse_statement(line.decode("utf-8"), pattern)
        except UnicodeDecodeError:
            raise ToolError(f"{name}:{number}: no UTF-8", REFUSED) from None
        except ValueError as error:
            raise ToolError(f"{name}:{number}: {error}", REFUSED) from None
        if triple:
            yield triple


def read_document(path: Path | str) -> bytes:
    """Returns the bytes of a document. Raises ToolError if it can't be read; if its first line is longer than any
    triple, it isn't read to its end."""
    try:
        with open(path, "rb") as file:
            data = file.read(LONGEST_LINE)
            if len(data) == LONGEST_LINE and b"\n" not in data and b"\r" not in data:
                raise ToolError(f"{path}: a megabyte without the end of a line: no N-Triples", USAGE)
            return data + file.read()
    except OSError as error:
        raise ToolError(f"{path}: {error.strerror or error}") from None


def read_ntriples(path: Path | str) -> Iterator[Triple]:
    """Yields the triples of a file of N-Triples. Raises ToolError with `FILE:LINE` for a line that is none."""
    yield from parse_ntriples(read_document(path), str(path))
