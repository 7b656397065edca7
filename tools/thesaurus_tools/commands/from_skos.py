"""Turns a vocabulary in SKOS into a script for tools/load.

N-Triples (.nt) and N-Quads (.nq, whose graphs are read as one) are read by this tool itself; Turtle, RDF/XML and
JSON-LD by Python's rdflib (Debian: python3-rdflib). That has a bound on time and memory, and opens no other file and no
connection without --fetch. A file may be packed (.gz).

  tools/from-skos museum.ttl --lang en --keep-iris --drop > museum.jsonl
  tools/load --db museum.db --journal museum.journal museum.jsonl

What a thesaurus can't hold (lost: further schemes, blank nodes, other properties; and without --own notations, notes
but scope notes, arrays, ordered and nested collections) and what breaks a rule (Cycle, S9, S13, S14, S27, S37, S46, P1,
..) is reported with the resource's address and term before anything is written; --report makes a table of all. With
--drop it is left out; otherwise nothing is written, and the status is 1. P1 says that two concepts of a scheme have one
preferred label; docs/REQUESTS.md has the other names. Typed links are read in the words of ISO-THES. A concept that the
file has for one of its own to match becomes an outside concept. MADS/RDF is read, too, as far as SKOS has words for it:
authorities, their labels and variants, notes, relations and schemes; and Zthes (.xml). The rest is reported by name.

Exit status: 0 done, 1 something was found and there is no --drop, 2 usage, 3 a file can't be read."""
from __future__ import annotations

import argparse
from pathlib import Path

from thesaurus_tools.command_line import REFUSED, ToolError, names, parser_of, run
from thesaurus_tools.conversion import add_converter_options, write_script
from thesaurus_tools.desk_values import open_journal, read_fields
from thesaurus_tools.fields import STANDARD, Field
from thesaurus_tools.mads import count_mads_terms, skos_of_mads
from thesaurus_tools.rdf_files import FORMATS, read_triples
from thesaurus_tools.skos import SkosReader, values_of
from thesaurus_tools.skos_xl import label_texts


def arguments() -> argparse.Namespace:
    parser = parser_of("from-skos", __doc__)
    parser.add_argument("files", type=Path, nargs="+", metavar="FILE", help="files that make one vocabulary together")
    forms = sorted(set(FORMATS.values()))
    parser.add_argument(
        "--form",
        choices=forms,
        default="",
        help="the form of the files, in place of that which their names show: " + ", ".join(FORMATS),
    )
    parser.add_argument(
        "--as-scope",
        type=names,
        default="",
        metavar="NAME,..",
        help="keep these notes as scope notes, such as definition,example",
    )
    parser.add_argument(
        "--own",
        action="store_true",
        help="keep definitions, notes, notations, sources and the places of collections as values of fields, which the "
        "desk has: lines that tools/load doesn't take",
    )
    parser.add_argument(
        "--journal", type=Path, metavar="FILE", help="a desk's journal: --own keeps values of its office's fields, too"
    )
    parser.add_argument(
        "--fetch", action="store_true", help="read what the files refer to, as a context of JSON-LD on another server"
    )
    add_converter_options(parser)
    given = parser.parse_args()
    if given.scheme and not given.lang:
        parser.error("--scheme needs --lang")
    return given


def given_fields(journal: Path | None) -> dict[str, Field]:
    """Returns the fields of a desk, or those that each desk has."""
    if journal is None:
        return STANDARD
    with open_journal(journal) as tables:
        return read_fields(tables)


def main() -> int:
    given = arguments()
    found = {triple for path in given.files for triple in read_triples(path, given.form, given.fetch)}
    triples = skos_of_mads(found)
    reader = SkosReader(values_of(triples), given, label_texts(triples), given_fields(given.journal))
    vocabulary = reader.read()
    nothing = f"{' '.join(map(str, given.files))}: nothing in it is a concept, a scheme or a collection of SKOS"
    if not reader.has_resources and (terms := count_mads_terms(found)):
        raise ToolError(f"{nothing}; of MADS/RDF it has {terms}", REFUSED)
    if not vocabulary.resources and not vocabulary.findings:
        raise ToolError(nothing, REFUSED)
    return write_script(vocabulary, given, "from-skos")


def command() -> None:
    """Runs it, and ends with its exit status."""
    run("from-skos", main)
