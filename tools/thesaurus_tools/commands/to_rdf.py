"""Writes a thesaurus, a scheme or a branch as Turtle, RDF/XML, JSON-LD or N-Triples, or what has changed in it.

Subjects are in the order of their numbers, properties and values in a fixed order, so that two files can be compared
line by line. SKOS has no types of broader terms: --types adds them in the words of ISO-THES, from a store. --journal
adds what a desk keeps beside the store: definitions, notes and notations, and when it made and changed what there is;
and leaves out candidates. --desk does both.

  tools/to-rdf museum.nt > museum.ttl
  tools/to-rdf --db museum.db --below 2 --types --format jsonld -o strings.jsonld
  tools/to-rdf --db museum.db --journal museum-desk.sqlite -o museum.ttl
  tools/to-rdf --db museum.db --since backup/museum.db > changes.ru
  tools/to-rdf --desk museum.db > museum.ttl
  tools/to-rdf museum.nt --words madsrdf --format rdfxml > museum.rdf

With --since the output is a SPARQL Update that makes the older triples the newer ones, or with --format ntriples lines
of N-Triples with + or - before each.

Exit status: 0 done, 1 refused (as a scheme that isn't there), 2 usage, 3 a fault."""
from __future__ import annotations

import argparse
from collections import Counter
from pathlib import Path

from thesaurus_tools.arrays import list_owner
from thesaurus_tools.command_line import DONE, natural, parser_of, run, say
from thesaurus_tools.desk_triples import journal_triples
from thesaurus_tools.desk_values import hidden_concepts, journal_of, open_journal
from thesaurus_tools.triple_export import (
    WORDS,
    base_of,
    check_same_base,
    choose_branch,
    choose_scheme,
    read_triples,
    served_triples,
    type_triples,
)
from thesaurus_tools.desk_socket import copy_of
from thesaurus_tools.files import write_output
from thesaurus_tools.ntriples import Iri, Triple
from thesaurus_tools.public_triples import public_triples
from thesaurus_tools.rdf_writer import WRITERS, ntriple, triple_order, write_rdfxml
from thesaurus_tools.term_dates import date_triples, read_term_dates
from thesaurus_tools.xml_texts import said_of

TOOL = "to-rdf"
# The words that have labels as resources.
XL = "skos-xl"


def arguments() -> argparse.Namespace:
    parser = parser_of(TOOL, __doc__)
    add = parser.add_argument
    add("export", type=Path, nargs="?", metavar="EXPORT", help="an export of the program (N-Triples)")
    add("--db", type=Path, metavar="FILE", help="a store; no program may have it open")
    add("--desk", type=Path, metavar="FILE", help="the store of a desk that runs on this machine")
    add("--http", metavar="URL", help="a program that serves the store, as http://127.0.0.1:8080")
    add("--format", choices=sorted(WRITERS), default="", help="turtle, unless --since is given")
    add("--words", choices=sorted(WORDS), help="labels as resources beside those of SKOS, or MADS/RDF in its place")
    only = parser.add_mutually_exclusive_group()
    only.add_argument("--scheme", type=natural, metavar="N", help="only a scheme and what belongs to it")
    only.add_argument("--below", type=natural, metavar="N", help="only a concept and all below it")
    add("--types", action="store_true", help="the types of hierarchical links, in the words of ISO-THES")
    add(
        "--journal",
        type=Path,
        metavar="FILE",
        help="the journal of a desk: definitions, notes, notations, dct:created, creator and modified",
    )
    add("--since", type=Path, metavar="BACKUP", help="only what has changed since an older store or export")
    add("-o", "--output", type=Path, metavar="FILE", help="write to this file, and not to standard output")
    add("--program", metavar="PATH", help="the program; otherwise `thesaurus` in PATH, or the repository's")
    given = parser.parse_args()
    if sum(map(bool, (given.export, given.db, given.desk, given.http))) != 1:
        parser.error("one of EXPORT, --db, --desk and --http is needed")
    if given.types and given.export:
        parser.error("--types needs --db, --desk or --http: an export has no types")
    if given.since and given.words:
        parser.error("--since compares SKOS")
    if given.since and given.format not in ("", "ntriples"):
        parser.error("--since writes a SPARQL Update, or N-Triples")
    return given


def triples_of(given: argparse.Namespace) -> list[Triple]:
    """Returns the triples of the thesaurus that the options name."""
    triples = served_triples(given.http) if given.http else read_triples(given.db or given.export, given.program)
    triples += type_triples(given.db or given.http) if given.types else []
    if given.journal:
        base = base_of(triples)
        with open_journal(given.journal) as tables:
            hidden = {Iri(f"{base}{it}") for it in hidden_concepts(tables)}
        triples = public_triples(triples, hidden)
        subjects = {it.subject for it in triples}
        more = public_triples(journal_triples(given.journal, base, triples), hidden)
        triples += [it for it in more if list_owner(it.subject) in subjects]
    return triples


def changes(given: argparse.Namespace, now: list[Triple], base: str) -> str:
    """Returns what leads from the older triples to the newer ones."""
    then = read_triples(given.since, given.program) + (type_triples(given.since) if given.types else [])
    check_same_base(base_of(then), base)
    then, now = choose(given, then, base, is_older=True), choose(given, now, base)
    gone = sorted(set(then) - set(now), key=triple_order)
    come = sorted(set(now) - set(then), key=triple_order)
    say(TOOL, f"{len(gone)} triples to remove, {len(come)} to add")
    if given.format == "ntriples":
        return "".join(f"{sign} {ntriple(it)}\n" for sign, them in (("-", gone), ("+", come)) for it in them)
    parts = [
        f"{what} DATA {{\n" + "".join(f"{ntriple(it)}\n" for it in them) + "}"
        for what, them in (("DELETE", gone), ("INSERT", come))
        if them
    ]
    return " ;\n".join(parts) + ("\n" if parts else "")


def choose(given: argparse.Namespace, triples: list[Triple], base: str, is_older: bool = False) -> list[Triple]:
    """Returns the triples about what the options choose."""
    number = given.scheme or given.below
    if is_older and number and Iri(f"{base}{number}") not in {it.subject for it in triples}:
        return []  # (it is new)
    if given.scheme:
        return choose_scheme(triples, base, given.scheme)
    return choose_branch(triples, base, given.below) if given.below else triples


def main() -> int:
    given = arguments()
    if not given.desk:
        return write(given)
    with copy_of(given.desk, with_journal=True) as given.db:
        beside = journal_of(given.db)
        given.journal = given.journal or (beside if beside.is_file() else None)
        return write(given)


def write(given: argparse.Namespace) -> int:
    """Writes what the options ask for, and returns the exit status."""
    triples = triples_of(given)
    base, no_xml = base_of(triples), Counter[str]()
    if given.since:
        text = changes(given, triples, base)
    else:
        chosen = choose(given, triples, base)
        dates = read_term_dates(given.journal) if given.journal and given.words == XL else {}
        dated = list(date_triples(chosen, base, dates))
        chosen = [*WORDS[given.words](chosen), *dated] if given.words else chosen
        is_xml = given.format == "rdfxml"
        written = write_rdfxml(chosen, base, no_xml) if is_xml else WRITERS[given.format or "turtle"](chosen, base)
        text = "".join(written)
    write_output(text.encode(), given.output)
    if no_xml:
        say(TOOL, said_of(no_xml))
    return DONE


def command() -> None:
    """Runs it, and ends with its exit status."""
    run(TOOL, main)
