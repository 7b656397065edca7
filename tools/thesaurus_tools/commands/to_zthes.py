"""Writes the live concepts of a thesaurus or a scheme as Zthes 1.0 (XML), for thesaurus programs.

A concept is a term (PT, or TT at the top) in the first of --langs that it has; it has a term of its own for each other
language (LE), and for each alternative label (ND, USE). With --desk or --journal its notes and notations are those that
everybody may see. Types of broader terms, hidden labels, mappings and collections aren't written.

  tools/to-zthes --db museum.db --langs en,de > museum.xml
  tools/from-skos museum.xml > again.jsonl

Exit status: 0 done, 1 refused (as a scheme that isn't there), 2 usage, 3 a fault."""
from __future__ import annotations

import argparse
from pathlib import Path

from thesaurus_tools.command_line import REFUSED, ToolError, natural, parser_of, run
from thesaurus_tools.store_options import add_journal_argument, add_store_arguments, open_store
from thesaurus_tools.xml_texts import write_document
from thesaurus_tools.zthes import ZthesWriter

TOOL = "to-zthes"


def arguments() -> argparse.Namespace:
    parser = parser_of(TOOL, __doc__)
    add_store_arguments(parser)
    add_journal_argument(parser)
    parser.add_argument("--scheme", type=natural, metavar="N", help="only the concepts of a scheme")
    parser.add_argument(
        "-o", "--output", type=Path, metavar="FILE", help="write to this file, and not to standard output"
    )
    return parser.parse_args()


def main() -> int:
    given = arguments()
    with open_store(given) as store:
        schemes = [number for number, it in sorted(store.resources.items()) if it.kind == "scheme"]
        if given.scheme and given.scheme not in schemes:
            raise ToolError(f"{store.name}: no scheme has the number {given.scheme}", REFUSED)
        chosen = [given.scheme] if given.scheme else schemes
        concepts = [it for it in store.live_concepts() if it.scheme in chosen]
        title = " · ".join(store.term(it, given.langs) for it in chosen)
        writer = ZthesWriter(store, given.langs or [store.main_language])
        text = writer.write(concepts, title)
    return write_document(TOOL, text, writer.lost, given.output)


def command() -> None:
    """Runs it, and ends with its exit status."""
    run(TOOL, main)
