"""Writes the live concepts of a thesaurus or a scheme as ISO 25964-1 (XML), by the names of the standard's data model.

It has terms in all languages, scope notes, types of hierarchical relationships, and, with --desk or --journal, what
everybody may see of a desk: notes and notations, arrays and groups, dates, and sources of terms; and no mappings.

  tools/to-iso25964 --db museum.db > museum.xml

Exit status: 0 done, 1 refused (as a scheme that isn't there), 2 usage, 3 a fault."""
from __future__ import annotations

import argparse
from pathlib import Path

from thesaurus_tools.command_line import REFUSED, ToolError, natural, parser_of, run
from thesaurus_tools.desk_triples import read_dates
from thesaurus_tools.desk_values import journal_of, open_journal
from thesaurus_tools.export_values import ExportFacts, read_facts
from thesaurus_tools.iso25964 import Iso25964Writer
from thesaurus_tools.store_options import add_journal_argument, add_store_arguments, open_store
from thesaurus_tools.store import Store
from thesaurus_tools.term_dates import Dates, read_term_dates
from thesaurus_tools.xml_texts import write_document

TOOL = "to-iso25964"


def arguments() -> argparse.Namespace:
    parser = parser_of(TOOL, __doc__)
    add_store_arguments(parser)
    add_journal_argument(parser)
    add = parser.add_argument
    add("--scheme", type=natural, metavar="N", help="only one scheme")
    add("-o", "--output", type=Path, metavar="FILE", help="write to this file, and not to standard output")
    return parser.parse_args()


def dates_of(given: argparse.Namespace, store: Store) -> tuple[ExportFacts, Dates]:
    """Returns the dates of resources and of terms, if the options name a journal."""
    beside = journal_of(Path(store.name)) if given.desk else None
    journal = given.journal or (beside if beside is not None and beside.is_file() else None)
    if journal is None:
        return ExportFacts(), {}
    with open_journal(journal) as tables:
        return read_facts(list(read_dates(tables, store.base)), store.base), read_term_dates(journal)


def main() -> int:
    given = arguments()
    with open_store(given) as store:
        if given.scheme and getattr(store.resources.get(given.scheme), "kind", "") != "scheme":
            raise ToolError(f"{store.name}: no scheme has the number {given.scheme}", REFUSED)
        concepts = [it for it in store.live_concepts() if given.scheme in (None, it.scheme)]
        writer = Iso25964Writer(store, *dates_of(given, store))
        text = writer.write(concepts)
    return write_document(TOOL, text, writer.lost, given.output)


def command() -> None:
    """Runs it, and ends with its exit status."""
    run(TOOL, main)
