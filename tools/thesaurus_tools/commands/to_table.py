"""Writes the concepts of a thesaurus, a scheme or a branch as a table with the columns that you choose.

tools/from-table reads such a table back: who gets it may add or change cells. Concepts are named by their preferred
terms in --lang where only one has it, or else by their numbers. | parts several values of a cell.

  tools/to-table --db museum.db --lang en --columns number,pref@en,pref@de,broader > museum.csv
  tools/to-table --db museum.db --lang en --columns number,pref@en,alt@fr --below 2 --excel -o strings.csv
  tools/from-table strings.csv --db museum.db --dry
  tools/to-table --desk museum.db --lang en --columns number,pref@en,notation,definition@en > museum.csv

Columns: number, iri, records (how many are indexed with it); pref, alt, hidden, scope, each with @ and a language tag;
broader (of any type), broaderGeneric, broaderPartitive, broaderInstantial, narrower, related, exact, close, broad,
narrow, relMatch, member (its collections); exactLabel, closeLabel, broadLabel, narrowLabel, relMatchLabel: what the
concepts that it is mapped to are called, as far as the desk of --desk or --journal knows that, for reading alone. With
--desk or --journal also what the desk keeps and everybody may see: definition, example, historyNote, each with @ and a
language tag, notation, or notation@ and the name of a code, source, and the office's fields by their names in tables;
texts are parted by a line that is | alone.

Exit status: 0 done, 1 refused (as a concept that isn't there), 2 usage, 3 a fault."""
from __future__ import annotations

import argparse
from pathlib import Path

from thesaurus_tools.command_line import DONE, language, natural, parser_of, run, say
from thesaurus_tools.files import write_output
from thesaurus_tools.store_options import add_journal_argument, add_store_arguments, open_store
from thesaurus_tools.reports import walk_down
from thesaurus_tools.store import Resource, Store
from thesaurus_tools.table_writer import RAW, TableWriter, read_column_names, table_text

TOOL = "to-table"


def arguments() -> argparse.Namespace:
    parser = parser_of(TOOL, __doc__)
    add = parser.add_argument
    add_store_arguments(parser)
    add_journal_argument(parser)
    add("--columns", required=True, metavar="NAME,..", type=str, help="the columns, in their order")
    add("--lang", metavar="TAG", type=language, help="the language of terms that name other concepts")
    only = parser.add_mutually_exclusive_group()
    only.add_argument("--scheme", type=natural, metavar="N", help="only the concepts of a scheme")
    only.add_argument("--below", type=natural, metavar="N", help="only a concept and all below it")
    add("--excel", action="store_true", help="for Excel: semicolons, and a mark that says UTF-8")
    add("--raw", action="store_true", help=RAW)
    add("-o", "--output", type=Path, metavar="FILE", help="write to this file, and not to standard output")
    return parser.parse_args()


def concepts_of(store: Store, given: argparse.Namespace) -> list[Resource]:
    """Returns the live concepts to write: all, those of a scheme, or those of a branch, from the top down."""
    if given.below:
        store.live_concept(given.below)
        return [store.resources[number] for _, number in walk_down(store, given.below)]
    return [it for it in store.live_concepts() if given.scheme in (None, it.scheme)]


def main() -> int:
    given = arguments()
    with open_store(given) as store:
        names = read_column_names(given.columns, store.fields)
        writer = TableWriter(store, names, given.lang or store.main_language)
        text = table_text(writer.rows(concepts_of(store, given)), given.excel, given.raw)
    write_output(text.encode(), given.output)
    for name, count in sorted(writer.lost.items()):
        if count:
            say(TOOL, f"{name}: {count} texts don't fit beside others in one cell, and are left out")
    return DONE


def command() -> None:
    """Runs it, and ends with its exit status."""
    run(TOOL, main)
