"""Answers questions about a thesaurus: what is where, what is lacking, what has changed.

It reads a store that no program has open, a copy of one (--db), that of a desk that runs (--desk), or what a program
serves (--http), and changes nothing.
A report is a table with a heading, in columns or as CSV. Options may come before the report's name or after it.

Examples:
  tools/report --db museum.db find geige
  tools/report --db museum.db missing --lang fr --csv > to-translate.csv
  tools/report --desk museum.db find geige
  tools/report --desk museum.db missing --kind definition --lang en --csv
  tools/report --http http://127.0.0.1:8080 path 7
  tools/report --db museum.db changed --since backup/museum.db

Exit status: 0 done, 1 refused (as a number that no concept has), 2 usage, 3 a fault (as a store that can't be read).
"""
from __future__ import annotations

import argparse
import sys
import unicodedata
from collections.abc import Callable
from pathlib import Path
from typing import Any

from thesaurus_tools.command_line import DONE, language, natural, parser_of, run
from thesaurus_tools.files import write_output
from thesaurus_tools.store_options import add_journal_argument, add_store_arguments, open_store
from thesaurus_tools.reports import REPORTS, Table
from thesaurus_tools.table_writer import RAW, table_text


def width(text: str) -> int:
    """Returns how many columns a text takes on a terminal."""
    if text.isascii():
        return len(text)
    wide = sum(unicodedata.east_asian_width(it) in "WF" for it in text)
    return len(text) + wide - sum(bool(unicodedata.combining(it)) for it in text)


def in_columns(table: Table) -> str:
    """Returns a table in columns that are as wide as their widest cells."""
    lines = [[str(cell) if cell is not None else "" for cell in row] for row in (table.columns, *table.rows)]
    widths = [max(map(width, cells)) for cells in zip(*lines)]
    padded = ((cell + " " * (most - width(cell)) for cell, most in zip(line, widths)) for line in lines)
    return "".join(f"{'  '.join(it).rstrip()}\n" for it in padded)


def add_options(parser: argparse.ArgumentParser, default: Any = None) -> None:
    """Adds the options that all reports have."""
    add_store_arguments(parser, default)
    add_journal_argument(parser, default)
    parser.add_argument("--csv", action="store_true", default=default or False, help="print comma-separated values")
    parser.add_argument(
        "--excel", action="store_true", default=default or False, help="CSV for Excel: semicolons, a mark for UTF-8"
    )
    parser.add_argument("--raw", action="store_true", default=default or False, help=RAW)
    parser.add_argument("-o", "--output", type=Path, metavar="FILE", default=default, help="write to this file")


def add_report(commands: Any, report: Callable) -> argparse.ArgumentParser:
    """Adds the parser of a report."""
    about = (report.__doc__ or "").rstrip(".")
    parser = commands.add_parser(report.__name__, help=about[0].lower() + about[1:], description=report.__doc__)
    parser.set_defaults(report=report)
    add_options(parser, argparse.SUPPRESS)
    return parser


def arguments() -> argparse.Namespace:
    parser = parser_of("report", __doc__)
    add_options(parser)
    commands = parser.add_subparsers(metavar="REPORT", required=True)
    add = {it.__name__: add_report(commands, it).add_argument for it in REPORTS}
    add["find"]("text", metavar="TEXT")
    add["find"]("--lang", metavar="TAG", type=language, help="only labels in this language")
    add["find"](
        "--kinds",
        metavar="KIND,..",
        type=lambda text: text.split(","),
        help="of pref, alt, hidden, scope (notes), and the fields of a desk, as definition; all if left out",
    )
    add["missing"]("--lang", metavar="TAG", type=language, help="the language; a notation has none")
    add["missing"](
        "--kind",
        metavar="KIND",
        default="pref",
        help="another kind of label, scope (notes), or a field of a desk, as definition or notation",
    )
    for name in ("path", "below", "records", "moves"):
        add[name]("number", metavar="N", type=natural)
    add["path"]("--most", metavar="WAYS", type=natural, default=1000, help="show no more ways (1000 if left out)")
    add["below"]("--depth", metavar="STEPS", type=natural, default=sys.maxsize, help="go no further down")
    add["duplicates"]("--accents", action="store_true", help="labels may differ in accents, too")
    add["counts"]("--concepts", action="store_true", help="postings at each concept, and with all below it")
    add["record"]("name", metavar="NAME")
    add["record"]("--part", action="store_true", help="records that contain NAME, whatever the case and accents")
    add["records"]("--below", action="store_true", help="also the postings at concepts below it")
    add["moves"]("--concept", action="store_true", help="N is a concept, and not a posting")
    add["changed"]("--since", metavar="COPY", type=Path, required=True, help="an earlier copy of the store")
    return parser.parse_args()


def main() -> int:
    given = arguments()
    with open_store(given) as store:
        table = given.report(store, given)
        if given.csv or given.excel:
            rows = ([str(cell) if cell is not None else "" for cell in row] for row in (table.columns, *table.rows))
            text = table_text(rows, given.excel, given.raw)
        else:
            text = in_columns(table)
        write_output(text.encode(), given.output)
    return DONE


def command() -> None:
    """Runs it, and ends with its exit status."""
    run("report", main)
