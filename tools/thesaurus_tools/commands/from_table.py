"""Turns a table that somebody filled in into changes of a thesaurus: concepts, translations, renames, moves, merges.

The table is CSV (commas, semicolons or tabs; UTF-8, UTF-16, or --encoding), ODS or XLSX. Its first row names the
columns as people call them: Begriff, Oberbegriff, Synonym (German), NT, scope note, pref@fr. What each is taken for is
printed, and --columns corrects it.

  number,term,pref@fr
  3,Violins,Violons

  tools/from-table to-translate.csv --db museum.db --translations --dry
  tools/from-table to-translate.csv --db museum.db --translations > new.jsonl
  tools/from-table to-translate.csv --db museum.db --translations --perform --keep-going --rejected rest.csv

The first command prints in words what each row would do, tried on a copy. The second writes a script for tools/load.
The third performs the rows, and writes those that are refused to a table again, with the reasons.

A concept is named by its number, IRI, old code (a hidden label) or a term. What a row asks for is said by the kind of
the table, or by its column do: new, change, translate, rename, move, merge, deprecate, post, withdraw, split. What is
there already is left as it is, so a table can be sent again. Rows may be in any order: a concept is made before those
that name it. Rows that exchange terms are done together. | parts several values of a cell.

Exit status: 0 done, 1 a row was refused (without --keep-going nothing is written), 2 usage, or FILE is no table, 3 a
fault."""
from __future__ import annotations

import argparse
import tempfile
from functools import partial
from pathlib import Path

from thesaurus_tools.command_line import DONE, REFUSED, language, natural, parser_of, run, say
from thesaurus_tools.drafts import Draft, Reference
from thesaurus_tools.files import write_output
from thesaurus_tools.fields import STANDARD
from thesaurus_tools.headings import LEFT_OUT, UNKNOWN, Column, column_by_field, find_columns, read_choices
from thesaurus_tools.limits import add_limit_options, limit_words
from thesaurus_tools.store_options import add_store_arguments, open_store
from thesaurus_tools.program import Performer, Script, copy_closed, find_program
from thesaurus_tools.requests import encode
from thesaurus_tools.row_runner import RowPlan, RowRunner, run_rows, with_others
from thesaurus_tools.table_messages import sentence_of
from thesaurus_tools.spreadsheets import Row, read_table
from thesaurus_tools.table_plans import KINDS, TableOptions, plan_table
from thesaurus_tools.table_writer import table_text

TOOL = "from-table"
KIND_OPTIONS = ("--new", "--translations", "--renames", "--moves", "--merges", "--postings", "--splits")
# The most refused rows that are listed.
SHOWN = 20


def say_columns(columns: list[Column]) -> None:
    """Reports what each column was taken for."""
    for it in columns:
        say(TOOL, f"column {it.heading or 'without a heading'}: {taken_for(it)}")


def taken_for(column: Column) -> str:
    """Returns what a column was taken for, in words."""
    if column.role == UNKNOWN and column_by_field(column.heading, "en", STANDARD):
        return "left out: a desk keeps such values, and takes the table on its page Import"
    if column.role == UNKNOWN:
        return "not understood, and left out: --columns says what it holds"
    if column.role == LEFT_OUT:
        return "left out"
    if column.role == "seen":
        return "left out: on a desk's page Import such rows say exactly what there is to be"
    return "a term, only compared" if column.role == "pref" and not column.tag else str(column)


def term_of(now: Draft, after: Draft, concept: Reference) -> str:
    """Returns the term that a concept has now, or after the table, which makes it."""
    return (now if concept in now.store.resources else after).term(concept)


def show(plan: RowPlan, words: dict[int, list[str]]) -> None:
    """Prints what came of a row, in words."""
    if plan.reason:
        print(f"{plan.line}: refused: {plan.reason}")
    for it in [] if plan.reason else words[plan.line]:
        print(f"{plan.line}: {it}")
    if plan.by and not plan.changes and not plan.reason:
        print(f"{plan.line}: done by row {plan.by}")


def write_rejected(given: argparse.Namespace, heading: Row, plans: list[RowPlan]) -> None:
    """Writes the refused rows as a table again, with a column of reasons."""
    rows = [[*heading.cells, "reason"], *([*it.cells, it.reason] for it in plans if it.reason)]
    write_output(table_text(rows, given.excel).encode(), given.rejected)


def open_performer(given: argparse.Namespace, folder: str) -> Performer:
    """Opens what performs the rows: the store, or with --dry a copy of it."""
    if given.http:
        from thesaurus_tools.server import Server  # (the tool starts faster without what talks HTTP)

        return Server(given.http)
    path = given.db
    if given.dry:
        path = Path(folder, "copy.db")
        copy_closed(given.db, path)
    return Script(find_program(given.program), path, limit_words(given)).open()


def perform(given: argparse.Namespace, plans: list[RowPlan], words: dict[int, list[str]]) -> list[RowPlan]:
    """Performs the rows, prints what comes of each, and returns them with the reasons of refusals."""
    done = []
    with tempfile.TemporaryDirectory() as folder:
        performer = open_performer(given, folder)
        try:
            for plan in run_rows(RowRunner(performer), plans, given.keep_going or given.dry):
                show(plan, words)
                done.append(plan)
        finally:
            performer.close()
    return sorted(done, key=lambda it: it.line)


def convert(given: argparse.Namespace) -> int:
    """Reads the table, writes or performs its requests, and returns the exit status."""
    heading, *rows = read_table(given.file, given.encoding, given.sheet)
    columns = find_columns(heading.cells, given.lang or "", read_choices(given.columns))
    say_columns(columns)
    with open_store(given) as store:
        kind, lang = given.kind or "", given.lang or ""
        options = TableOptions(kind, lang, given.scheme, given.forget, given.replace, exact=False)
        draft, plans = plan_table(store, columns, rows, options)
        now = Draft(store, draft.langs)
        words = {plan.line: [sentence_of(it, partial(term_of, now, draft)) for it in plan.changes] for plan in plans}
    unreadable = [it for it in plans if it.reason]
    if given.dry and given.http:
        for plan in plans:
            show(plan, words)
    elif given.dry or given.perform and (given.keep_going or not unreadable):
        plans = perform(given, plans, words)
    elif given.keep_going or not unreadable:
        in_turn = [it for rows in with_others(plans) for it in rows[-1].requests]
        write_output(b"".join(map(encode, in_turn)), given.output)
    return report(given, heading, plans)


def report(given: argparse.Namespace, heading: Row, plans: list[RowPlan]) -> int:
    """Reports how many rows change something and which were refused, and returns the exit status."""
    refused = [it for it in plans if it.reason]
    if not (given.dry or given.perform and given.keep_going):
        for it in refused[:SHOWN]:
            say(TOOL, f"{given.file}:{it.line}: {it.reason}")
        if len(refused) > SHOWN:
            say(TOOL, f"and {len(refused) - SHOWN} more rows; --rejected FILE has them all")
    if given.rejected and not given.dry:
        write_rejected(given, heading, plans)
    changing = sum(it.does_something and not it.reason for it in plans)
    left = (
        ""
        if given.keep_going or given.dry or not refused
        else "; nothing is written, and --keep-going would leave these out"
    )
    tried = (
        " on a copy, of which nothing is kept"
        if given.dry and given.db
        else " (not tried: --dry tries on a file)"
        if given.dry
        else ""
    )
    say(
        TOOL,
        f"{len(plans)} rows: {changing} change something{tried}, {len(refused)} refused{'' if given.perform else left}",
    )
    return REFUSED if refused else DONE


def arguments() -> argparse.Namespace:
    parser = parser_of(TOOL, __doc__)
    add = parser.add_argument
    add("file", type=Path, metavar="FILE", help="the table: CSV, ODS or XLSX")
    add_store_arguments(parser)
    kinds = parser.add_mutually_exclusive_group()
    for option in KIND_OPTIONS:
        deed, about = KINDS[option.removeprefix("--")]
        kinds.add_argument(option, dest="kind", action="store_const", const=deed, help=about)
    add("--lang", metavar="TAG", type=language, help="the language of terms whose column names none")
    add("--scheme", type=natural, metavar="N", help="the scheme of new concepts; the only one, if there is one")
    add(
        "--columns",
        default="",
        metavar="MAP",
        help="what columns hold: Begriff=pref@de,Oberbegriff=broader; or a file of such lines",
    )
    add(
        "--encoding",
        default="",
        metavar="NAME",
        help="the encoding of CSV that isn't UTF-8 or UTF-16: cp1252 (that of Windows in the West), latin-1",
    )
    add("--sheet", default="", metavar="NAME", help="the sheet of an ODS or XLSX file (the first)")
    add("--forget", action="store_true", help="renames don't keep the old term as a non-preferred one")
    add(
        "--replace",
        action="store_true",
        help="changed rows: a filled cell replaces the terms, or the note, of its kind",
    )
    add(
        "--dry",
        action="store_true",
        help="print in words what each row would do, tried on a copy of FILE, and keep nothing",
    )
    add("--perform", action="store_true", help="perform the rows now, in place of writing a script")
    add("--keep-going", action="store_true", help="leave out refused rows")
    add(
        "--rejected",
        type=Path,
        metavar="FILE",
        help="write refused rows to this file, as a table with a column of reasons",
    )
    add("--excel", action="store_true", help="write these for Excel: semicolons, and a mark that says UTF-8")
    add("-o", "--output", type=Path, metavar="FILE", help="write the script to this file, and not to standard output")
    add("--program", metavar="PATH", help="the program; otherwise `thesaurus` in PATH, or the repository's")
    add_limit_options(parser)
    given = parser.parse_args()
    if given.dry and given.perform:
        parser.error("--dry and --perform exclude each other")
    if given.desk and (given.dry or given.perform):
        parser.error(
            "a running desk tries and performs tables on its own page: --dry and --perform need --db or --http"
        )
    return given


def command() -> None:
    """Runs it, and ends with its exit status."""
    run(TOOL, lambda: convert(arguments()))
