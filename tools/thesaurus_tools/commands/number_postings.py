"""Turns a posting file that names concepts by their old codes, IRIs or terms into one with numbers, which `thesaurus
import` takes.

It is CSV (commas, semicolons or tabs), ODS or XLSX, and its first row names the columns. `record` and `concept` are
needed; other columns but `key` are left out:

  record,concept
  "Pedal harp, Paris 1785",http://old.example/harps
  "Violin, Mittenwald, about 1780",V17

  tools/number-postings old.csv --db museum.db > postings.csv
  thesaurus --db museum.db --existing import postings.csv

A concept is found by the names that tools/load wrote (--names; run again with its journal, it writes them later, too);
by the old IRI, if that is an exact match (tools/from-skos --keep-iris); by the code, if that is a hidden label
(--hidden-codes); and with --terms by its preferred label. Without a column `key` a row's key is made of its record and
its concept, so that a row counts once, however often it is sent. A row that is in the store already keeps the number
that it was posted with, also after a merge.

What isn't found, or is found at several concepts, is reported with its first row. With --drop these rows are left out;
otherwise nothing is written, and the status is 1.

Exit status: 0 done, 1 refused, 2 usage, 3 a fault."""
from __future__ import annotations

import argparse
import contextlib
import csv
import hashlib
import io
from collections import defaultdict
from collections.abc import Iterator
from pathlib import Path

from thesaurus_tools.command_line import DONE, REFUSED, ToolError, language, parser_of, run, say
from thesaurus_tools.files import read_cells, write_output
from thesaurus_tools.store_options import add_store_arguments, open_store
from thesaurus_tools.store import Store

COLUMNS = ("key", "record", "concept")
SHOWN = 10


def read_postings(path: Path) -> Iterator[tuple[int, str, str, str]]:
    """Yields the line of each row, its key ("" if there is no such column), its record and its concept."""
    rows = read_cells(path)
    columns = [it.strip() for it in next(rows, (1, []))[1]]
    lacking = [it for it in COLUMNS[1:] if columns.count(it) != 1] + [it for it in COLUMNS[:1] if columns.count(it) > 1]
    if lacking:
        raise ToolError(f"{path}:1: no single column {lacking[0]}; the first row names the columns", REFUSED)
    left_out = [it for it in columns if it not in COLUMNS]
    if left_out:
        say("number-postings", f"columns left out: {', '.join(left_out)}")
    at = [columns.index(it) if it in columns else None for it in COLUMNS]
    for line, cells in rows:
        key, record, concept = ("" if it is None or it >= len(cells) else cells[it] for it in at)
        yield line, key.strip(), record, concept.strip()


def read_names(path: Path) -> dict[str, int]:
    """Returns the numbers of names, as tools/load --names wrote them."""
    rows = [cells for _, cells in read_cells(path)]
    if rows[:1] != [["name", "number"]] or not all(len(it) == 2 and it[1].isdecimal() for it in rows[1:]):
        raise ToolError(f"{path}: not a file that tools/load --names wrote", REFUSED)
    return {name: int(number) for name, number in rows[1:]}


class Finder:
    """Finds concepts by what a catalogue calls them."""

    def __init__(self, names: dict[str, int]):
        self.names = names
        self.store: Store | None = None
        self.numbers: dict[str, set[int]] = defaultdict(set)
        self.firsts: dict[tuple[str, str], int] = {}

    def read(self, store: Store, given: argparse.Namespace) -> None:
        """Notes the concepts of a store, and the postings that it has."""
        self.store = store
        concepts = {
            it.number for it in store.resources.values() if it.kind == "concept" and given.scheme in (None, it.scheme)
        }
        self.read_terms(store, concepts, given.codes, given.terms)
        self.firsts = {(it.key, it.record): it.first for it in store.each_posting()}

    def read_terms(self, store: Store, concepts: set[int], codes: str, terms: str | None) -> None:
        """Notes old IRIs, codes and terms; a term only if it is no code."""
        for link in store.links:
            if link.kind == "exact" and isinstance(link.b, str) and isinstance(link.a, int) and link.a in concepts:
                self.numbers[link.b].add(link.a)
        by_kind = {
            kind: [it for it in store.labels if (it.kind, it.tag) == kind and it.owner in concepts]
            for kind in (("hidden", codes), ("pref", terms))
        }
        for labels in by_kind.values():
            known = set(self.numbers)
            for it in labels:
                if it.text not in known:
                    self.numbers[it.text].add(it.owner)

    def end(self, number: int) -> int | None:
        """Returns the live concept to which postings with a number go, or None."""
        return self.store.live_end(number) if self.store and number in self.store.resources else number

    def find(self, name: str) -> tuple[int | None, str]:
        """Returns the number of the concept with a name, or None and why there is none. Of several of which all but one
        were merged into that one, it is the one that was merged first."""
        if name in self.names:
            return self.names[name], ""
        found = self.numbers.get(name.removeprefix("<").removesuffix(">"), set())
        ends = {it: end for it in found if (end := self.end(it))}
        live = sorted(set(ends.values()))
        if self.store and len(live) == 1:
            return min(ends.keys() - {self.store.resources[it].replaced for it in ends}), ""
        if live:
            return None, f"the concepts {', '.join(map(str, live))} have it"
        return None, "only deprecated concepts have it" if found else "no concept has it"

    def number_of_row(self, key: str, record: str, number: int) -> int:
        """Returns the number for a row: that with which the posting is in the store, if it leads to the same
        concept."""
        first = self.firsts.get((key, record), number)
        return first if self.end(first) == self.end(number) else number


def key_of(record: str, concept: str) -> str:
    """Returns a key for a row that has none."""
    return hashlib.sha256(f"{record}\0{concept}".encode()).hexdigest()[:32]


def number_all(given: argparse.Namespace, finder: Finder) -> tuple[list[tuple[str, str, int]], int]:
    """Returns the rows with numbers, and how many have none, each name of which is reported."""
    rows, lacking, why = [], defaultdict(list), {}
    for line, key, record, concept in read_postings(given.file):
        number, why[concept] = finder.find(concept)
        if number is None:
            lacking[concept].append(line)
            continue
        key = key or key_of(record, concept)
        rows.append((key, record, finder.number_of_row(key, record, number)))
    for name, lines in list(lacking.items())[: None if given.all else SHOWN]:
        say(
            "number-postings",
            f"{given.file}:{lines[0]}: {name or 'no concept'}: {why[name]}"
            + (f" (and {len(lines) - 1} further rows)" if lines[1:] else ""),
        )
    if len(lacking) > SHOWN and not given.all:
        say("number-postings", f"and {len(lacking) - SHOWN} more names; --all lists them")
    return rows, sum(map(len, lacking.values()))


def arguments() -> argparse.Namespace:
    parser = parser_of("number-postings", __doc__)
    parser.add_argument("file", type=Path, metavar="FILE", help="the posting file: CSV in UTF-8 or UTF-16, ODS or XLSX")
    add_store_arguments(parser)
    parser.add_argument(
        "--names", type=Path, metavar="NAMES", help="the numbers of names, as tools/load --names NAMES wrote them"
    )
    parser.add_argument(
        "--hidden-codes",
        "--codes",
        dest="codes",
        default="zxx",
        metavar="TAG",
        type=language,
        help="the tag of the hidden labels that are codes (zxx)",
    )
    parser.add_argument("--terms", metavar="TAG", type=language, help="find preferred labels in this language, too")
    parser.add_argument("--scheme", type=int, metavar="N", help="find concepts of this scheme alone")
    parser.add_argument("--drop", action="store_true", help="leave out rows whose concept isn't found")
    parser.add_argument("--all", action="store_true", help="list all names that aren't found, and not the first ten")
    parser.add_argument(
        "-o", "--output", type=Path, metavar="FILE", help="write to this file, and not to standard output"
    )
    given = parser.parse_args()
    if not (given.names or given.db or given.http):
        parser.error("one of --names, --db and --http is needed, to find concepts")
    return given


def main() -> int:
    given = arguments()
    finder = Finder(read_names(given.names) if given.names else {})
    with open_store(given) if given.db or given.http else contextlib.nullcontext() as store:
        if store:
            finder.read(store, given)
        rows, lacking = number_all(given, finder)
    if lacking:
        refused = "have no concept; nothing is written, and --drop would leave them out"
        say("number-postings", f"{lacking} rows {'are left out' if given.drop else refused}")
        if not given.drop:
            return REFUSED
    out = io.StringIO()
    csv.writer(out, lineterminator="\n").writerows([COLUMNS, *rows])
    write_output(out.getvalue().encode(), given.output)
    return DONE


def command() -> None:
    """Runs it, and ends with its exit status."""
    run("number-postings", main)
