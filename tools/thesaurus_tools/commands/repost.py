"""Prints the script that moves wrongly assigned postings to another concept, for a look before it is loaded.

Each posting is made anew at the right concept, with its key and a number behind it as the new key, and the old one is
withdrawn: that leaves the vocabulary as it is. With --keep-key postings keep their keys and numbers, and their moves
show what was done; but that takes a split and a merge, which leave a dead concept behind. With tools/load --as-one all
is done or nothing, of up to 128 requests.

Examples:
  tools/repost --db museum.db --posting 3 --to 11 > right.jsonl
  tools/repost --db museum.db --record "Pedal harp, Paris 1785" --at 3 --to 5 --keep-key > right.jsonl
  tools/repost --db museum.db --all --at 3 --below --to 5 > right.jsonl
  tools/repost --db museum.db --records harps.csv --at 3 --to 5 > right.jsonl
  tools/load --db museum.db --as-one right.jsonl

Exit status: 0 done, 1 refused (as a posting that is withdrawn), 2 usage, 3 a fault.
"""
from __future__ import annotations

import argparse
import itertools
from collections import defaultdict
from collections.abc import Iterator
from pathlib import Path

from thesaurus_tools.command_line import DONE, REFUSED, USAGE, ToolError, parser_of, run, say
from thesaurus_tools.files import read_cells
from thesaurus_tools.formulas import remove_guard
from thesaurus_tools.store_options import add_store_arguments, open_store
from thesaurus_tools.reports import walk_down
from thesaurus_tools.requests import print_requests
from thesaurus_tools.store import Posting, Store

LONGEST_KEY = 64
# The language tag of the label that a concept of a split has, as long as it is needed.
TAG = "x-repost"


def remark(text: str) -> None:
    """Reports what stays behind."""
    say("repost", text)


def record_names(given: argparse.Namespace) -> set[str]:
    """Returns the records that the options name: one, or those of a table with a column `record`."""
    if not given.records:
        return {given.record} if given.record else set()
    rows = read_cells(given.records)
    heading = [it.strip() for it in next(rows, (1, []))[1]]
    if heading.count("record") != 1:
        raise ToolError(f"{given.records}:1: no single column record; the first row names the columns", REFUSED)
    return {remove_guard(cells[heading.index("record")]) for _, cells in rows}


def places_of(store: Store, given: argparse.Namespace) -> set[int]:
    """Returns the concepts where the postings are: the one of --at, or with --below its branch, but for the target."""
    if not given.below:
        return {given.at} if given.at else set()
    store.live_concept(given.at)
    return {it for _, it in walk_down(store, given.at)} - {given.to}


def choose(store: Store, given: argparse.Namespace) -> list[Posting]:
    """Returns the postings to move. Raises ToolError for one that can't be moved."""
    numbers, names, places = set(given.posting), record_names(given), places_of(store, given)
    found = [
        it
        for it in store.each_posting()
        if it.number in numbers or it.place in places and not it.is_withdrawn and (given.all or it.record in names)
    ]
    missing = numbers - {it.number for it in found}
    lacking = sorted(names - {it.record for it in found})
    if lacking and given.records:
        more = f" (and {len(lacking) - 1} more)" if lacking[1:] else ""
        raise ToolError(f"{store.name}: no posting of this record is at {given.at}: {lacking[0]}{more}", REFUSED)
    if missing or not found:
        what = (
            f"posting has the number {min(missing)}"
            if missing
            else f"posting is at {given.at}"
            if given.all
            else f"posting of this record is at {given.at}: {given.record}"
        )
        raise ToolError(f"{store.name}: no {what}", REFUSED)
    for it in found:
        if it.is_withdrawn or it.place == given.to:
            state = "is withdrawn" if it.is_withdrawn else f"is at {given.to} already"
            raise ToolError(f"{store.name}: posting {it.number} {state}", REFUSED)
    return found


def free_key(key: str, keys: set[str]) -> str:
    """Returns a key that isn't in use, and notes it: the old one with the first number that makes it new."""
    made = next(it for it in (f"{key}.{number}" for number in itertools.count(2)) if it not in keys)
    if len(made) > LONGEST_KEY:
        raise ToolError(f"the key {made} has more than {LONGEST_KEY} characters: use --keep-key", REFUSED)
    keys.add(made)
    return made


def post_anew(store: Store, postings: list[Posting], to: int) -> Iterator[dict]:
    """Yields the requests that post each record at the right concept, and withdraw the wrong posting."""
    keys: set[str] = set()
    there: dict[str, str] = {}
    for it in store.each_posting():
        keys.add(it.key)
        if it.place == to and not it.is_withdrawn:
            there[it.record] = f"posting {it.number}"
    for it in postings:
        if it.record in there:
            remark(
                (
                    f"the record of posting {it.number} is at {to} already, as "
                    f"{there[it.record]}, so it's only withdrawn"
                )
            )
        else:
            key = free_key(it.key, keys)
            there[it.record] = f"posting {key} of this script"
            yield {"do": "post", "key": key, "record": it.record, "concept": to}
        yield {"do": "withdraw", "posting": it.number}
        remark(f"posting {it.number} stays as a withdrawn one, and keeps its key {it.key}")


def move(store: Store, postings: list[Posting], to: int) -> Iterator[dict]:
    """Yields the requests that split the postings from their concepts, and merge what was split off into the right
    concept."""
    places = defaultdict(list)
    for it in postings:
        places[it.place].append(it.number)
    for place, numbers in sorted(places.items()):
        if store.resources[place].scheme != store.resources[to].scheme:
            raise ToolError(f"{store.name}: {place} and {to} are of two schemes: leave out --keep-key", REFUSED)
        label = {"tag": TAG, "text": f"Postings moved from {place} to {to}"}
        yield {"as": f"from{place}", "do": "split", "source": place, **label, "postings": numbers}
        yield {"do": "merge", "source": f"$from{place}", "target": to}
        yield {"do": "dropLabel", "owner": to, "kind": "alt", **label}
        remark(
            (
                f"a dead concept stays, which {to} replaces; if the postings are sent again with the "
                f"number {place}, they stay at {to}"
            )
        )


def main() -> int:
    parser = parser_of("repost", __doc__)
    add_store_arguments(parser)
    parser.add_argument(
        "--posting",
        metavar="N",
        type=int,
        action="append",
        default=[],
        help="the number of a posting (may be given several times)",
    )
    parser.add_argument("--record", metavar="NAME", help="the postings of this record at the concept that --at names")
    parser.add_argument(
        "--records",
        metavar="FILE",
        help="the postings of these records at --at: a table with a column record, in CSV, ODS or XLSX",
    )
    parser.add_argument("--all", action="store_true", help="all postings at the concept that --at names")
    parser.add_argument("--at", metavar="N", type=int, help="the concept where the records are wrongly posted")
    parser.add_argument("--below", action="store_true", help="also the postings at all concepts below that of --at")
    parser.add_argument("--to", metavar="N", type=int, required=True, help="the concept where it belongs")
    parser.add_argument(
        "-o", "--output", type=Path, metavar="FILE", help="write to this file, and not to standard output"
    )
    parser.add_argument("--keep-key", action="store_true", help="move the postings themselves, by a split and a merge")
    given = parser.parse_args()
    ways = [bool(it) for it in (given.posting, given.record, given.records, given.all)]
    if sum(ways) != 1 or bool(given.posting) == bool(given.at) or given.below and not given.at:
        raise ToolError("give --posting N, or --record NAME with --at N, or --records FILE or --all with it", USAGE)
    with open_store(given) as store:
        store.live_concept(given.to)
        requests = list((move if given.keep_key else post_anew)(store, choose(store, given), given.to))
    print_requests(requests, given.output)
    return DONE


def command() -> None:
    """Runs it, and ends with its exit status."""
    run("repost", main)
