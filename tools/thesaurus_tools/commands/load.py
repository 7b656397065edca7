"""Loads a script with names in place of numbers into a thesaurus, and goes on where an earlier run stopped.

A line is one request, as `thesaurus script` takes it, and may have a name for what it makes ("as"). A later line writes
"$NAME" in place of its number. Blank lines and lines that begin with # are skipped.

  {"as":"instruments","do":"scheme","tag":"en","text":"Musical instruments"}
  {"as":"harps","do":"concept","scheme":"$instruments","tag":"en","text":"Harps"}
  {"do":"addLabel","owner":"$harps","kind":"pref","tag":"de","text":"Harfen"}

  tools/load --db museum.db --journal museum.journal museum.jsonl

The run stops at the first refusal that --ok doesn't name: all lines before it are done, and none behind it. Correct
that line, and run the same command again with the same journal: lines that are done are skipped. The same holds after a
crash or a kill of this tool or of the program. With --as-one all lines are done or none, of at most 128.

Exit status: 0 done, 1 something was refused, 2 usage, 3 a fault: run it again with the same journal."""
from __future__ import annotations

import argparse
import contextlib
import csv
import shutil
import sys
import tempfile
from pathlib import Path

from thesaurus_tools.command_line import DONE, FAULT, REFUSED, ToolError, names, parser_of, run, say
from thesaurus_tools.files import read_file
from thesaurus_tools.journal import Journal, open_journal
from thesaurus_tools.limits import add_limit_options, limit_words
from thesaurus_tools.loader import Loader, say_refused
from thesaurus_tools.load_scripts import parse_script
from thesaurus_tools.one_plan import MOST_REQUESTS, OnePlan
from thesaurus_tools.program import Performer, Script, copy_closed, find_program


def arguments() -> argparse.Namespace:
    parser = parser_of("load", __doc__)
    parser.add_argument("script", metavar="SCRIPT", help="the script; - for standard input")
    parser.add_argument("--db", type=Path, metavar="FILE", help="the thesaurus")
    parser.add_argument("--base", metavar="IRI", help="what the IRIs of a new thesaurus begin with")
    parser.add_argument(
        "--http",
        metavar="URL",
        help="load over HTTP, into the thesaurus that is served there; the host may have user:password@ before it",
    )
    parser.add_argument(
        "--journal", type=Path, metavar="FILE", help="what was done, so that a later run goes on; one for each script"
    )
    parser.add_argument(
        "--ok",
        type=names,
        default="",
        metavar="NAME,..",
        help="refusals that are expected, such as LabelThere,LinkThere",
    )
    parser.add_argument(
        "--keep-going", action="store_true", help="go on after refusals; they are printed, and the status is 1"
    )
    parser.add_argument(
        "--dry", action="store_true", help="try the script on a copy of FILE, or on a store in memory, and keep nothing"
    )
    parser.add_argument("--as-one", action="store_true", help="do all lines, or none if one is refused")
    parser.add_argument("--names", type=Path, metavar="FILE", help="write the number of each name to this file, as CSV")
    parser.add_argument(
        "--program", metavar="PATH", help="the program; otherwise `thesaurus` in PATH, or the repository's"
    )
    add_limit_options(parser)
    given = parser.parse_args()
    if bool(given.db) + bool(given.http) != 1 and not (given.dry and not given.http):
        parser.error("one of --db and --http is needed")
    if given.http and (given.dry or given.base):
        parser.error("--dry and --base are for a file")
    if given.as_one and (given.journal or given.ok or given.keep_going):
        parser.error("--as-one excludes --journal, --ok and --keep-going")
    return given


def on_copies(given: argparse.Namespace, folder: str) -> argparse.Namespace:
    """Returns the arguments with copies of the store and the journal in place of these."""
    db, journal = given.db and Path(folder, "db"), given.journal and Path(folder, "journal")
    if given.db and given.db.exists():
        copy_closed(given.db, db)
    if given.journal and given.journal.exists():
        shutil.copyfile(given.journal, journal)
    return argparse.Namespace(**{**vars(given), "db": db, "journal": journal})


def write_names(path: Path, numbers: dict[str, int]) -> None:
    with path.open("w", encoding="utf-8", newline="") as file:
        csv.writer(file, lineterminator="\n").writerows([("name", "number"), *numbers.items()])


def open_target(given: argparse.Namespace) -> Performer:
    """Opens what performs the requests."""
    if given.http:
        from thesaurus_tools.server import Server  # (the tool starts faster without what talks HTTP)

        return Server(given.http)
    if given.db and not given.db.exists() and not (given.base or given.dry) and sys.stderr.isatty():
        say(
            "load",
            (
                f"{given.db} is new, and its IRIs will begin with https://thesaurus.example/id/ for good; "
                "--base gives another base"
            ),
        )
    options = [*(["--base", given.base] if given.base else []), *limit_words(given)]
    return Script(find_program(given.program), given.db, options, may_be_new=True).open()


def load(given: argparse.Namespace) -> int:
    """Loads the script, reports what was done of it, and returns the exit status."""
    data = sys.stdin.buffer.read() if given.script == "-" else read_file(given.script)
    if given.as_one:
        return load_as_one(data, given)
    parts = parse_script(data, given.script, has_blocks=True)
    journal = open_journal(given.journal) if given.journal else Journal()
    with contextlib.closing(open_target(given)) as target:
        loader = Loader(target, journal, parts, given)
        try:
            status = loader.run()
        finally:
            if given.names and not given.dry:
                write_names(given.names, loader.numbers)
    say("load", summary(loader))
    return status


def load_as_one(data: bytes, given: argparse.Namespace) -> int:
    """Performs the script as one plan, and returns the exit status."""
    lines = [it for part in parse_script(data, given.script) for it in part.lines()]
    if len(lines) > MOST_REQUESTS:
        raise ToolError(f"{given.script}: it has {len(lines)} requests, and --as-one takes {MOST_REQUESTS}", REFUSED)
    requests = [{**it.request, **({"as": it.name} if it.name else {})} for it in lines]
    numbers: dict[str, int] = {}
    with contextlib.closing(open_target(given)) as target:
        if not target.takes_plans():
            raise ToolError("the program has no plans, which --as-one needs" + ": serve --plans" * bool(given.http))
        place, answer = OnePlan(target, requests, numbers).perform()
    if given.names and not given.dry and not place:
        write_names(given.names, numbers)
    if place:
        say_refused(given.script, lines[place - 1], answer)
    say("load", f"{len(lines)} requests: {'none done' if place else f'{len(lines)} done as one'}{copy_note(given)}")
    return FAULT if "fault" in answer else REFUSED if place else DONE


def copy_note(given: argparse.Namespace) -> str:
    return " on a copy, of which nothing is kept" if given.dry else ""


def summary(loader: Loader) -> str:
    """Says how many requests were done and refused."""
    counts, count = loader.counts, loader.progress.count
    said = (
        ", ".join(f"{number} {what}" for what, number in counts.items() if what != "before" and number) or "none done"
    )
    said += copy_note(loader.given)
    said += f"; {counts['before']} were answered in earlier runs" if counts["before"] else ""
    return f"{count} requests: {said}"


def main() -> int:
    given = arguments()
    try:
        with tempfile.TemporaryDirectory() as folder:
            return load(on_copies(given, folder) if given.dry else given)
    except KeyboardInterrupt:
        raise ToolError(
            "it was interrupted; run it again with the same journal" if given.journal else "it was interrupted"
        ) from None


def command() -> None:
    """Runs it, and ends with its exit status."""
    run("load", main)
