#!/usr/bin/env python3
"""Tries the wrong bodies of crates/NAME/wrong, each of which the prover must refuse.

A function's proof rests on its own body and on the contracts of what it calls, never on another function's body. So
the wrong bodies of a crate are tried in rounds: one body for each function, all in one check of just these functions,
in a copy of the repository. A body is refused when the check names an open goal of the very function that the edit
changes: one that search does not prove, or one that the function's proof file does not answer. All else is a fault of
the edit, which is reported, and fails the run: that the function is still proved, that it does not compile, that a
proof file names what the edit took away, or that the check names no open goal.

The file wrong/PATH.edits has the wrong bodies of src/PATH.rt. Each has a line '# NAME', perhaps a sentence on it, and
pairs of lines 'old: TEXT' and 'new: TEXT'. Each TEXT is one line or a part of it, and the old one is once in the
source, as the earlier pairs left it. The edit must change a function's body and still compile. A body may also have a
file of its own, wrong/NAME.edit, with a line 'file: src/PATH'. The check takes over what out/ holds of an earlier
check; without that, each crate is proved once first. With --proved the crates are known to be proved, as `rt ci` leaves
them, with their libraries in out/: then none is proved for this but the functions that edited ones call. With --control
a neutral edit takes the place of the wrong bodies of each function: one value becomes two cases with the same result.
Where that is refused, too, the proof rests on the function's shape, and the refusals of wrong bodies that change the
shape, by a branch or an exit, say little: tests/shape_bound.txt lists them, and dev/list-edits marks them. Run it
once in a while, with --shaped only over functions with such wrong bodies. If all wrong bodies of a crate are refused,
its line in the record tests/refused.txt gets a sum of what that rests on: the toolchain, the sources of the crate and
of those below it, and the bodies. As long as the sum stays, they aren't tried again but with --all. Commit the record
with the change.

Exit status: 0 if each wrong body is refused by an open goal, now or in the record; 1 if one is not, or cannot be
applied or read, or was not tried; 2 if nothing could be tried. With --lenient a body that no clause refuses is
reported, and so is one that was not tried because the time was over, and neither counts; one that is still proved
always does.

Examples:
  dev/refuse_bodies.py thes_graph                 the wrong bodies of one crate
  dev/refuse_bodies.py --dry                      only whether each edit can be applied
  dev/refuse_bodies.py --body merge thes_core     those whose names contain `merge`
  dev/refuse_bodies.py --control thes_core        neutral edits of the functions that have wrong bodies
  dev/refuse_bodies.py --control --shaped         only of those with wrong bodies of another shape, of all crates
"""
from __future__ import annotations

import argparse
import math
import os
import re
import sys
import time
from pathlib import Path

from wrong_bodies.edits import Edit, read_edits
from wrong_bodies.neutral import neutral_edits
from wrong_bodies.records import read_record, sum_of, write_shape_bound
from wrong_bodies.rounds import Outcome, Terms, try_crates

# What a run fails by that is lenient: a body that is proved, and one that was not tried.
PROVED = ("NOT REFUSED", "cannot be applied", "does not check as it is", "cannot be read")
# The memory of one check, in KiB.
CHECK_NEEDS = 3_000_000


def lanes_that_fit() -> int:
    """Returns the number of checks that fit at a time, by processors and free memory."""
    free = re.search(r"MemAvailable:\s+(\d+)", Path("/proc/meminfo").read_text(encoding="ascii"))
    return max(1, min(len(os.sched_getaffinity(0)), int(free[1] if free else 0) // CHECK_NEEDS))


def report(edits: dict[str, list[Edit]], recorded: list[str], outcome: Outcome, is_lenient: bool) -> int:
    """Reports the outcome of all wrong bodies, and returns the exit status."""
    for it in outcome.faults:
        print(f"refuse-bodies: {it}")
    for it in outcome.untried:
        print(f"refuse-bodies: {it}: not tried to an end, since the time was over")
    count, before = sum(map(len, edits.values())), sum(len(edits[it]) for it in recorded)
    counts = (
        f"{before} refused in the record, {len(outcome.faults)} refused by no clause, {len(outcome.untried)} not tried"
    )
    print(f"refuse-bodies: {count} wrong bodies, {counts}; CPU {outcome.cpu:.0f} s")
    failing = [it for it in outcome.faults if not is_lenient or any(why in it for why in PROVED)]
    return 1 if failing or not count or outcome.untried and not is_lenient else 0


def report_control(root: Path, edits: dict[str, list[Edit]], without: list[str], outcome: Outcome) -> int:
    """Reports and records the outcome of all neutral edits, and returns the exit status."""
    tried = [it for of_crate in edits.values() for it in of_crate]
    held = [it for it in tried if (it.fault or "").startswith("NOT REFUSED")]
    write_shape_bound(root, held, [it for it in tried if it.is_refused or it.fault and it not in held])
    for it in (it for it in tried if it.is_refused):
        print(f"refuse-bodies: {it.name}: a neutral edit is refused, too: {'; '.join(goal[:160] for goal in it.goals)}")
        print(f"    these refusals say little: {', '.join(it.bodies) or 'none, since all wrong bodies keep the shape'}")
    for it in (it for it in tried if it.fault and it not in held):
        print(f"refuse-bodies: {it.name}: {it.hunks[0].lines[0].strip()}: {it.fault}")
    for name in without:
        print(f"refuse-bodies: {name}")
    refused, untried = sum(it.is_refused for it in tried), len(outcome.untried)
    others = len(tried) - len(held) - refused - untried
    counts = f"{len(held)} still proved, {refused} refused, {others} with another outcome, {untried} not tried"
    cpu = f"CPU {outcome.cpu:.0f} s"
    print(f"refuse-bodies: {len(tried)} neutral edits, {counts}; {len(without)} functions without one; {cpu}")
    return 0 if tried else 2


def parse_arguments() -> argparse.Namespace:
    about, _, more = (__doc__ or "").partition("\n\n")
    raw = argparse.RawDescriptionHelpFormatter
    parser = argparse.ArgumentParser(description=about, epilog=more, formatter_class=raw)
    home = Path(__file__).resolve().parents[1]
    parser.add_argument("--root", type=Path, default=home, help="the repository; this one if left out")
    parser.add_argument("--lanes", type=int, default=lanes_that_fit(), help="how many crates are tried at a time")
    parser.add_argument("--all", action="store_true", help="also try what the record says was seen refused")
    parser.add_argument(
        "--body", default="", help="only the wrong bodies whose names have this word; they come into no record"
    )
    parser.add_argument(
        "--control", action="store_true", help="try neutral edits of the functions that have wrong bodies"
    )
    parser.add_argument(
        "--shaped", action="store_true", help="with --control: only of functions with wrong bodies of another shape"
    )
    parser.add_argument("--dry", action="store_true", help="say only which edits cannot be applied")
    parser.add_argument(
        "--lenient", action="store_true", help="fail only for a body that is proved or cannot be applied"
    )
    parser.add_argument(
        "--minutes", type=float, default=math.inf, help="begin no round after these, and name the edits that are left"
    )
    parser.add_argument(
        "--at-most", type=float, default=math.inf, metavar="MINUTES", help="end what still runs after these"
    )
    parser.add_argument(
        "--proved", action="store_true", help="take the crates as proved, as rt ci leaves them, and check none as it is"
    )
    parser.add_argument("--verbose", action="store_true", help="say of each edit which goal refuses it")
    parser.add_argument("--said", type=Path, help="a folder for what each check said")
    parser.add_argument("crate", nargs="*", help="only these crates")
    return parser.parse_args()


def terms_of(given: argparse.Namespace) -> Terms:
    now = time.monotonic()
    last = now + 60 * given.at_most
    return Terms(
        root=given.root,
        lanes=given.lanes,
        kind="neutral edits" if given.control else "wrong bodies",
        is_recorded=not given.body and not given.control,
        are_proved=given.proved,
        is_verbose=given.verbose,
        said_to=given.said,
        end=min(last, now + 60 * given.minutes),
        last=last,
    )


def main() -> int:
    given = parse_arguments()
    root, terms = given.root, terms_of(given)
    names = given.crate or sorted(it.parent.name for it in root.glob("crates/*/wrong"))
    edits, faults = read_edits(root, names, given.body)
    if given.dry:
        return report(edits, [], Outcome(faults, [], 0), given.lenient)
    if given.control:
        neutral, without = neutral_edits(root, edits, not given.shaped)
        return report_control(root, neutral, without, try_crates(neutral, terms))
    record = {} if given.all or given.body else read_record(root)
    recorded = [it for it in edits if it in record and record[it] == sum_of(root, it)]
    for name in recorded:
        print(f"{name}: {len(edits[name])} wrong bodies, seen refused over the same sources", flush=True)
    outcome = try_crates({it: edits[it] for it in edits if it not in recorded}, terms)
    return report(edits, recorded, outcome._replace(faults=faults + outcome.faults), given.lenient)


if __name__ == "__main__":
    sys.exit(main())
