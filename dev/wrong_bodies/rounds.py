"""Tries the edits of crates in rounds: one edit for each function, all in one check of just these functions, in a copy
of the repository."""
from __future__ import annotations

import math
import os
import re
import shutil
import signal
import subprocess
import tempfile
import time
from collections.abc import Iterable, Sequence
from concurrent.futures import ThreadPoolExecutor
from dataclasses import dataclass, field
from pathlib import Path
from typing import NamedTuple

from libraries import take_libraries

from .checks import Said, decide, last_lines, read_said
from .edits import FUNCTION, BadEdit, Edit, Function, Hunk, function_around
from .records import needed, sum_of, write_record


@dataclass(frozen=True)
class Terms:
    """How edits are tried."""

    root: Path
    lanes: int
    # What the edits are called, and whether a crate whose edits are all refused comes into the record.
    kind: str = "wrong bodies"
    is_recorded: bool = True
    # Whether the crates are taken as proved.
    are_proved: bool = False
    is_verbose: bool = False
    # A folder for what each check said.
    said_to: Path | None = None
    # The times after which no round begins, and at which what still runs is ended.
    end: float = math.inf
    last: float = math.inf


class Outcome(NamedTuple):
    """The faults of edits, those that were not tried to an end, and the CPU seconds."""

    faults: list[str]
    untried: list[str]
    cpu: float


@dataclass
class Crate:
    """A crate in a tree of its own, in which its edits are tried."""

    folder: Path
    edits: list[Edit]
    # What a check said of it as it is, or None if it's taken as proved; and where what that check kept is.
    as_is: Said | None
    pristine: Path | None
    terms: Terms
    cpu: float = 0.0
    rounds: int = 0
    calls: dict[str, set[str]] = field(default_factory=dict)

    @property
    def name(self) -> str:
        return self.folder.name

    @property
    def kept(self) -> Path:
        return self.folder / "out" / "incremental"

    def try_all(self) -> Crate:
        """Tries each edit until it is refused or has a fault."""
        if self.as_is and self.as_is.status:
            for it in self.edits:
                it.fault = "the crate does not check as it is: " + last_lines(self.as_is.text)
            return self
        if self.pristine:
            link_tree(self.kept, self.pristine)
        while (waiting := self.waiting()) and time.monotonic() < self.terms.end:
            self.try_round(self.next_round(waiting))
        return self

    def waiting(self) -> list[Edit]:
        """Returns the edits of which nothing is known yet."""
        return [it for it in self.edits if not it.is_refused and not it.fault]

    def next_round(self, waiting: list[Edit]) -> list[Edit]:
        """Returns edits of different functions. One that had no outcome before comes with none that it is known to
        call, or to be called by."""
        batch: list[Edit] = []
        for edit in sorted(waiting, key=lambda it: it.room):
            room = min([edit.room, *[it.room for it in batch]])
            if len(batch) < room and not any(self.disturb(edit, it) for it in batch):
                batch.append(edit)
        return batch

    def disturb(self, edit: Edit, other: Edit) -> bool:
        is_same = bool(edit.places() & other.places())
        return is_same or (edit.is_apart or other.is_apart) and (self.reaches(edit, other) or self.reaches(other, edit))

    def reaches(self, edit: Edit, other: Edit) -> bool:
        """Whether a function of the edit is known to call one of the other's, through others or not."""
        met, todo = set(), edit.own(self.calls)
        while todo:
            at = todo.pop()
            todo += [it for it in self.calls.get(at, ()) if it not in met]
            met.add(at)
        return bool(other.own(met))

    def try_round(self, batch: list[Edit]) -> None:
        self.rounds += 1
        was = self.cpu
        for path in {hunk.path for edit in batch for hunk in edit.hunks}:
            self.write(path, [hunk for edit in batch for hunk in edit.hunks if hunk.path == path])
        said = self.check(batch)
        if said is None:
            self.say(f"ended, since the time was over; CPU {self.cpu - was:.0f} s")
            return
        if self.terms.said_to:
            (self.terms.said_to / f"{self.name}.{self.rounds}.txt").write_text(said.text, encoding="utf-8")
        for function, called in said.rests.items():
            self.calls.setdefault(function, set()).update(called)
        decide(batch, said)
        refused = sum(it.is_refused for it in batch)
        again = sum(not it.is_refused and not it.fault for it in batch)
        counts = f"{len(batch)} tried, {refused} refused, {again} to be tried again"
        self.say(f"{counts}; CPU {self.cpu - was:.0f} s")
        for it in batch if self.terms.is_verbose else []:
            goals = "; ".join(goal[:160] for goal in said.open_goals(it)) if it.is_refused else "to be tried again"
            print(f"  {it.name}: {it.fault or goals}", flush=True)
        self.restore()

    def say(self, text: str) -> None:
        print(f"{self.name}: round {self.rounds}: {text}", flush=True)

    def write(self, path: str, hunks: list[Hunk]) -> None:
        """Writes a file of sources with the hunks in it, and leaves its hard links as they were."""
        lines = (self.folder / path).read_text(encoding="utf-8").split("\n")
        for hunk in sorted(hunks, key=lambda it: -it.first):
            lines[hunk.first : hunk.last] = hunk.lines
        (self.folder / f"{path}.was").hardlink_to(self.folder / path)
        (self.folder / f"{path}.new").write_text("\n".join(lines), encoding="utf-8")
        (self.folder / f"{path}.new").replace(self.folder / path)

    def restore(self) -> None:
        """Restores the sources, and what a check of the crate as it is has kept, if there was one."""
        for it in self.folder.glob("src/**/*.was"):
            it.replace(it.with_suffix(""))
        if self.pristine:
            shutil.rmtree(self.kept)
            link_tree(self.pristine, self.kept)

    def check(self, batch: list[Edit]) -> Said | None:
        only = [f"--only={it}" for edit in batch for it in self.names_in(edit)]
        # (past holes, so that the goals of a function are also tried where what it calls isn't proved)
        words = ["rt", "check", "--jobs", "1", "--allow-holes", *only]
        status, text, cpu = run(words, self.folder, self.terms.last)
        self.cpu += cpu
        return None if status is None else read_said(status, text, self.function_at)

    def names_in(self, edit: Edit) -> list[str]:
        """Returns the functions of an edit by the names that a check knows, or by the ends of these."""
        return edit.own(self.as_is.proved) if self.as_is else [it.name for it in edit.functions]

    def function_at(self, path: str, line: int) -> Function | None:
        """Returns the function around a line, or the one that the attribute there is of, as the sources are in this
        round."""
        lines = (self.folder / path).read_text(encoding="utf-8").split("\n")
        at = line - 1
        if lines[at].lstrip().startswith("#["):
            at = next((it for it in range(at, len(lines)) if FUNCTION.match(lines[it])), at)
        try:
            return function_around(self.name, path, lines, at)
        except BadEdit:
            return None


def run(words: Sequence[str], folder: Path, last: float = math.inf) -> tuple[int | None, str, float]:
    """Runs a command, and returns its exit status, its output, and the CPU seconds of all its processes. A command that
    still runs at the time `last` is ended, and has no exit status."""
    with tempfile.TemporaryFile("w+", errors="replace") as said:
        # (in a session of its own, Linux would give it its share of the processors whatever `nice` says)
        started = subprocess.Popen(
            words,
            cwd=folder,
            process_group=0 if last < math.inf else None,
            stdin=subprocess.DEVNULL,
            stdout=said,
            stderr=subprocess.STDOUT,
        )
        is_late = False
        while not (ended := os.wait4(started.pid, os.WNOHANG))[0]:
            is_late = time.monotonic() >= last
            if is_late:
                os.killpg(started.pid, signal.SIGKILL)
            time.sleep(0.05)
        _, status, used = ended
        started.returncode = os.waitstatus_to_exitcode(status)
        said.seek(0)
        return None if is_late else started.returncode, said.read(), used.ru_utime + used.ru_stime


def link_tree(source: Path, target: Path) -> None:
    """Copies a folder by links where both are on one disk. What a check writes are new files, so the source stays."""
    target.parent.mkdir(parents=True, exist_ok=True)
    if subprocess.run(["cp", "-al", source, target], stderr=subprocess.DEVNULL, check=False).returncode:
        subprocess.run(["cp", "-a", source, target], check=True)


def copy_repository(root: Path, to: Path, names: Iterable[str]) -> None:
    """Copies the sources of these crates and of all below them, and what the last check of each kept."""
    to.mkdir()
    lines = needed(root, names)
    (to / "crates.txt").write_text("".join(f"{it}\n" for it in lines.values()), encoding="utf-8")
    if (root / "HANDLES").exists():
        shutil.copy(root / "HANDLES", to)
    for name in lines:
        for part in ("src", "specs", "proofs"):
            if (root / "crates" / name / part).is_dir():
                shutil.copytree(root / "crates" / name / part, to / "crates" / name / part)
        for part in ("out/incremental", "out/rlib"):
            if (root / "crates" / name / part).is_dir():
                link_tree(root / "crates" / name / part, to / "crates" / name / part)


def prove_as_is(copy: Path, names: Iterable[str], lanes: int) -> tuple[dict[str, Said], float]:
    """Checks the crates as they are, independent ones at the same time. Returns what the check said of each, and its
    CPU seconds."""
    _, text, cpu = run(["rt", "all", "check", "--jobs", str(lanes)], copy)
    parts = [it.partition("\n") for it in re.split(r"^== ", text, flags=re.M)[1:]]
    told = {name: said for name, _, said in parts}
    # A crate that was proved in the quick pass before has no text of its own; the summary names it.
    passed = set(re.findall(r"^(\w+): ok$", text, re.M))
    print(f"as they are: CPU {cpu:.0f} s", flush=True)
    return {it: read_said(int(it not in passed), told.get(it) or text) for it in names}, cpu


def try_crates(edits: dict[str, list[Edit]], terms: Terms) -> Outcome:
    """Tries the edits of crates."""
    if not edits:
        return Outcome([], [], 0.0)
    if terms.said_to:
        terms.said_to.mkdir(parents=True, exist_ok=True)
    with tempfile.TemporaryDirectory(prefix="refuse-bodies-") as room:
        copy = Path(room) / "copy"
        sums = {it: sum_of(terms.root, it) for it in edits}
        copy_repository(terms.root, copy, edits)
        as_is: dict[str, Said] = {}
        cpu = 0.0
        if not terms.are_proved:
            as_is, cpu = prove_as_is(copy, edits, terms.lanes)
        elif why := take_libraries(copy):
            print(f"refuse-bodies: the libraries are built once more: {why}", flush=True)
        faults, untried = [], []

        def in_a_lane(name: str) -> Crate:
            tree = Path(room) / name
            link_tree(copy, tree)
            pristine = tree / "pristine" if name in as_is else None
            return Crate(tree / "crates" / name, edits[name], as_is.get(name), pristine, terms).try_all()

        # (first what takes longest: each round reads all crates below)
        work = {it: len(edits[it]) * (8 + len(needed(terms.root, [it]))) for it in edits}
        with ThreadPoolExecutor(terms.lanes) as pool:
            for crate in pool.map(in_a_lane, sorted(edits, key=lambda it: -work[it])):
                counts = f"{sum(it.is_refused for it in crate.edits)} of {len(crate.edits)} {terms.kind} refused"
                print(f"{crate.name}: {counts} in {crate.rounds} rounds; CPU {crate.cpu:.0f} s", flush=True)
                faults += [f"{it.name}: {it.fault}" for it in crate.edits if it.fault]
                untried += [it.name for it in crate.waiting()]
                cpu += crate.cpu
                if terms.is_recorded and all(it.is_refused for it in crate.edits):
                    write_record(terms.root, crate.name, sums[crate.name])
    return Outcome(faults, untried, cpu)
