"""Runs the program: a run of its command `script` to which requests are sent, and its other commands."""
from __future__ import annotations

import contextlib
import json
import os
import shutil
import subprocess
import sys
import time
from collections.abc import Sequence
from pathlib import Path
from typing import IO

from thesaurus_tools.command_line import DONE, USAGE, ToolError, say
from thesaurus_tools.requests import encode

# A script of the program has at most 1,000,000 lines.
MOST_LINES = 900_000
# No store has more resources.
MOST_RESOURCES = (1 << 32) - 1
# How many seconds a store may stay locked by a run that is about to end.
PATIENCE = 20
# The option by which the program makes no store, because of a mistyped name or a volume that isn't mounted.
EXISTING = "--existing"
LOCKED = b"thesaurus: fault Store\n"
IN_USE = "another program has it open: end that program, or ask it by a tool with --http URL if it serves"
# The bytes of a store that SQLite locks for reading.
LOCK_START, LOCK_SIZE = 0x40000002, 510


def lock_file(file: IO[bytes], path: Path | str) -> None:
    """Locks a store for reading as SQLite does, until the file is closed. Raises ToolError if a program has it."""
    try:
        import fcntl  # (Windows has none; what only talks HTTP or reads exports runs there, too)
    except ImportError:
        raise ToolError(f"{path}: a store can't be read on this system: use --http URL, or an export") from None
    try:
        fcntl.lockf(file, fcntl.LOCK_SH | fcntl.LOCK_NB, LOCK_SIZE, LOCK_START)
    except (BlockingIOError, PermissionError):
        raise ToolError(f"{path}: {IN_USE}") from None


def copy_closed(store: Path, copy: Path) -> None:
    """Copies both files of a store. Raises ToolError if a program has it open."""
    with open(store, "rb") as file, open(copy, "wb") as target:
        lock_file(file, store)
        shutil.copyfileobj(file, target)
        if Path(f"{store}-wal").exists():
            shutil.copyfile(f"{store}-wal", f"{copy}-wal")


def is_in_use(path: Path) -> bool:
    """Whether a program has a store open."""
    try:
        with open(path, "rb") as file:
            lock_file(file, path)
    except OSError:
        return False
    except ToolError:
        return True
    return False


def find_program(given: str | None = None) -> str:
    """Returns the program: the one given, or `thesaurus` in PATH, or the repository's ./thesaurus."""
    launcher = Path(__file__).resolve().parents[2] / "thesaurus"
    found = given or shutil.which("thesaurus") or (str(launcher) if launcher.is_file() else None)
    if not found or not shutil.which(found):
        raise ToolError(
            f"the program {given} can't be run"
            if given
            else "there is no program `thesaurus` in PATH; name it by --program",
            USAGE,
        )
    return found


class Performer:
    """What performs requests, one after another: a run of the program, or a server."""

    def takes_plans(self) -> bool:
        """Whether it performs several requests as one."""
        return False

    def is_worn(self) -> bool:
        """Whether it has had as many requests as it takes."""
        return False

    def reopen(self) -> None:
        """Begins anew."""

    def perform(self, request: bytes) -> bytes:
        """Sends a request, which is a line, and returns the answer without its end. Raises ToolError if none comes."""
        raise NotImplementedError

    def perform_plan(self, plan: bytes) -> bytes:
        """Sends several requests as one, and returns the answer, as `perform` does."""
        raise NotImplementedError

    def ask(self, request: dict) -> dict:
        """Returns the answer to a request."""
        return json.loads(self.perform(encode(request)))

    def export(self) -> bytes:
        """Returns the vocabulary as N-Triples."""
        raise NotImplementedError

    def close(self) -> int:
        """Ends it, and returns its exit status."""
        return DONE


class Script(Performer):
    """Runs of `thesaurus script` over a store, with plans if the program has them; `open` begins the first, which makes
    the store if it `may_be_new`."""

    def __init__(self, program: str, db: Path | None, options: Sequence[str] = (), may_be_new: bool = False):
        self.words = [program, *(["--db", str(db)] if db else []), *options]
        self.db = db
        self.must_exist = bool(db) and not may_be_new
        self.has_plans = True

    def program_words(self) -> list[str]:
        """Returns the program with the options that are before a command. (An older program has no `--existing`.)"""
        return [*self.words, *([EXISTING] if self.must_exist and self.has_plans else [])]

    def start(self) -> None:
        """Starts the program, and asks it something."""
        self.errors = open(os.memfd_create("errors"), "w+b")
        words = [*self.program_words(), "script", *(["--plans"] if self.has_plans else [])]
        self.run = subprocess.Popen(words, stdin=subprocess.PIPE, stdout=subprocess.PIPE, stderr=self.errors)
        assert self.run.stdin and self.run.stdout
        self.stdin, self.stdout, self.lines = self.run.stdin, self.run.stdout, 0
        self.ask({"get": "totals"})
        self.must_exist = bool(self.db)

    def open(self) -> Script:
        """Starts the program, waits while another run has the store, and returns itself."""
        end, waits, tries = time.monotonic() + PATIENCE, 0, 0
        while True:
            try:
                self.start()
                return self
            except ToolError:
                if self.run.returncode == USAGE and self.has_plans:
                    # (an older program has no plans)
                    self.has_plans = False
                    continue
                # (the other run may have ended since)
                is_used, tries = self.db and is_in_use(self.db), tries + 1
                if not self.said().endswith(LOCKED) or not is_used and tries > waits + 1:
                    raise
                if time.monotonic() > end:
                    raise ToolError(f"{self.db}: {IN_USE}") from None
            if is_used and not waits:
                say(Path(sys.argv[0]).name, f"{self.db}: another program has it open; waiting up to {PATIENCE} seconds")
            waits += bool(is_used)
            time.sleep(0.2)

    def said(self) -> bytes:
        """Returns what the program wrote to standard error."""
        self.errors.seek(0)
        return self.errors.read()

    def takes_plans(self) -> bool:
        return self.has_plans

    def is_worn(self) -> bool:
        return self.lines >= MOST_LINES

    def reopen(self) -> None:
        self.close()
        self.open()

    def perform(self, request: bytes) -> bytes:
        self.lines += 1
        with contextlib.suppress(BrokenPipeError):
            self.stdin.write(request)
            self.stdin.flush()
        answer = self.stdout.readline()
        if not answer.endswith(b"\n"):
            raise ToolError(f"the program ended with status {self.close()}{self.reason()}")
        return answer[:-1]

    def perform_plan(self, plan: bytes) -> bytes:
        return self.perform(plan)

    def reason(self) -> str:
        said = self.said().decode(errors="replace").strip()
        return f": {said}" if said else ""

    def export(self) -> bytes:
        # (the run ends for it, and another one begins)
        self.close()
        data = run_program([*self.program_words(), "export"])
        self.open()
        return data

    def close(self) -> int:
        with contextlib.suppress(BrokenPipeError):
            self.stdin.close()
        self.stdout.close()
        return self.run.wait()


def run_program(words: list[str]) -> bytes:
    """Runs a command of the program, and returns what it prints. Raises ToolError if it fails."""
    ran = subprocess.run(words, stdin=subprocess.DEVNULL, capture_output=True, check=False)
    if ran.returncode:
        raise ToolError(
            ran.stderr.decode(errors="replace").strip() or f"{' '.join(words)}: status {ran.returncode}", ran.returncode
        )
    return ran.stdout


def count_resources(store: Performer) -> int:
    """Returns the number of resources, found by looks at numbers."""

    def is_there(number: int) -> bool:
        return store.ask({"get": "concept", "number": number}).get("no") != "UnknownResource"

    high = 1
    while is_there(high):
        if high > MOST_RESOURCES:
            raise ToolError(f"it has resources with numbers above {MOST_RESOURCES}, so it isn't the program")
        high *= 2
    low = high // 2
    while high - low > 1:
        middle = (low + high) // 2
        low, high = (middle, high) if is_there(middle) else (low, middle)
    return low
