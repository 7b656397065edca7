"""The program: its `script --plans` is at the end of a pipe, and the desk alone talks with it, a line out and a line
in."""
from __future__ import annotations

import contextlib
import json
import logging
import os
import queue
import select
import shutil
import subprocess
import tempfile
import threading
import time
from collections.abc import Sequence
from pathlib import Path
from typing import IO, Any

from thesaurus_tools.command_line import ToolError
from thesaurus_tools.program import EXISTING
from thesaurus_tools.requests import any_to_json

log = logging.getLogger("desk")
# Seconds: for an answer, if the desk's options don't say; for the program to open a store; and for its end.
PATIENCE, OPENING_PATIENCE, LAST_PATIENCE = 120.0, 3600.0, 60.0
# The program ends after 1,000,000 lines: from MOST_LINES on it is started anew when nobody uses it, from LAST_LINE on
# before the next plan. It also ends at a line of more bytes than these.
MOST_LINES, LAST_LINE, MOST_BYTES = 900_000, 990_000, 1 << 20
# The most requests in a plan, and of those that are each performed by itself.
LONGEST_PLAN, MOST_EACH = 128, 1024
USAGE = 2
CHUNK = 1 << 16
# What a command line begins with whose process ends with the thread that has started it.
ENDS_WITH_PARENT = ["setpriv", "--pdeathsig", "TERM", "--"] if shutil.which("setpriv") else []

Request = dict[str, Any]
Answer = dict[str, Any]
Change = list[Any]


class NoAnswer(Exception):
    """The program gave no answer: what was sent may have been performed or not."""


class NotSent(NoAnswer):
    """The program couldn't be reached: nothing was performed."""


class TooLong(Exception):
    """What was to be sent has more bytes than a line may have: nothing was sent."""


class Fault(Exception):
    """The program answered with a fault: nothing was performed, unless it says otherwise."""


def line_of(request: Request | Sequence[Request]) -> bytes:
    """Returns the line of a request or of a plan. Raises TooLong."""
    try:
        line = any_to_json(request).encode() + b"\n"
    except UnicodeEncodeError:  # (half a surrogate pair: the program says what is wrong with it)
        line = json.dumps(request, separators=(",", ":")).encode() + b"\n"
    if len(line) > MOST_BYTES:
        raise TooLong(f"{len(line):,} bytes are more than the {MOST_BYTES:,} of a line")
    return line


def as_json(line: bytes) -> Answer | None:
    """Returns the answer in a line, or None if it is none."""
    try:
        answer = json.loads(line)
    except ValueError:
        return None
    return answer if isinstance(answer, dict) else None


class Program:
    """A run of the program. `lock` is held from a line to its answer."""

    def __init__(self, program: str, db: Path, options: tuple[str, ...] = (), patience: float = PATIENCE) -> None:
        self.path, self.db, self.patience = program, db, patience
        # Those that raise limits.
        self.options = options
        self.lock = threading.RLock()
        self.child: subprocess.Popen[bytes] | None = None
        self.errors: IO[bytes] | None = None
        # How many lines this run has had.
        self.lines = 0
        self.wanted: queue.Queue[queue.Queue[str | None]] = queue.Queue()
        self.starter: threading.Thread | None = None

    # --- its life ---

    def words(self, *more: str) -> list[str]:
        """Returns the words of a command line over the store, which must be there."""
        return [self.path, "--db", str(self.db), EXISTING, *self.options, *more]

    def make_store(self, base: str) -> None:
        """Makes a new store, whose IRIs begin with a base. Raises ToolError."""
        words = [self.path, "--db", str(self.db), "--base", base, *self.options, "script"]
        ran = subprocess.run(words, stdin=subprocess.DEVNULL, capture_output=True, check=False)
        if ran.returncode:
            raise ToolError(ran.stderr.decode(errors="replace").strip() or f"{self.path}: status {ran.returncode}")

    def start(self) -> None:
        """Starts the program, and waits until it has opened the store. Raises ToolError with what it says if it ends
        instead.

        A child that is to end with the desk ends with the thread that started it, so one thread starts it each time."""
        if self.starter is None:
            self.starter = threading.Thread(target=self.start_each, name="starter", daemon=True)
            self.starter.start()
        said: queue.Queue[str | None] = queue.Queue()
        self.wanted.put(said)
        failure = said.get()
        if failure is not None:
            raise ToolError(failure)

    def start_each(self) -> None:
        """Starts the program each time it is wanted, and reports what went wrong, or None."""
        while True:
            said = self.wanted.get()
            try:
                said.put(self.launch())
            except (OSError, ValueError) as error:
                said.put(f"{self.path}: {error}")

    def launch(self) -> str | None:
        """Starts the program, and returns what it says if it ends before it has opened the store."""
        # (so that no program outlives its desk and keeps the store locked)
        self.errors = tempfile.TemporaryFile()
        self.child = subprocess.Popen(
            [*ENDS_WITH_PARENT, *self.words("script", "--plans")],
            stdin=subprocess.PIPE,
            stdout=subprocess.PIPE,
            stderr=self.errors,
            bufsize=0,
        )
        assert self.child.stdin
        os.set_blocking(self.child.stdin.fileno(), False)
        self.lines = 0
        try:
            with self.lock:
                # (nobody else takes its answer)
                self.exchange(line_of({"get": "totals"}), OPENING_PATIENCE)
            return None
        except NoAnswer:
            status, said = self.child.wait(), self.said()
            self.stop()
        if status == USAGE and "--plans" in said:
            return f"{self.path}: this program takes no plans (script --plans): the desk needs one of its own version"
        if "fault BadStore" in said:
            return f"{said}\n{self.db}: damaged, run `thesaurus check` on it"
        return said or f"{self.path}: it ended with status {status} before it had opened the store"

    def said(self) -> str:
        """Returns what this run has written to standard error."""
        if self.errors is None or self.errors.closed:
            return ""
        self.errors.seek(0)
        return self.errors.read().decode(errors="replace").strip()

    def stop(self) -> None:
        """Ends the program by the end of its input. Each change that it answered is then in the store. Who waits for
        an answer gets it first, as long as the program may take to end."""
        if not self.lock.acquire(timeout=LAST_PATIENCE):
            self.kill()
            self.lock.acquire()
        try:
            self.end()
        finally:
            self.lock.release()

    def end(self) -> None:
        """Ends the program, with which nobody talks."""
        child, self.child = self.child, None
        if child is None:
            return
        assert child.stdin and child.stdout and self.errors
        with contextlib.suppress(OSError):
            child.stdin.close()
        try:
            child.wait(LAST_PATIENCE)
        except subprocess.TimeoutExpired:
            child.kill()
            child.wait()
        child.stdout.close()
        self.errors.close()

    def kill(self) -> None:
        """Ends the program at once: an answer that comes late would be taken for that of the next line."""
        if self.child is not None:
            self.child.kill()
            with contextlib.suppress(subprocess.TimeoutExpired):
                self.child.wait(LAST_PATIENCE)

    def has_ended(self) -> bool:
        """Whether it isn't running."""
        return self.child is None or self.child.poll() is not None

    # --- lines ---

    def exchange(self, line: bytes, patience: float) -> bytes:
        """Sends a line, and returns the line that answers it. Raises NotSent if the program hasn't had the whole line,
        and NoAnswer if no answer came in time."""
        child = self.child
        if child is None or child.poll() is not None:
            raise NotSent("the program has ended")
        assert child.stdin and child.stdout
        to, of = child.stdin.fileno(), child.stdout.fileno()
        left, answer, end = memoryview(line), bytearray(), time.monotonic() + patience
        ready = select.poll()
        ready.register(of, select.POLLIN)
        ready.register(to, select.POLLOUT)
        self.lines += 1
        # (a line longer than a pipe holds is taken bit by bit, and so is an answer)
        while not answer.endswith(b"\n"):
            events = dict(ready.poll(max(0.0, end - time.monotonic()) * 1000))
            if not events:
                self.kill()
                raise NoAnswer(f"no answer came within {patience:g} seconds")
            if to in events and left:
                left = self.write(to, left)
                if not left:
                    ready.unregister(to)
            if of in events:
                data = os.read(of, CHUNK)
                if not data:
                    child.wait()
                    raise NoAnswer("the program has ended") if not left else NotSent("the program has ended")
                answer += data
        return bytes(answer)

    @staticmethod
    def write(to: int, left: memoryview) -> memoryview:
        """Writes what the pipe takes of a line, and returns what is left of it."""
        try:
            return left[os.write(to, left[:CHUNK]) :]
        except BlockingIOError:
            return left
        except BrokenPipeError:
            # (its end isn't written, so it isn't performed)
            raise NotSent("the program has ended") from None

    def ask(self, request: Request | Sequence[Request]) -> Answer:
        """Returns the answer to a request or to a plan: refusals and faults are among them. Raises NoAnswer and
        TooLong."""
        line = line_of(request)
        with self.lock:
            data = self.exchange(line, self.patience)
            answer = as_json(data)
            if answer is None:
                self.kill()
                raise NoAnswer(f"this is no answer: {data[:80]!r}")
        return answer

    def get(self, what: str, **members: int) -> Answer:
        """Returns the answer to a query; {"no": NAME} among them. Raises Fault or NoAnswer."""
        answer = self.ask({"get": what, **members})
        if "fault" in answer:
            raise Fault(answer["fault"])
        return answer

    def send_each(self, requests: Sequence[Request]) -> tuple[list[Answer], list[Change]]:
        """Has each of some requests performed by itself, one after another. Returns their answers, a fault being the
        last, and the changes of rows that they have made. Raises NoAnswer."""
        answers: list[Answer] = []
        changes: list[Change] = []
        most = MOST_EACH
        while len(answers) < len(requests):
            try:
                answer = self.ask({"each": requests[len(answers) : len(answers) + most]})
            except TooLong:
                most = most // 2 or 1
                continue
            answers += answer.get("each", [answer])
            changes += answer.get("changes", [])
            if "fault" in answers[-1]:
                break
        return answers, changes
