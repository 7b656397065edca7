"""The processes that make pages: the office starts each, and starts it anew if it dies; with the office they end."""
from __future__ import annotations

import contextlib
import json
import logging
import os
import socket
import subprocess
import sys
import threading
from collections.abc import Callable, Sequence

from thesaurus_desk.store.program import ENDS_WITH_PARENT
from thesaurus_tools.command_line import ToolError

log = logging.getLogger("desk")
# Seconds: until a process that died is started anew, until the first ones must be ready, and for their end.
PAUSE, READY_PATIENCE, LAST_PATIENCE = 0.5, 120.0, 15.0
# What the office says to a process once the desk is open, and what that says once it listens.
SERVE, READY = "serve", "ready"
# The number of processors from which on two processes make pages.
MANY = 4


def usual_count() -> int:
    """Returns how many processes make pages where nobody says."""
    return 2 if (os.cpu_count() or 1) >= MANY else 1


class PageProcess(threading.Thread):
    """Keeps a process running. (A child that is to end with the office ends with the thread that started it.)"""

    def __init__(self, words: Sequence[str], bound: socket.socket) -> None:
        super().__init__(name="page process", daemon=True)
        self.words, self.bound = words, bound
        # What keeps an error, with its time.
        self.note_error: Callable[[str, str], None] = lambda at, text: None
        # Whether the desk is open, so that pages can be made; whether they are; and whether the desk ends.
        self.may_serve, self.is_ready, self.is_over = (threading.Event() for _ in range(3))
        self.lock = threading.Lock()
        self.process: subprocess.Popen[str] | None = None

    def run(self) -> None:
        """Starts the process, and again whenever it has ended."""
        while process := self.start_one():
            assert process.stdin and process.stdout
            self.may_serve.wait()
            with process.stdout, process.stdin:
                with contextlib.suppress(OSError):
                    process.stdin.write(f"{SERVE}\n")
                    process.stdin.flush()
                for line in process.stdout:
                    self.hear(line.rstrip("\n"))
            status = process.wait()
            if not self.is_over.wait(PAUSE):
                log.error("a process that makes pages ended with status %s, and is started anew", status)

    def start_one(self) -> subprocess.Popen[str] | None:
        """Starts the process; None at the end of the desk."""
        number = self.bound.fileno()
        line = [*ENDS_WITH_PARENT, sys.executable, "-m", "thesaurus_desk.page_process", str(number), *self.words]
        environment = {**os.environ, "PYTHONPATH": os.pathsep.join(filter(None, sys.path))}
        with self.lock:
            if self.is_over.is_set():
                return None
            self.process = subprocess.Popen(
                line,
                stdin=subprocess.PIPE,
                stdout=subprocess.PIPE,
                pass_fds=[number],
                env=environment,
                encoding="utf-8",
                errors="replace",
            )
            return self.process

    def hear(self, line: str) -> None:
        """Notes what the process says: that it is ready, or an error of its log with the time."""
        if line == READY:
            self.is_ready.set()
            return
        try:
            at, text = json.loads(line)
        except (ValueError, TypeError):
            log.error("a process that makes pages said: %s", line)
        else:
            self.note_error(at, text)

    def end(self) -> None:
        """Has the process end."""
        with self.lock:
            self.is_over.set()
            self.may_serve.set()
            if self.process is not None:
                self.process.terminate()

    def wait(self) -> None:
        """Waits for its end, and ends it at once if that takes too long."""
        if self.process is None:
            return
        try:
            self.process.wait(LAST_PATIENCE)
        except subprocess.TimeoutExpired:
            self.process.kill()
        self.join(LAST_PATIENCE)


class PageProcesses:
    """Some processes that make pages at one listening socket."""

    def __init__(self, count: int, words: Sequence[str], bound: socket.socket) -> None:
        self.all = [PageProcess(words, bound) for _ in range(count)]

    def start(self) -> None:
        """Starts them: they get ready while the desk is opened."""
        for it in self.all:
            it.start()

    def serve(self, note_error: Callable[[str, str], None]) -> None:
        """Has them make pages, and waits until they listen. Raises ToolError if they don't."""
        for it in self.all:
            it.note_error = note_error
            it.may_serve.set()
        if not all([it.is_ready.wait(READY_PATIENCE) for it in self.all]):
            raise ToolError("a process that makes pages doesn't start")

    def end(self) -> None:
        """Ends them."""
        for it in self.all:
            it.end()
        for it in self.all:
            it.wait()
