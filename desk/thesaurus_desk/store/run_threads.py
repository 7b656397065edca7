"""Threads that try or perform tables beside the pages: each notes how far it is, and ends with the desk."""
from __future__ import annotations

import threading
import time
from collections.abc import Callable
from dataclasses import dataclass, field
from typing import Protocol

from thesaurus_desk.journal.runs import Runs

# How often it is written down how far a run is, and how long the end of the desk waits for one, in seconds.
PACE, LAST_WAIT = 0.5, 5.0
# How many runs there are at a time.
MOST = 8


class Report(Protocol):
    """Is told with how many rows a run has dealt, its first plan, and how many rows there are, where that is new."""

    def __call__(self, done: int, plan: int | None = None, size: int | None = None) -> None:
        """Takes note of it."""


class RunStop(Exception):
    """The desk ends, and a run with it."""


@dataclass
class Progress:
    """Writes down how far a run is, from time to time."""

    runs: Runs
    name: str
    is_over: threading.Event
    last: float = field(default_factory=time.monotonic)

    def __call__(self, done: int, plan: int | None = None, size: int | None = None) -> None:
        """Notes with how many of its rows a run has dealt, and its first plan. Raises RunStop if the desk ends."""
        if self.is_over.is_set():
            raise RunStop
        if time.monotonic() - self.last >= PACE:
            self.last = time.monotonic()
            self.runs.note(self.name, done, plan, size)


@dataclass
class RunThreads:
    """The threads of a desk's runs."""

    runs: Runs
    is_over: threading.Event = field(default_factory=threading.Event)
    under_way: set[threading.Thread] = field(default_factory=set)

    @property
    def is_full(self) -> bool:
        """Whether as many runs are under way as there may be."""
        return len(self.under_way) >= MOST

    def start(self, name: str, do: Callable[[Progress], None]) -> None:
        """Begins a run, which may ask how far it is noted."""
        progress = Progress(self.runs, name, self.is_over)

        def run() -> None:
            try:
                do(progress)
            finally:
                self.under_way.discard(threading.current_thread())

        thread = threading.Thread(target=run, name="run", daemon=True)
        self.under_way.add(thread)
        thread.start()

    def stop(self) -> None:
        """Ends all of them, each behind its row."""
        self.is_over.set()
        for it in [*self.under_way]:
            it.join(LAST_WAIT)
