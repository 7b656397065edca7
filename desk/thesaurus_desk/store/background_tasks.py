"""What the desk does beside its pages: it starts the program again, counts, makes backups, and sends mail."""
from __future__ import annotations

import logging
import threading
from collections.abc import Callable

log = logging.getLogger("desk")
# How often it is looked whether there is something to do; and how long the end waits for what is under way, in seconds.
PACE, LAST_WAIT = 1.0, 5.0


class BackgroundTask(threading.Thread):
    """Something that is done whenever it is due, by a thread of its own."""

    def __init__(self, name: str, do: Callable[[], None]) -> None:
        super().__init__(name=name, daemon=True)
        self.do, self.is_over = do, threading.Event()

    def run(self) -> None:
        """Does it, if it is due, again and again. What fails is in the log, and is tried again."""
        while not self.is_over.wait(PACE):
            try:
                self.do()
            except Exception:
                log.exception("what the desk does beside its pages failed: %s", self.name)

    def end(self) -> None:
        """Ends the thread; what takes long may be cut short."""
        self.is_over.set()
        self.join(LAST_WAIT)
