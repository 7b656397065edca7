"""Shows on a terminal how far a load is."""
from __future__ import annotations

import math
import sys
import time


class Progress:
    """A line on a terminal that says how many requests were sent; nothing elsewhere."""

    def __init__(self, count: int):
        self.count, self.is_shown, self.next = count, False, time.monotonic() + 1 if sys.stderr.isatty() else math.inf

    def show(self, left: int) -> None:
        """Writes the line anew, at most once a second."""
        if time.monotonic() >= self.next:
            self.is_shown, self.next = True, time.monotonic() + 1
            print(f"\r\033[Kload: {self.count - left} of {self.count} requests", end="", file=sys.stderr, flush=True)

    def end(self) -> None:
        """Clears the line."""
        if self.is_shown:
            self.is_shown = False
            print("\r\033[K", end="", file=sys.stderr, flush=True)
