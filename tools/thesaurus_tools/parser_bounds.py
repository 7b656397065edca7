"""Keeps a parser of another library within bounds: what it may open, how long it works, how much memory it takes."""
from __future__ import annotations

import contextlib
import os
import signal
import sys
from collections.abc import Iterator
from pathlib import Path
from types import FrameType

# Events of Python's audit that come before a connection or a request, and which of their arguments is its target.
CONNECTING = {"urllib.Request": 0, "socket.connect": 1, "socket.getaddrinfo": 0}


class BoundReached(Exception):
    """A parser takes more time than it may."""


class OpenGuard:
    """What a parser may open: one file, and those of Python itself."""

    current: OpenGuard | None = None
    is_set = False

    def __init__(self, path: Path):
        self.path, self.refused = path.resolve(), ""
        self.own = {Path(it).resolve() for it in (*sys.path, sys.prefix, sys.base_prefix) if it}

    def hear(self, event: str, args: tuple) -> None:
        """Refuses a connection, and another file than that."""
        target = ""
        if event in CONNECTING:
            target = str(args[CONNECTING[event]])
        elif event == "open" and isinstance(args[0], str):
            found = Path(args[0]).resolve()
            if found != self.path and not any(found.is_relative_to(it) for it in self.own):
                target = str(found)
        if target:
            self.refused = self.refused or target
            raise PermissionError(f"{target} may not be opened")


def hear(event: str, args: tuple) -> None:
    """Passes an event of Python's audit to the watch that there is."""
    if OpenGuard.current:
        OpenGuard.current.hear(event, args)


@contextlib.contextmanager
def guard_opens(path: Path) -> Iterator[OpenGuard]:
    """Has a parser open nothing but a file until the end of the block. Yields what notes the first refusal."""
    if not OpenGuard.is_set:
        # (there is no way to take a hook of the audit away)
        sys.addaudithook(hear)
        OpenGuard.is_set = True
    OpenGuard.current = OpenGuard(path)
    try:
        yield OpenGuard.current
    finally:
        OpenGuard.current = None


@contextlib.contextmanager
def limit_run(seconds: float, memory: int) -> Iterator[None]:
    """Raises BoundReached in a block after these seconds of a processor, MemoryError at these bytes more of memory."""
    try:
        import resource
    except ImportError:  # (Windows has no such bounds)
        yield
        return

    def stop(number: int, frame: FrameType | None) -> None:
        raise BoundReached

    size = int(Path("/proc/self/statm").read_text(encoding="ascii").split()[0]) * os.sysconf("SC_PAGE_SIZE")
    soft, hard = resource.getrlimit(resource.RLIMIT_AS)
    most = min(size + memory, *(it for it in (soft, hard) if it != resource.RLIM_INFINITY), sys.maxsize)
    before = signal.signal(signal.SIGPROF, stop)
    resource.setrlimit(resource.RLIMIT_AS, (most, hard))
    # (it comes again each second, if the parser catches it)
    signal.setitimer(signal.ITIMER_PROF, seconds, 1)
    try:
        yield
    finally:
        signal.setitimer(signal.ITIMER_PROF, 0)
        resource.setrlimit(resource.RLIMIT_AS, (soft, hard))
        signal.signal(signal.SIGPROF, before)
