"""A file of the triples that a triple store was last known to hold: all of them, and then each difference."""
from __future__ import annotations

import os
from collections.abc import Iterable
from pathlib import Path

from thesaurus_tools.line_differences import Lines

# What begins a line of a difference, and the lines that say that an update is under way, or done; no triple begins so.
GONE, COME, UNDER_WAY, DONE = b"-", b"+", b"?", b"??"
# The differences are kept until they have a part of the bytes of all triples.
PART = 2


class FedState:
    """What was fed. A run that ends within an update leaves a file that doesn't say what the store holds."""

    def __init__(self, path: Path):
        self.path = path
        # The triples; None while nobody knows what the store holds.
        self.known: Lines | None = None
        # The bytes of all triples, and those of the differences.
        self.size, self.added = 0, 0

    def read(self) -> FedState:
        """Reads the file, if there is one, and returns itself."""
        if self.path.exists():
            self.take(self.path.read_bytes())
        return self

    def take(self, data: bytes) -> None:
        """Takes what the file has. It doesn't say what the store holds unless its last difference is whole."""
        lines = data.splitlines()
        first = next((at for at, it in enumerate(lines) if it[:1] in (GONE, COME, UNDER_WAY)), len(lines))
        if not data.endswith(b"\n") or lines[first:] and lines[-1] != DONE:
            return
        known = dict.fromkeys(lines[:first])
        for it in lines[first:]:
            if it[:1] == GONE:
                known.pop(it[1:], None)
            elif it[:1] == COME:
                known[it[1:]] = None
        self.known = list(known)
        self.added = sum(map(len, lines[first:]))
        self.size = len(data) - self.added

    def forget(self) -> None:
        """Notes that what the store holds isn't known until all of it is put."""
        self.known = None
        self.path.unlink(missing_ok=True)

    def begin(self) -> None:
        """Notes that an update is under way."""
        self.append([UNDER_WAY])
        self.known = None

    def note(self, now: Lines, gone: Iterable[bytes], come: Iterable[bytes]) -> None:
        """Notes the difference of an update that has ended."""
        lines = [*(GONE + it for it in gone), *(COME + it for it in come), DONE]
        self.added += sum(map(len, lines))
        if self.added * PART > self.size:
            self.note_all(now)
            return
        self.append(lines)
        self.known = now

    def note_all(self, now: Lines) -> None:
        """Notes all that the store holds."""
        new = self.path.with_name(f"{self.path.name}.new")
        with open(new, "wb") as file:
            self.size, self.added = file.write(b"\n".join(now) + b"\n"), 0
            file.flush()
            os.fsync(file.fileno())
        os.replace(new, self.path)
        self.known = now

    def append(self, lines: Lines) -> None:
        """Adds lines to the file, and waits until the disk has them."""
        with open(self.path, "ab") as file:
            file.write(b"\n".join(lines) + b"\n")
            file.flush()
            os.fsync(file.fileno())
