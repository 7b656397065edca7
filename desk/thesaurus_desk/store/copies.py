"""Copies of the store, from which the program makes what it alone can make: an export, a display."""
from __future__ import annotations

import shutil
import tempfile
import threading
from pathlib import Path
from typing import TYPE_CHECKING

from thesaurus_tools.program import EXISTING, run_program

if TYPE_CHECKING:
    from thesaurus_desk.store.open_store import OpenStore


class StoreBusy(Exception):
    """Something long is under way, such as an import, and the store can't be copied meanwhile."""


def copy_files(store: Path, copy: Path) -> None:
    """Copies the files of a store to which nothing is written meanwhile."""
    shutil.copyfile(store, copy)
    log = Path(f"{store}-wal")
    if log.exists():
        shutil.copyfile(log, f"{copy}-wal")


class Copies:
    """The copy of a desk's store as it is now, which is kept until the store changes; one is made at a time."""

    def __init__(self, desk: OpenStore) -> None:
        self.desk, self.lock = desk, threading.Lock()
        self.folder: tempfile.TemporaryDirectory[str] | None = None
        self.version = -1
        # What the program has made of this copy.
        self.made: dict[tuple[str, ...], bytes] = {}

    def copy_to(self, path: Path) -> None:
        """Makes a copy of the store that is another one's to change. Raises StoreBusy."""
        with self.lock:
            copy_files(self.current(), path)

    def run(self, *words: str) -> bytes:
        """Returns what a command of the program prints that only reads the store. Raises StoreBusy and ToolError."""
        with self.lock:
            copy = self.current()
            if words not in self.made:
                program = self.desk.program
                self.made[words] = run_program([program.path, "--db", str(copy), EXISTING, *program.options, *words])
            return self.made[words]

    def current(self) -> Path:
        """Returns the copy of the store as it is now."""
        if self.folder is None or self.version != self.desk.replica.version:
            self.close()
            self.folder = tempfile.TemporaryDirectory(prefix="desk-")
            # (under the desk's lock nothing is written)
            with self.desk.alone() as is_free:
                if not is_free:
                    raise StoreBusy
                self.version = self.desk.replica.version
                copy_files(self.desk.db, Path(self.folder.name, "copy.db"))
        return Path(self.folder.name, "copy.db")

    def close(self) -> None:
        """Removes the copy."""
        if self.folder is not None:
            self.folder.cleanup()
        self.folder, self.version, self.made = None, -1, {}
