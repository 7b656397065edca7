"""A folder of backups. Each is a folder STEM-TIME with the files of a store, and with a file that names the store."""
from __future__ import annotations

import contextlib
import fcntl
import json
import os
import re
import shutil
import sqlite3
import stat
import subprocess
import tempfile
import time
from collections.abc import Iterator
from dataclasses import asdict, dataclass
from datetime import UTC, datetime
from pathlib import Path

from thesaurus_tools.command_line import REFUSED, ToolError
from thesaurus_tools.files import give_copy_to_owner, give_to_owner, synchronize
from thesaurus_tools.program import EXISTING
from thesaurus_tools.store_options import open_file

# The file of a backup that says which store it is.
SIGN = "backup.json"
TIME = r"\d{8}T\d{6}Z(-\d{3})?"
# The folders that a killed run may leave: unfinished backups and those being removed, as tempfile names them, and as an
# earlier version did.
LEFT = re.compile(rf"\.(new|old)-[a-z0-9_]{{8}}|\.old-.+-{TIME}", re.S)


@dataclass(frozen=True)
class StoreName:
    """What a store is known by: its path without links, and its base."""

    store: str
    base: str


def base_in_database(store: Path) -> str | None:
    """Returns the base of a store, also of one in use, or None if the database lacks it.

    A base never changes, so the log of the store needn't be read."""
    address = f"{store.resolve().as_uri()}?mode=ro&immutable=1"
    with contextlib.suppress(sqlite3.Error), contextlib.closing(sqlite3.connect(address, uri=True)) as tables:
        for (base,) in tables.execute("SELECT base FROM meta"):
            return str(base)
    return None


def base_of(copy: Path) -> str:
    """Returns the base of the copy of a store. The copy's files stay as they are."""
    found = base_in_database(copy)
    if found is not None:
        return found
    with open_file(copy) as store:
        return store.base


def check_copy(program: str, copy: Path, counts: dict[str, int]) -> str:
    """Has the program check the copy of a store, and compares the counts of postings. Returns what it printed. Raises
    ToolError."""
    ran = subprocess.run([program, "--db", str(copy), EXISTING, "check"], capture_output=True, text=True, check=False)
    if ran.returncode:
        raise ToolError(f"the copy doesn't pass the check, so it isn't kept: {ran.stderr.strip()}", REFUSED)
    found = dict(it.split("=") for it in ran.stdout.split()[1:])
    if any(name in counts and counts[name] != int(found[name]) for name in ("accepted", "withdrawn")):
        raise ToolError(
            f"the copy isn't what the program serves, so it isn't kept: {ran.stdout.strip()}, and not {counts}", REFUSED
        )
    return ran.stdout.strip()


def time_of(name: str, stem: str) -> datetime:
    """Returns when a backup was made, by its name."""
    return datetime.strptime(name.removeprefix(f"{stem}-")[:16], "%Y%m%dT%H%M%SZ").replace(tzinfo=UTC)


def write_sign(room: Path, name: StoreName) -> None:
    """Writes into a backup which store it is."""
    with open(room / SIGN, "x", encoding="utf-8") as file:
        json.dump(asdict(name), file, ensure_ascii=False, indent=1)
        file.write("\n")


def is_of(backup: Path, name: StoreName) -> bool:
    """Returns whether a backup says that it is one of this store."""
    try:
        return json.loads((backup / SIGN).read_text(encoding="utf-8")) == asdict(name)
    except (OSError, ValueError):
        return False


class Backups:
    """A folder of the backups of one store or of several."""

    def __init__(self, folder: Path):
        self.folder = folder

    @contextlib.contextmanager
    def locked(self) -> Iterator[None]:
        """Makes the folder if need be, and locks it. Raises ToolError if another backup is under way."""
        self.folder.mkdir(parents=True, exist_ok=True)
        path = self.folder / ".lock"
        try:
            lock = os.open(path, os.O_RDWR | os.O_CREAT | os.O_NOFOLLOW | os.O_NONBLOCK | os.O_CLOEXEC, 0o644)
        except OSError:
            if path.is_symlink() or path.is_dir():
                raise ToolError(f"{path}: not this tool's lock, which is a file; move it away", REFUSED) from None
            raise
        try:
            if not stat.S_ISREG(os.fstat(lock).st_mode):
                raise ToolError(f"{path}: not this tool's lock, which is a file; move it away", REFUSED)
            give_to_owner(lock, self.folder)
            try:
                fcntl.flock(lock, fcntl.LOCK_EX | fcntl.LOCK_NB)
            except BlockingIOError:
                raise ToolError(f"{self.folder}: another backup is under way", REFUSED) from None
            yield
        finally:
            os.close(lock)

    def remove_left(self) -> list[Path]:
        """Removes what a killed run left. Returns what else has such a name: links, files, folders of others."""
        others = []
        for path in sorted((*self.folder.glob(".new-*"), *self.folder.glob(".old-*"))):
            if path.is_symlink() or not path.is_dir() or not LEFT.fullmatch(path.name):
                others.append(path)
            else:
                shutil.rmtree(path)
        return others

    @contextlib.contextmanager
    def new_room(self) -> Iterator[Path]:
        """Makes a folder for an unfinished backup, and removes it unless it got its name."""
        room = Path(tempfile.mkdtemp(prefix=".new-", dir=self.folder))
        try:
            yield room
        finally:
            shutil.rmtree(room, ignore_errors=True)

    def named(self, stem: str) -> list[Path]:
        """Returns the backups of stores with a stem, the oldest first."""
        form = re.compile(rf"{re.escape(stem)}-{TIME}")
        return sorted(it for it in self.folder.iterdir() if form.fullmatch(it.name) and not it.is_symlink())

    def put_away(self, room: Path, stem: str) -> Path:
        """Gives a backup its name, in one step. Returns its place.

        It comes after those of the same second, also if the first of them are removed. The folder's owner can remove
        it later, also if root has made it."""
        give_copy_to_owner(room, self.folder)
        for path in (*room.iterdir(), room):
            synchronize(path)
        place = self.folder / f"{stem}-{time.strftime('%Y%m%dT%H%M%SZ', time.gmtime())}"
        same = [it.removeprefix(place.name) for it in os.listdir(self.folder) if it.startswith(place.name)]
        numbers = [int(it[1:] or 1) for it in same if re.fullmatch(r"(-\d{3})?", it)]
        if numbers:
            place = place.with_name(f"{place.name}-{max(numbers) + 1:03}")
        room.rename(place)
        synchronize(self.folder)
        return place

    def remove_older(self, stem: str, name: StoreName, keep: int) -> None:
        """Removes all backups of a store but the newest. Each loses its name first, so that none is there in part."""
        for it in [it for it in self.named(stem) if is_of(it, name)][:-keep]:
            older = Path(tempfile.mkdtemp(prefix=".old-", dir=self.folder))
            it.rename(older / it.name)
            shutil.rmtree(older)
