"""Backups of a desk while it runs: each night, and when its head asks for one."""
from __future__ import annotations

import logging
import threading
import time
from dataclasses import dataclass
from datetime import UTC, datetime, timedelta
from datetime import time as Hour
from pathlib import Path
from typing import TYPE_CHECKING

from thesaurus_desk.journal.schema import time_text
from thesaurus_desk.store.copies import StoreBusy
from thesaurus_desk.store.snapshot import copy_all
from thesaurus_tools.backups import Backups, StoreName, check_copy, is_of, time_of, write_sign
from thesaurus_tools.command_line import ToolError

if TYPE_CHECKING:
    from thesaurus_desk.store.plan_execution import Desk

log = logging.getLogger("desk")
# How many seconds after a failure a backup is tried again.
PAUSE = 900.0
# What the journal's states of a backup are called.
CHECKED, FAILURE = "backup checked", "backup failure"


@dataclass(frozen=True)
class BackupSettings:
    """Where backups are put, how many are kept, and the office's hour at which one is made each day."""

    folder: Path
    keep: int = 30
    hour: Hour = Hour(2, 30)


@dataclass(frozen=True)
class Backup:
    """A backup that is there: its folder, and when it was made, as the journal writes times."""

    folder: Path
    at: str


class DeskBackups:
    """The backups of a desk's store, journal and users."""

    def __init__(self, desk: Desk, users: Path | None, settings: BackupSettings) -> None:
        self.desk, self.users, self.settings = desk, users, settings
        self.lock = threading.Lock()
        self.not_before = 0.0
        # What the program's check said of the last one that a desk made, and why none could be made since.
        self.checked, self.failure = (desk.journal.state(it) for it in (CHECKED, FAILURE))

    def name(self) -> StoreName:
        """Returns by what a backup says that it is one of this store."""
        return StoreName(str(self.desk.db.resolve()), self.desk.replica.base)

    def all(self) -> list[Backup]:
        """Returns the backups of this store that are there, the newest first."""
        folder, stem = Backups(self.settings.folder), self.desk.db.stem
        found = folder.named(stem) if self.settings.folder.is_dir() else []
        return [Backup(it, time_text(time_of(it.name, stem))) for it in reversed(found) if is_of(it, self.name())]

    def make(self) -> Path:
        """Makes a backup, and returns its folder. Raises ToolError and StoreBusy, which are noted, too."""
        with self.lock:
            try:
                place = self.make_one()
            except (ToolError, StoreBusy, OSError) as error:
                self.note(self.checked, str(error) or "something long is under way")
                self.not_before = time.monotonic() + PAUSE
                log.error("no backup could be made: %s", self.failure)
                if isinstance(error, OSError):
                    raise ToolError(f"{error.filename or self.settings.folder}: {error.strerror}") from None
                raise
            return place

    def note(self, checked: str, failure: str) -> None:
        """Notes what came of a backup, also for the next run of the desk."""
        self.checked, self.failure = checked, failure
        self.desk.journal.note_state({CHECKED: checked, FAILURE: failure})

    def make_one(self) -> Path:
        """Copies what belongs to a backup, has the copy checked, and gives it its name."""
        desk, backups = self.desk, Backups(self.settings.folder)
        with backups.locked():
            backups.remove_left()
            with backups.new_room() as room:
                counts = copy_all(desk, self.users, room)
                checked = check_copy(desk.program.path, room / desk.db.name, counts)
                write_sign(room, self.name())
                place = backups.put_away(room, desk.db.stem)
            backups.remove_older(desk.db.stem, self.name(), self.settings.keep)
        self.note(checked, "")
        return place

    def make_if_due(self) -> None:
        """Makes a backup if none was made since the last time when one is made each day."""
        if time.monotonic() >= self.not_before and self.is_late(timedelta()):
            try:
                self.make()
            except (ToolError, StoreBusy):
                return

    def is_late(self, by: timedelta) -> bool:
        """Whether a backup should have been made some time ago, and wasn't."""
        now = datetime.now().astimezone() - by
        due = datetime.combine(now.date(), self.settings.hour).astimezone()
        due = due if due <= now else datetime.combine(now.date() - timedelta(1), self.settings.hour).astimezone()
        last = next(iter(self.all()), None)
        return last is None or last.at < time_text(due.astimezone(UTC))
