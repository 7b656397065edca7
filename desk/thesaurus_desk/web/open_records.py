"""Who has which record open, so that nobody indexes one that a colleague is at without knowing it."""
from __future__ import annotations

import threading
import time
from collections.abc import Iterable
from dataclasses import dataclass, field
from typing import cast

from flask import current_app

from thesaurus_desk.journal.schema import OfficeNeeded
from thesaurus_desk.store.desk_reader import ReadDesk
from thesaurus_desk.web.context import the_desk

# How many seconds a record counts as open after it was last looked at; and how many openings are kept.
OPEN_FOR, MOST_OPEN = 1800.0, 10_000


@dataclass
class OpenRecords:
    """The records that are open, with who has opened each and when. All end with the desk. Safe for several threads."""

    opened: dict[tuple[str, str], float] = field(default_factory=dict)
    lock: threading.Lock = field(default_factory=threading.Lock)

    def open(self, record: str, user: str) -> list[str]:
        """Notes that a user has opened a record, and returns who else has it open."""
        with self.lock:
            self.forget_old()
            self.opened[record, user] = time.monotonic()
            return sorted(its for name, its in self.opened if name == record and its != user)

    def take(self, records: Iterable[str], user: str) -> str | None:
        """Opens the first of some records that no other user has open, and returns it."""
        with self.lock:
            self.forget_old()
            opened = {name for name, its in self.opened if its != user}
            found = next((it for it in records if it not in opened), None)
            if found is not None:
                self.opened[found, user] = time.monotonic()
            return found

    def close(self, record: str, user: str) -> None:
        """Notes that a user has done with a record."""
        with self.lock:
            self.opened.pop((record, user), None)

    def of_others(self, user: str) -> set[str]:
        """Returns the records that others have open."""
        with self.lock:
            self.forget_old()
            return {name for name, its in self.opened if its != user}

    def forget_old(self) -> None:
        """Forgets what was opened long ago, and the oldest of too many."""
        since = time.monotonic() - OPEN_FOR
        kept = sorted(((at, key) for key, at in self.opened.items() if at > since), reverse=True)[: MOST_OPEN - 1]
        self.opened = {key: at for at, key in kept}


def the_open_records() -> OpenRecords:
    """Returns who has which record open. Raises OfficeNeeded in a process that only makes pages."""
    if isinstance(the_desk(), ReadDesk):
        raise OfficeNeeded("openings")
    return cast(OpenRecords, current_app.extensions["openings"])
