"""Who came in lately, or tried to: for the page of users, and for the system's log."""
from __future__ import annotations

import logging
from dataclasses import dataclass

from thesaurus_desk.journal.schema import Database, now

KEPT, LONGEST_NAME = 200, 64
LOG = logging.getLogger("thesaurus_desk.auth")
LOG.setLevel(logging.INFO)


@dataclass(frozen=True)
class EntryNote:
    """One note: when, who, from which address; in, out, wrong or wait."""

    at: str
    name: str
    address: str
    what: str


class EntryLog:
    """The last notes, in the desk's file; each is written to the system's log, too."""

    def __init__(self, journal: Database) -> None:
        self.journal = journal

    def note(self, name: str, address: str, what: str) -> None:
        """Notes that somebody came in, left, gave a wrong password, or had to wait."""
        # (half a surrogate pair isn't kept as text)
        name, address = (it[:LONGEST_NAME].encode(errors="replace").decode() for it in (name, address))
        level = logging.WARNING if what in ("wrong", "wait") else logging.INFO
        LOG.log(level, "sign-in: %s: %r from %s", what, name, address)
        self.journal.note(
            ("INSERT INTO sign_in (at, name, address, what) VALUES (?, ?, ?, ?)", now(), name, address, what),
            ("DELETE FROM sign_in WHERE id <= (SELECT max(id) FROM sign_in) - ?", KEPT),
        )

    def last(self, count: int = 50) -> list[EntryNote]:
        """Returns the last notes, the latest first."""
        found = self.journal.all("SELECT at, name, address, what FROM sign_in ORDER BY id DESC LIMIT ?", count)
        return [EntryNote(*it) for it in found]
