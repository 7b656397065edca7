"""What was counted on each day: it can't be made again, so it is the journal's, and in backups."""
from __future__ import annotations

import time
from collections.abc import Callable, Iterable
from datetime import date, timedelta

from thesaurus_desk.journal.schema import Database, now

Counts = dict[str, int]
# How many seconds after a failure it is counted again.
PAUSE = 900.0


class DailyCounts:
    """The counts of each day, by names."""

    def __init__(self, journal: Database, count: Callable[[], Counts]) -> None:
        self.journal, self.count = journal, count
        # The last day that this desk has noted, and not before when it tries another one.
        self.last, self.not_before = "", 0.0

    def note_if_due(self) -> None:
        """Notes what is counted today, unless this desk has."""
        today = now()[:10]
        if today == self.last or time.monotonic() < self.not_before:
            return
        self.not_before = time.monotonic() + PAUSE
        self.note(today, self.count())
        self.last, self.not_before = today, 0.0

    def note(self, day: str, counts: Counts) -> None:
        """Notes the counts of a day, in place of earlier ones."""
        with self.journal.writing() as rows:
            rows.execute("DELETE FROM daily WHERE day = ?", (day,))
            rows.executemany("INSERT INTO daily VALUES (?, ?, ?)", [(day, *it) for it in counts.items()])

    def all(self) -> dict[str, Counts]:
        """Returns the counts of all days, the first first."""
        found: dict[str, Counts] = {}
        for it in self.journal.all("SELECT day, name, value FROM daily ORDER BY day, name"):
            found.setdefault(it["day"], {})[it["name"]] = it["value"]
        return found

    def before(self, day: str, ago: Iterable[int]) -> dict[str, Counts]:
        """Returns the counts of the last day that was counted until some days before a day, for each, the last
        first."""
        found: dict[str, Counts] = {}
        for days in ago:
            asked = (date.fromisoformat(day) - timedelta(days)).isoformat()
            row = self.journal.one("SELECT max(day) AS day FROM daily WHERE day <= ?", asked)
            if row and row["day"] and row["day"] not in found:
                rows = self.journal.all("SELECT name, value FROM daily WHERE day = ?", row["day"])
                found[row["day"]] = {it["name"]: it["value"] for it in rows}
        return found
