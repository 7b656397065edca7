"""The office's clock, which is that of this machine: times of the journal as it shows them, and when its days begin."""
from __future__ import annotations

from datetime import UTC, date, datetime, timedelta

from markupsafe import Markup

from thesaurus_desk.journal.schema import time_text

# The days after which another year, month or day has begun, by how many characters name it.
DAYS = {4: 366, 7: 31, 10: 1}


def time_element(at: str) -> Markup:
    """Returns a time of the journal as an element: as the office's clock showed it, with its distance from UTC.

    A script writes it as the page's language does, and without the distance if the reader's clock shows the same."""
    time = datetime.fromisoformat(at).astimezone()
    machine, distance = time.isoformat(timespec="milliseconds"), distance_of(time)
    # (none of it has a sign of markup)
    shown = f"{time:%Y-%m-%d %H:%M} {distance}"
    return Markup(f'<time datetime="{machine}" data-zone="{distance}">{shown}</time>')


def distance_of(time: datetime) -> str:
    """Returns how far a clock is from UTC, as UTC+1 or UTC−3:30."""
    minutes = int((time.utcoffset() or timedelta()).total_seconds()) // 60
    hours, rest = divmod(abs(minutes), 60)
    sign = "−" if minutes < 0 else "+"
    return f"UTC{sign}{hours}{f':{rest:02}' if rest else ''}" if minutes else "UTC"


def distance_now() -> str:
    """Returns how far the office's clock is from UTC now."""
    return distance_of(datetime.now().astimezone())


def span_of(day: str) -> tuple[str, str] | None:
    """Returns when a day begins by the office's clock and when the next one does, as the journal writes times; so also
    of a month, as 2026-11, and of a year. None for any other text."""
    try:
        first = date.fromisoformat(f"{day}-01-01"[:10])
        later = (first + timedelta(DAYS[len(day)])).isoformat()[: len(day)]
        return begin_of(first), begin_of(date.fromisoformat(f"{later}-01-01"[:10]))
    except (KeyError, ValueError, OverflowError):
        return None


def begin_of(day: date) -> str:
    """Returns when a day begins by the office's clock."""
    return time_text(datetime(day.year, day.month, day.day).astimezone(UTC))
