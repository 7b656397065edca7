"""What users have sent and look at before it is performed, or what was refused of it: kept for a while in the desk's
file, so that a restart loses none, and no backup has it."""
from __future__ import annotations

import dataclasses
import io
import logging
import pickle
import secrets
import sqlite3
import zlib
from collections import Counter, OrderedDict, defaultdict
from datetime import UTC, date, datetime, timedelta
from importlib import import_module
from typing import Any, TypeVar

from markupsafe import Markup

from thesaurus_desk.journal.schema import Database, now, time_text

T = TypeVar("T")
log = logging.getLogger("desk")
# How many things are kept, and how many of them for one user; and how many rows they have, in all and for one user.
# The oldest goes first: of who keeps more than that, and then of all.
MOST_KEPT, MOST_OF_USER = 40, 6
MOST_ROWS, MOST_ROWS_OF_USER = 600_000, 250_000
# How long a thing is kept.
AGE = timedelta(days=2)
# The packages whose classes of data a thing is made of.
OWN = ("thesaurus_desk", "thesaurus_tools")


def new_error(kind: type[Exception], values: tuple[Any, ...]) -> Exception:
    """Returns an error as it was raised, without what it does when it is made."""
    return kind.__new__(kind, *values)


class Writer(pickle.Pickler):
    """Writes a thing of data."""

    def reducer_override(self, it: Any) -> Any:
        """Returns how an error is made again; of what else there is, what Python says."""
        return (new_error, (type(it), it.args), it.__dict__) if isinstance(it, Exception) else NotImplemented


class Reader(pickle.Unpickler):
    """Reads a thing of data alone: no other class is made, and nothing else is called."""

    def find_class(self, module_name: str, name: str) -> Any:
        """Returns a class of data. Raises UnpicklingError for anything else."""
        known = KNOWN.get((module_name, name))
        if known is not None:
            return known
        if module_name.partition(".")[0] in OWN and name.isidentifier():
            found = getattr(import_module(module_name), name, None)
            if isinstance(found, type) and (dataclasses.is_dataclass(found) or issubclass(found, (Exception, tuple))):
                return found
        raise pickle.UnpicklingError(f"{module_name}.{name} is no class of data")


# What else a thing is made of.
CLASSES: tuple[type, ...] = (Markup, Counter, OrderedDict, defaultdict, date, datetime)
KNOWN: dict[tuple[str, str], Any] = {(it.__module__, it.__name__): it for it in CLASSES}
KNOWN[__name__, "new_error"] = new_error


def pack(what: object) -> bytes:
    """Returns a thing as it is kept."""
    out = io.BytesIO()
    Writer(out, protocol=5).dump(what)
    return zlib.compress(out.getbuffer(), 1)


def unpack(data: bytes) -> object:
    """Returns a thing that was kept; None if a desk of another version has kept it."""
    try:
        return Reader(io.BytesIO(zlib.decompress(data))).load()
    except (pickle.UnpicklingError, ImportError, AttributeError, TypeError, ValueError, zlib.error) as error:
        log.warning("what was looked at isn't read any more: %s", error)
        return None


class Uploads:
    """Keeps things under names that nobody guesses, each for the user who sent it."""

    def __init__(self, journal: Database) -> None:
        self.journal = journal

    def keep(self, user: str, what: object, rows: int = 1) -> str:
        """Keeps something, and returns its name."""
        name, data = secrets.token_urlsafe(12), pack(what)
        with self.journal.transaction() as table:
            table.execute("DELETE FROM upload WHERE at < ?", (time_text(datetime.now(UTC) - AGE),))
            table.execute("INSERT INTO upload VALUES (?, ?, ?, ?, ?)", (name, user, now(), rows, data))
            drop_oldest(table, "user = ?", (user,), MOST_OF_USER, MOST_ROWS_OF_USER)
            drop_oldest(table, "true", (), MOST_KEPT, MOST_ROWS)
        return name

    def find(self, user: str, name: str, kind: type[T]) -> T | None:
        """Returns what a user has under a name, if it is of a kind."""
        it = self.journal.one("SELECT data FROM upload WHERE name = ? AND user = ?", name, user)
        what = unpack(it["data"]) if it else None
        return what if isinstance(what, kind) else None

    def take(self, user: str, name: str, kind: type[T]) -> T | None:
        """Returns what a user has under a name, once: whoever asks a second time gets nothing."""
        what = self.find(user, name, kind)
        if what is None:
            return None
        with self.journal.transaction() as table:
            gone = table.execute("DELETE FROM upload WHERE name = ?", (name,)).rowcount
        return what if gone else None


def drop_oldest(table: sqlite3.Connection, which: str, values: tuple[object, ...], most: int, most_rows: int) -> None:
    """Drops the oldest things of some, until they are few enough, with few enough rows; the last one stays."""
    found = table.execute(f"SELECT name, rows FROM upload WHERE {which} ORDER BY rowid", values).fetchall()
    while len(found) > 1 and (len(found) > most or sum(it["rows"] for it in found) > most_rows):
        table.execute("DELETE FROM upload WHERE name = ?", (found.pop(0)["name"],))
