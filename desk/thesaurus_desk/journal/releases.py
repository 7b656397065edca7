"""Releases: frozen exports with a name. A release is there as long as a scheme has its name as a value of the field
`release`, which a plan sets once the export is written down: so it is undone, replayed and settled as any value."""
from __future__ import annotations

import hashlib
import json
import zlib
from collections.abc import Iterable, Iterator
from dataclasses import dataclass, replace

from thesaurus_desk.journal.schema import Database, now
from thesaurus_tools.fields import RELEASE
from thesaurus_tools.release_changes import Change, read_changes, written_changes

# Of the columns, those without the export and what has changed.
COLUMNS = "name, day, note, at, user, plan, digest, size"
# Those that a scheme has, the last first.
LISTED = (
    "SELECT {} FROM release WHERE name IN (SELECT text FROM value WHERE field = '" + RELEASE + "') {} ORDER BY id DESC"
)
LEVEL = 4
# What an address calls the last release.
LAST = "last"


@dataclass(frozen=True, slots=True)
class Release:
    """A release: what it is called, the day that it has, and what its makers say of it; when it was frozen and by whom,
    after which plan; and the SHA-256 and the number of the bytes of its N-Triples."""

    name: str
    day: str
    note: str
    at: str
    user: str
    plan: int
    digest: str
    size: int


class NameTaken(Exception):
    """There is a release of this name."""


class Releases:
    """The releases that the journal has."""

    def __init__(self, journal: Database) -> None:
        self.journal = journal

    def all(self) -> list[Release]:
        """Returns the releases, the last first."""
        return [Release(*it) for it in self.journal.all(LISTED.format(COLUMNS, ""))]

    def find(self, name: str) -> Release | None:
        """Returns the release of a name, or the last one."""
        return self.last() if name == LAST else next((it for it in self.all() if it.name == name), None)

    def last(self) -> Release | None:
        """Returns the last release."""
        return next(iter(self.all()), None)

    def before(self, release: Release) -> Release | None:
        """Returns the release before another one."""
        names = self.all()
        return next(iter(names[names.index(release) + 1 :]), None)

    def text(self, release: Release) -> bytes:
        """Returns the N-Triples of a release."""
        (row,) = self.journal.all("SELECT data FROM release WHERE name = ?", release.name)
        return zlib.decompress(row["data"])

    def changes(self, release: Release) -> list[Change] | None:
        """Returns what has changed since the release before; None if it was the first one."""
        (row,) = self.journal.all("SELECT changes FROM release WHERE name = ?", release.name)
        return None if row["changes"] is None else read_changes(json.loads(row["changes"]))

    def keep(self, release: Release, pieces: Iterable[bytes], changes: Iterable[Change] | None) -> Release:
        """Writes a release down, which is there once a scheme has its name; one of the same name that isn't there is
        overwritten. Returns it with its digest and its size."""
        packed, digest, size = zlib.compressobj(LEVEL), hashlib.sha256(), 0
        data = list[bytes]()
        for it in pieces:
            digest.update(it)
            size += len(it)
            data.append(packed.compress(it))
        data.append(packed.flush())
        made = replace(release, digest=digest.hexdigest(), size=size)
        said = None if changes is None else json.dumps(written_changes(changes), ensure_ascii=False)
        values = (*(getattr(made, it) for it in COLUMNS.split(", ")), said, b"".join(data))
        with self.journal.writing() as rows:
            if self.find(made.name) is not None:
                raise NameTaken(made.name)
            rows.execute("DELETE FROM release WHERE name = ?", (made.name,))
            rows.execute(f"INSERT INTO release ({COLUMNS}, changes, data) VALUES (?{', ?' * 9})", values)
        return made

    def is_as_released(self, release: Release) -> bool:
        """Whether nothing has changed since that everybody sees: the plan that has given schemes its name doesn't
        count."""
        found = self.journal.one(
            "SELECT 1 FROM concern WHERE plan > ? AND changes = 1 AND plan NOT IN"
            f" (SELECT plan FROM value WHERE field = '{RELEASE}' AND text = ?)",
            release.plan,
            release.name,
        )
        return found is None

    def changed_since(self, release: Release) -> list[int]:
        """Returns the resources of which everybody sees something else since a release."""
        found = self.journal.all(
            "SELECT DISTINCT number FROM concern WHERE plan > ? AND changes = 1 ORDER BY number", release.plan
        )
        return [it["number"] for it in found]

    def edition(self) -> tuple[str, str]:
        """Returns which version the present one is, and its day: the last release, or what follows it, with a plus and
        without a day, if something has changed since."""
        release = self.last()
        if release is None:
            return "", ""
        return (release.name, release.day) if self.is_as_released(release) else (f"{release.name}+", "")


def new_release(name: str, day: str, note: str, user: str, plan: int) -> Release:
    """Returns a release that is about to be written down."""
    return Release(name, day, note, now(), user, plan, "", 0)


def pieces_of(lines: Iterable[str]) -> Iterator[bytes]:
    """Yields lines as bytes, many at a time."""
    many, size = list[str](), 0
    for it in lines:
        many.append(it)
        size += len(it)
        if size > 1 << 16:
            yield "".join(many).encode()
            many, size = [], 0
    yield "".join(many).encode()
