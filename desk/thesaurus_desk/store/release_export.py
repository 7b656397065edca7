"""The export of a release: of one moment, while others read and change the store."""
from __future__ import annotations

from collections import defaultdict
from collections.abc import Iterator
from dataclasses import dataclass
from typing import Any

from thesaurus_desk.interfaces.linked_data import numbers_of_export
from thesaurus_desk.interfaces.source import Source
from thesaurus_desk.journal.history import Dates, History
from thesaurus_desk.journal.past_replica import JournalSnapshot
from thesaurus_desk.journal.releases import new_release, pieces_of
from thesaurus_desk.journal.values import Values, set_request
from thesaurus_desk.store.plan_execution import Desk
from thesaurus_desk.store.plan_outcome import Outcome
from thesaurus_desk.store.replica import Replica
from thesaurus_tools.arrays import places_of_values
from thesaurus_tools.fields import RELEASE, in_rdf
from thesaurus_tools.public_values import PublicValue
from thesaurus_tools.rdf_writer import write_ntriples
from thesaurus_tools.release_changes import changes_of_lines


@dataclass(frozen=True)
class ReleaseSource:
    """What an export is made of at the moment of a replica, and the last plan before."""

    source: Source
    plan: int


def frozen_source(replica: Replica, name: str, day: str) -> ReleaseSource:
    """Returns what a release with a name and a day is made of, within `replica.reading()`: all values and dates are
    read at once."""
    journal: Any = JournalSnapshot(replica)
    values, dates = Values(journal), History(journal).all_dates()
    before = values.stated_dates()
    public = in_rdf(values.fields())
    found: dict[int, list[PublicValue]] = defaultdict(list)
    rows = []
    for it in values.each():
        rows.append((it.owner, it.field, it.text))
        if it.field in public:
            found[it.owner].append(PublicValue(public[it.field], it.tag, it.text, it.source))
    places = places_of_values(rows, replica.final)
    (last,) = journal.all("SELECT coalesce(max(id), 0) FROM plan WHERE state <> 'sent'")

    def dates_of(number: int) -> tuple[str | None, str | None]:
        its, stated = dates.get(number, Dates(None, None)), before.get(number, {})
        return stated.get("created", its.created), stated.get("modified", its.modified)

    source = Source(
        lambda: replica,
        dates_of,
        values=lambda number: found.get(number, ()),
        places=lambda: places,
        edition=lambda: (name, day),
    )
    return ReleaseSource(source, int(last[0]))


def release_lines(source: Source) -> Iterator[str]:
    """Yields the N-Triples of all that everybody sees."""
    numbers = numbers_of_export(source, None)
    # (of what it names it is asked of what kind it is)
    source.replica().look_at(numbers)
    for number in numbers:
        yield from write_ntriples(source.triples(number), source.replica().base)


def make_release(desk: Desk, user: str, name: str, day: str, note: str) -> Outcome:
    """Freezes what everybody sees now, and gives all schemes the release. Raises NameTaken.

    Others read and change meanwhile: what they change is not in it."""
    replica = desk.public_view()
    with replica.reading():
        frozen = frozen_source(replica, name, day)
        schemes = replica.numbers("scheme")
        lines = list(release_lines(frozen.source))
    before = desk.releases.last()
    old = desk.releases.text(before).decode().split("\n")[:-1] if before is not None else None
    changes = None if old is None else list(changes_of_lines(old, lines))
    desk.releases.keep(new_release(name, day, note, user, frozen.plan), pieces_of(lines), changes)
    return desk.perform(user, "release", [set_request(it, RELEASE, "", new=name) for it in schemes])
