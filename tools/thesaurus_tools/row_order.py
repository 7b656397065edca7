"""The order in which the rows of a table are done: each behind those that make the concepts that it names, wherever
they are in the table."""
from __future__ import annotations

from collections.abc import Iterable, Iterator, Mapping
from typing import NamedTuple

from thesaurus_tools.kinds import BROADER

# What cells of another row may call a link that is said of both ends.
TURNED = {
    **dict.fromkeys(BROADER, ("narrower",)), "narrower": BROADER, "related": ("related",), "exact": ("exact",),
    "close": ("close",), "broad": ("narrow",), "narrow": ("broad",), "relMatch": ("relMatch",),
}  # fmt: skip


class NamedEnd(NamedTuple):
    """What a cell of links says: its role, and the term at the other end."""

    role: str
    text: str


class RowOrder:
    """What the rows of a table name of one another. `made` has the rows that make concepts, by their preferred terms,
    and `ends` what cells of links say, both by the places of rows."""

    def __init__(self, made: Mapping[str, int], ends: Mapping[int, Iterable[NamedEnd]]):
        self.made, self.makers = made, set(made.values())
        self.ends = {
            place: [it for it in dict.fromkeys(its) if made.get(it.text, place) != place] for place, its in ends.items()
        }
        self.said = {(place, it.role, made[it.text]) for place, its in self.ends.items() for it in its}

    def left_to_others(self, place: int) -> set[NamedEnd]:
        """Returns what a row that makes a concept leaves to another one, which says it, too, and is done behind it:
        the row of the narrower concept, and otherwise the later one."""
        if place not in self.makers:
            return set()
        return {
            it
            for it in self.ends.get(place, ())
            if it.role not in BROADER
            and (it.role == "narrower" or self.made[it.text] > place)
            and any((self.made[it.text], role, place) in self.said for role in TURNED.get(it.role, ()))
        }

    def needs(self, place: int) -> list[int]:
        """Returns the rows behind which a row is done, in their order."""
        left = self.left_to_others(place)
        return sorted({self.made[it.text] for it in self.ends.get(place, ()) if it not in left})

    def places(self, count: int) -> Iterator[int]:
        """Yields the places of so many rows in the order in which they are done: that of the table, but for what a row
        needs. Of rows that need one another in a ring the last one is done first."""
        begun = set[int]()
        for first in range(count):
            waiting = [] if first in begun else [(first, iter(self.needs(first)))]
            begun.add(first)
            while waiting:
                place, needed = waiting[-1]
                other = next((it for it in needed if it not in begun), None)
                if other is None:
                    yield waiting.pop()[0]
                else:
                    begun.add(other)
                    waiting.append((other, iter(self.needs(other))))
