"""Where collections are in the hierarchy, by the values that the journal has, and what is below a concept with them."""
from __future__ import annotations

from collections.abc import Sequence
from weakref import WeakKeyDictionary

from thesaurus_desk.journal.entries import Journal
from thesaurus_desk.journal.values import Values
from thesaurus_desk.store.replica import Replica
from thesaurus_tools.arrays import Places, places_of_values


class Arrays:
    """The places of collections, as each replica shows what they name; kept until a plan changes something."""

    def __init__(self, journal: Journal, values: Values) -> None:
        self.journal, self.values = journal, values
        # With the last plan and the version of the replica of which they were made.
        self.kept: WeakKeyDictionary[Replica, tuple[tuple[int, int], Places[int]]] = WeakKeyDictionary()

    def now(self, replica: Replica) -> Places[int]:
        """Returns the places as they are now."""
        state = self.journal.last_plan(), replica.version
        found = self.kept.get(replica)
        if found is None or found[0] != state:
            rows = ((it.owner, it.field, it.text) for it in self.values.places())
            with replica.reading():
                found = state, places_of_values(rows, replica.final)
            self.kept[replica] = found
        return found[1]


def parts_of(replica: Replica, places: Places[int], number: int, langs: Sequence[str]) -> list[int]:
    """Returns what is in a collection, its members and the collections within it, in its order; what has no place in
    that comes last, by its term."""
    view = replica.view(number)
    members = view.members if view is not None else ()
    return places.in_order(number, replica.ordered([*places.inner.get(number, ()), *members], langs))


def numbers_below(replica: Replica, places: Places[int], concept: int, langs: Sequence[str]) -> list[int]:
    """Returns what a tree has below a concept: its arrays, and the narrower concepts that are in none of these."""
    narrower = replica.branch(concept)
    arrays = places.arrays.get(concept)
    if not arrays:
        return replica.ordered(narrower, langs)
    views = (replica.view(it) for it in arrays)
    within = {member for view in views if view is not None for member in view.members}
    labels = replica.ordered(places.directly_below(concept), langs)
    return [*labels, *replica.ordered((it for it in narrower if it not in within), langs)]
