"""A thesaurus without the concepts that the public doesn't see, as a desk shows it: what is below one of them is below
the nearest ones that are seen."""
from __future__ import annotations

from collections import defaultdict
from collections.abc import Collection

from thesaurus_tools.kinds import BROADER
from thesaurus_tools.store import Link, Store


def leave_out(store: Store, hidden: Collection[int]) -> None:
    """Leaves concepts out of a store that was opened for reading."""
    if not hidden:
        return
    places = bridges(store.links, hidden)
    store.links = {it for it in store.links if it.a not in hidden and it.b not in hidden} | places
    store.labels = [it for it in store.labels if it.owner not in hidden]
    store.resources = {
        number: it._replace(replaced=None) if it.replaced in hidden else it
        for number, it in store.resources.items()
        if number not in hidden
    }


def bridges(links: Collection[Link], hidden: Collection[int]) -> set[Link]:
    """Returns the links to the nearest concepts that are seen above what is below hidden ones, where there are none."""
    above: dict[int, set[int]] = defaultdict(set)
    for it in links:
        if it.kind in BROADER and isinstance(it.a, int) and isinstance(it.b, int):
            above[it.a].add(it.b)
    found = set[Link]()
    for low in [number for number, highs in above.items() if number not in hidden and not highs.isdisjoint(hidden)]:
        waiting, met = list(above[low]), set[int]()
        while waiting:
            high = waiting.pop()
            if high in hidden and high not in met:
                met.add(high)
                waiting += above.get(high, ())
            elif high not in hidden and high not in above[low]:
                found.add(Link(BROADER[0], low, high))
    return found
