"""Along which resources a merge or a link would break the rule for which the program has refused it."""
from __future__ import annotations

from collections.abc import Iterator

from thesaurus_desk.store.model import OPPOSITE, Link
from thesaurus_desk.store.replica import Replica
from thesaurus_tools.kinds import BROADER

UP, DOWN, RELATED, EXACT, APART = "up", "down", "related", "exact", "apart"
# The mappings, as seen from a resource, that lead so.
MATCHES = {
    UP: ("broad",),
    DOWN: ("narrow",),
    RELATED: ("relMatch",),
    EXACT: ("exact",),
    APART: ("broad", "narrow", "relMatch"),
}


# The resources along which a rule would be broken, none if they aren't found. Of Cycle it is the ring: its first is its
# last. Of S27 it is the chain up from one of two related concepts to the other. Of S46 it is the two that would be
# exact matches, and broader or related matches. In the ways of a merge the target is in the place of the source.
Way = tuple[int, ...]


def way_of_merge(replica: Replica, rule: str, source: int, target: int) -> Way:
    """Returns the way along which a merge of two concepts would break a rule."""
    with replica.reading():
        graph = Graph(replica, merged=(source, target))
        if rule == "Cycle":
            return graph.chain(target, target)
        return graph.related_in_chain(target, target) if rule == "S27" else graph.apart_but_exact(target)


def way_of_link(replica: Replica, rule: str, link: Link) -> Way:
    """Returns the way along which a link would break a rule. Its ends must be such as the kind joins."""
    with replica.reading():
        graph = Graph(replica, added=replica.normal(link))
        kind, a, b = link
        low, high = (b, a) if kind == "narrow" else (a, b)
        if rule == "Cycle":
            return graph.chain(low, low)
        if rule == "S46":
            return graph.apart_but_exact(a)
        if kind in ("related", "relMatch"):
            return graph.chain(a, b) or graph.chain(b, a)
        return graph.related_in_chain(low, high)


class Graph:
    """The links as they would be after a merge, or with another link."""

    def __init__(self, replica: Replica, merged: tuple[int, int] | None = None, added: Link | None = None) -> None:
        self.replica, self.added = replica, added
        self.source, self.target = merged or (0, 0)

    def next_to(self, number: int, which: str) -> set[int]:
        """Returns what a resource is linked with: up, down, related, exact, or apart (by another match than an
        exact one)."""
        found: set[int] = set()
        for node in (number, self.source) if self.source and number == self.target else (number,):
            it = self.replica.resource(node)
            found.update(it.broader if which == UP else it.narrower if which == DOWN else ())
            found.update(it.related if which == RELATED else ())
            if it.matches:
                found.update(other for kind, other in it.mappings() if kind in MATCHES[which])
        if self.source in found:
            found = found - {self.source} | {self.target}
        if self.added and number in self.added[1:]:
            found.update(self.added_next_to(number, which))
        return found - {number}

    def added_next_to(self, number: int, which: str) -> Iterator[int]:
        """Yields the other end of the link that is added, if it is of the kind."""
        kind, a, b = self.added or Link("", 0, 0)
        other, is_a = (b, True) if a == number else (a, False)
        seen = kind if is_a else OPPOSITE.get(kind, kind)
        is_hierarchical = kind in BROADER and which == (UP if is_a else DOWN)
        if is_hierarchical or kind == "related" == which or seen in MATCHES[which]:
            yield other

    def reach(self, start: int, which: str) -> set[int]:
        """Returns a resource and what links of a kind lead to from it."""
        found, waiting = {start}, [start]
        while waiting:
            news = self.next_to(waiting.pop(), which) - found
            found |= news
            waiting += news
        return found

    def chain(self, low: int, high: int) -> Way:
        """Returns the shortest chain of one or more links up from one to another, or from one to itself."""
        came: dict[int, int] = {}
        waiting = [low]
        for at in waiting:
            for above in sorted(self.next_to(at, UP)):
                if above == high:
                    way = [high, at]
                    while way[-1] != low:
                        way.append(came[way[-1]])
                    return tuple(way[::-1])
                if above not in came and above != low:
                    came[above] = at
                    waiting.append(above)
        return ()

    def related_in_chain(self, low: int, high: int) -> Way:
        """Returns the chain up between two related ones, where one is `low` or below it, and the other one `high` or
        above it."""
        above = self.reach(high, UP)
        for one in sorted(self.reach(low, DOWN)):
            for other in sorted(self.next_to(one, RELATED) & above - {one}):
                return self.chain(one, other)
        return ()

    def apart_but_exact(self, number: int) -> Way:
        """Returns two of those that are exact matches by a chain with a resource, and that have another match, too."""
        alike = self.reach(number, EXACT)
        for one in sorted(alike):
            for other in sorted(self.next_to(one, APART) & alike):
                return one, other
        return ()
