"""A thesaurus as objects, for the tools that look at one: resources, labels, links, postings and moves."""
from __future__ import annotations

from collections import Counter, defaultdict
from collections.abc import Collection, Iterable, Iterator, Mapping, Sequence
from functools import cached_property
from types import MappingProxyType
from typing import NamedTuple

from thesaurus_tools.command_line import REFUSED, ToolError
from thesaurus_tools.arrays import Places, no_places
from thesaurus_tools.fields import TERM_SOURCE, Field
from thesaurus_tools.kinds import BROADER, LABEL_KINDS, SYMMETRIC
from thesaurus_tools.values import FieldValue

# A resource of the store by its number, or another publisher's concept by its IRI.
End = int | str


class Resource(NamedTuple):
    """A scheme, a concept or a collection; `replaced` is the number of a dead concept's replacement."""

    number: int
    kind: str
    scheme: int | None
    is_live: bool
    replaced: int | None


class Label(NamedTuple):
    """A label or a scope note of a resource, with its kind as requests name it."""

    owner: int
    kind: str
    tag: str
    text: str


class Link(NamedTuple):
    """A link, with its kind as requests name it."""

    kind: str
    a: End
    b: End


class Posting(NamedTuple):
    """A posting: the concept that it was posted with, and the one to which it is assigned."""

    number: int
    key: str
    record: str
    first: int
    place: int
    is_withdrawn: bool


class Move(NamedTuple):
    """A move of a posting from one concept to another."""

    number: int
    posting: int
    source: int
    target: int


def normal_link(kind: str, a: End, b: End) -> Link:
    """Returns a link as a store keeps it: a symmetric one between two of its resources has the lesser number first."""
    is_turned = kind in SYMMETRIC and isinstance(a, int) and isinstance(b, int) and b < a
    return Link(kind, b, a) if is_turned else Link(kind, a, b)


def end_order(end: End) -> tuple:
    """Returns the sort key of an end: numbers first."""
    return (0, end, "") if isinstance(end, int) else (1, 0, end)


def link_order(link: Link) -> tuple:
    """Returns the sort key of a link."""
    return link.kind, end_order(link.a), end_order(link.b)


def by_ends(links: Iterable[Link]) -> dict[End, list[Link]]:
    """Returns the links of each resource, at either end."""
    found = defaultdict(list)
    for link in sorted(links, key=link_order):
        found[link.a].append(link)
        found[link.b].append(link)
    return found


class Contents(NamedTuple):
    """What a thesaurus has but postings: its base, its resources by their numbers, its labels and its links."""

    base: str
    resources: dict[int, Resource]
    labels: list[Label]
    links: set[Link]


class Store:
    """A thesaurus. A subclass says where its resources, labels, links and postings come from."""

    name: str
    base: str
    # Schemes, concepts and collections.
    resources: dict[int, Resource]
    labels: list[Label]
    links: set[Link]
    # The numbers of outside concepts by their IRIs, as far as they are known.
    outside: dict[str, int]
    # What a desk keeps beside the store, if that is read: its fields by their names, and the values of each resource.
    fields: Mapping[str, Field] = MappingProxyType({})
    values_of: Mapping[int, Sequence[FieldValue]] = MappingProxyType({})
    # What other publishers call concepts that are mapped to, by their IRIs: languages and labels, as far as a desk has
    # them.
    names_elsewhere: Mapping[str, Sequence[tuple[str, str]]] = MappingProxyType({})
    # Where collections are, if that is read.
    places: Places[int] = no_places()
    # Whether the links have their types; `has_plain`: also the plain broader link beside a typed one.
    has_types = has_plain = True

    def values_in(self, number: int, lang: str) -> Iterator[tuple[Field, FieldValue]]:
        """Yields the values of a resource in a language or in none, in the order of the fields, but for the sources of
        its terms."""
        held = [it for it in self.values_of.get(number, ()) if it.field != TERM_SOURCE]
        for field in self.fields.values() if held else ():
            for it in held:
                if it.field == field.name and (field.tag != "language" or it.tag == lang):
                    yield field, it

    def each_posting(self) -> Iterator[Posting]:
        """Yields the postings in the order of their numbers."""
        raise NotImplementedError

    def each_move(self) -> Iterator[Move]:
        """Yields the moves in the order of their numbers."""
        raise NotImplementedError

    def posting(self, number: int) -> Posting:
        """Returns the posting of a number. Raises ToolError for another number."""
        found = next((it for it in self.each_posting() if it.number == number), None)
        if not found:
            raise ToolError(f"{self.name}: no posting has the number {number}", REFUSED)
        return found

    def moves_of(self, number: int) -> list[Move]:
        """Returns the moves of a posting in their order."""
        return [it for it in self.each_move() if it.posting == number]

    def postings_at(self, places: Collection[int]) -> Iterator[Posting]:
        """Yields the postings at these concepts in the order of their numbers."""
        return (it for it in self.each_posting() if it.place in places and not it.is_withdrawn)

    def count_postings(self) -> dict[int, int]:
        """Returns the number of postings at each concept that has any."""
        return Counter(it.place for it in self.each_posting() if not it.is_withdrawn)

    def totals(self) -> dict[str, int]:
        """Returns the numbers of postings that were accepted, that are at a concept, and that are withdrawn."""
        withdrawn = Counter(it.is_withdrawn for it in self.each_posting())
        return {"accepted": sum(withdrawn.values()), "standing": withdrawn[False], "withdrawn": withdrawn[True]}

    @cached_property
    def labels_of(self) -> dict[int, list[Label]]:
        """The labels of each owner, in the order of kind, tag and text."""
        found = defaultdict(list)
        for label in sorted(self.labels, key=lambda it: (LABEL_KINDS.index(it.kind), it.tag, it.text)):
            found[label.owner].append(label)
        return found

    @cached_property
    def links_of(self) -> dict[End, list[Link]]:
        """The links of each resource, at either end."""
        return by_ends(self.links)

    def links_for(self, kinds: Collection[str]) -> Mapping[End, list[Link]]:
        """Returns links of each resource, all those of these kinds among them."""
        return self.links_of

    def others(self, number: int, kinds: Collection[str], *, at_a: bool = False, at_b: bool = False) -> list[End]:
        """Returns the other ends of links of these kinds whose end a, or b, is the resource."""
        links = [it for it in self.links_for(kinds).get(number, ()) if it.kind in kinds]
        found = {it.b for it in links if at_a and it.a == number} | {it.a for it in links if at_b and it.b == number}
        return sorted(found, key=end_order)

    def near(self, number: int, *, at_a: bool = False, at_b: bool = False) -> list[int]:
        """Returns the other ends of broader links, which are concepts of the store."""
        return [it for it in self.others(number, BROADER, at_a=at_a, at_b=at_b) if isinstance(it, int)]

    def broader(self, number: int) -> list[int]:
        """Returns the concepts broader than a concept in its scheme, whatever the types of the links."""
        return self.near(number, at_a=True)

    def narrower(self, number: int) -> list[int]:
        """Returns the concepts narrower than a concept in its scheme."""
        return self.near(number, at_b=True)

    def live_concepts(self) -> Iterator[Resource]:
        """Yields the live concepts in the order of their numbers."""
        return (it for _, it in sorted(self.resources.items()) if it.kind == "concept" and it.is_live)

    def concept(self, number: int) -> Resource:
        """Returns the concept of a number. Raises ToolError for another number."""
        found = self.resources.get(number)
        kind = found.kind if found else "outside concept" if number in self.outside.values() else None
        if not kind:
            raise ToolError(f"{self.name}: nothing has the number {number}", REFUSED)
        if not found or kind != "concept":
            raise ToolError(
                f"{self.name}: number {number} is no concept, but a{'n' * (kind[0] == 'o')} {kind}", REFUSED
            )
        return found

    def live_concept(self, number: int) -> Resource:
        """Returns the live concept of a number. Raises ToolError for another number."""
        found = self.concept(number)
        if not found.is_live:
            ended = f"replaced by {found.replaced}" if found.replaced else "deprecated"
            raise ToolError(f"{self.name}: concept {number} is dead: {ended}", REFUSED)
        return found

    def live_end(self, number: int) -> int | None:
        """Returns the live concept to which replacements lead from a number, or None."""
        found: int | None = number
        while found and not self.resources[found].is_live:
            found = self.resources[found].replaced
        return found

    @cached_property
    def main_language(self) -> str:
        """The tag that most preferred labels have; among several that with most labels."""
        preferred, labels = Counter(it.tag for it in self.labels if it.kind == "pref"), Counter(
            it.tag for it in self.labels
        )
        return min(preferred, key=lambda tag: (-preferred[tag], -labels[tag], tag), default="")

    def term(self, end: End | None, langs: Iterable[str] = ()) -> str:
        """Returns a preferred label in the first of the languages that has one, else in the main or any language; else
        the IRI or number."""
        if end is None:
            return ""
        texts = dict(self.names_elsewhere.get(end, ())) if isinstance(end, str) else self.preferred_labels(end)
        tags = [it for it in (*langs, self.main_language, *sorted(texts)) if it in texts]
        return texts[tags[0]] if tags else end if isinstance(end, str) else f"[{end}]"

    def preferred_labels(self, number: int) -> dict[str, str]:
        """Returns the preferred labels of a resource by their languages."""
        return {it.tag: it.text for it in self.labels_of.get(number, ()) if it.kind == "pref"}
