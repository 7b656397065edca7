"""What a store has, as look-ups return it: resources as they are and as a page sees them, links, postings, and what a
search finds."""
from __future__ import annotations

from collections.abc import Iterable, Iterator
from dataclasses import dataclass, field
from typing import Any, NamedTuple, TypeVar

from thesaurus_desk.store.text_keys import has_language
from thesaurus_tools.kinds import LABEL_KINDS, SYMMETRIC

# A language tag and a text.
Term = tuple[str, str]
# A term, with what is known of it.
T = TypeVar("T", bound=tuple[str, ...])
# The kind, the tag and the text of a label.
OwnLabel = tuple[str, str, str]
# The kind of a mapping as seen from its other end.
OPPOSITE = {"broad": "narrow", "narrow": "broad"}


def best_of(terms: Iterable[T], langs: Iterable[str]) -> T | None:
    """Returns the first of some terms that is in the first language that has one, else the first."""
    found = list(terms)
    # (a page asks hundreds of times)
    for lang in langs:
        for it in found:
            if has_language(it[0], lang):
                return it
    return found[0] if found else None


class Link(NamedTuple):
    """A link between two resources, with its kind as requests name it."""

    kind: str
    a: int
    b: int


def normal(link: Link, is_outside: bool = False) -> Link:
    """Returns a link as the store has it: of a symmetric one between its own resources the lesser number is first."""
    kind, a, b = link
    return Link(kind, b, a) if kind in SYMMETRIC and not is_outside and b < a else link


@dataclass(slots=True)
class Resource:
    """A scheme, a concept, a collection or an outside concept, with its labels and links."""

    number: int
    kind: str
    scheme: int | None = None
    is_live: bool = True
    # The concept into which it was merged.
    replaced: int | None = None
    # The IRI of an outside concept.
    iri: str | None = None
    labels: set[OwnLabel] = field(default_factory=set)
    # Broader and narrower concepts of its scheme, with the kinds of the links to each.
    broader: dict[int, set[str]] = field(default_factory=dict)
    narrower: dict[int, set[str]] = field(default_factory=dict)
    related: set[int] = field(default_factory=set)
    # The mappings that join it, as the store has them. Outside concepts have theirs, too.
    matches: set[Link] = field(default_factory=set)
    # The collections that it is a member of, and the members of a collection.
    collections: set[int] = field(default_factory=set)
    members: set[int] = field(default_factory=set)

    def terms(self, kind: str) -> list[Term]:
        """Returns its labels of a kind in byte order."""
        return sorted((tag, text) for its, tag, text in self.labels if its == kind)

    def links(self) -> Iterator[Link]:
        """Yields its links as the store has them."""
        me = self.number
        for other, kinds in self.broader.items():
            yield from (Link(kind, me, other) for kind in kinds)
        for other, kinds in self.narrower.items():
            yield from (Link(kind, other, me) for kind in kinds)
        yield from (normal(Link("related", me, other)) for other in self.related)
        yield from self.matches
        yield from (Link("member", other, me) for other in self.collections)
        yield from (Link("member", me, other) for other in self.members)

    def mappings(self) -> list[tuple[str, int]]:
        """Returns its mappings as seen from it: the kind, and the number at the other end."""
        me = self.number
        found = {(it.kind, it.b) if it.a == me else (OPPOSITE.get(it.kind, it.kind), it.a) for it in self.matches}
        return sorted(found)

    def typed(self) -> list[tuple[str, int]]:
        """Returns its typed links to broader and narrower concepts, named as the program names them."""
        up = [(kind, other) for other, kinds in self.broader.items() for kind in kinds if kind != "broader"]
        down = [(kind, other) for other, kinds in self.narrower.items() for kind in kinds if kind != "broader"]
        return sorted(up + [(kind.replace("broader", "narrower"), other) for kind, other in down])


@dataclass(frozen=True, slots=True)
class View:
    """A resource as it was at one moment: what a page shows."""

    number: int
    kind: str
    scheme: int | None
    is_live: bool
    replaced: int | None
    # Its own address: that of an outside concept is another publisher's.
    iri: str
    pref: tuple[Term, ...]
    alt: tuple[Term, ...]
    hidden: tuple[Term, ...]
    scope: tuple[Term, ...]
    broader: tuple[int, ...]
    narrower: tuple[int, ...]
    related: tuple[int, ...]
    # Typed links as the program's view has them: (`broaderGeneric`, number), (`narrowerGeneric`, number) and so on.
    typed: tuple[tuple[str, int], ...]
    # Broader and narrower concepts to which an untyped link leads, also where a typed one leads there, too.
    untyped: tuple[tuple[str, int], ...]
    mappings: tuple[tuple[str, int], ...]
    collections: tuple[int, ...]
    members: tuple[int, ...]
    # The number of postings assigned to it.
    postings: int

    @property
    def above(self) -> tuple[tuple[str, int], ...]:
        """Links to broader concepts, with their kinds."""
        return tuple(it for it in (*self.untyped, *self.typed) if it[1] in self.broader)

    @property
    def below(self) -> tuple[tuple[str, int], ...]:
        """Links to narrower concepts, with their kinds."""
        return tuple(it for it in (*self.untyped, *self.typed) if it[1] in self.narrower)

    @property
    def is_top(self) -> bool:
        """Whether it is live and has no broader concept."""
        return self.is_live and not self.broader

    def terms(self, kind: str) -> tuple[Term, ...]:
        """Returns its labels of a kind: pref, alt, hidden or scope."""
        return {"pref": self.pref, "alt": self.alt, "hidden": self.hidden, "scope": self.scope}[kind]

    def answer(self) -> dict[str, Any]:
        """Returns the view as the program's `GET /concepts/n` has it."""
        lists = ("broader", "narrower", "related", "collections")
        pairs = (*LABEL_KINDS, "typed", "mappings")
        return {
            **{name: list(getattr(self, name)) for name in lists},
            **{name: [list(it) for it in getattr(self, name)] for name in pairs},
            **{name: getattr(self, name) for name in ("number", "scheme", "replaced", "postings")},
            "live": self.is_live,
            "top": self.is_top,
        }


def view_of(it: Resource, base: str, postings: int) -> View:
    """Returns the view of a resource now."""
    up = [("broader", other) for other, kinds in it.broader.items() if "broader" in kinds]
    down = [("narrower", other) for other, kinds in it.narrower.items() if "broader" in kinds]
    return View(
        it.number,
        it.kind,
        it.scheme,
        it.is_live,
        it.replaced,
        it.iri or f"{base}{it.number}",
        pref=tuple(it.terms("pref")),
        alt=tuple(it.terms("alt")),
        hidden=tuple(it.terms("hidden")),
        scope=tuple(it.terms("scope")),
        broader=tuple(sorted(it.broader)),
        narrower=tuple(sorted(it.narrower)),
        related=tuple(sorted(it.related)),
        typed=tuple(it.typed()),
        untyped=tuple(sorted(up + down)),
        mappings=tuple(it.mappings()),
        collections=tuple(sorted(it.collections)),
        members=tuple(sorted(it.members)),
        postings=postings,
    )


@dataclass(slots=True)
class Posting:
    """A posting: the concept that it was posted with, and the one to which it is assigned."""

    number: int
    key: str
    record: str
    first: int
    place: int
    is_withdrawn: bool = False
    # Its moves: number, source, target.
    moves: tuple[tuple[int, int, int], ...] = ()

    def answer(self) -> dict[str, Any]:
        """Returns the posting as the program's `GET /postings/n` has it."""
        return {
            **{name: getattr(self, name) for name in ("number", "key", "record", "first", "place")},
            "moves": [list(it) for it in self.moves],
            "withdrawn": self.is_withdrawn,
        }


@dataclass(frozen=True, slots=True)
class Hit:
    """A resource that a search found, and the label that it was found by."""

    number: int
    kind: str
    tag: str
    text: str
    # Whether it was found because one typing error was forgiven.
    is_alike: bool = False
