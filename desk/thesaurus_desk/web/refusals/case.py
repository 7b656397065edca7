"""A request that the program refused, with what is needed to explain it."""
from __future__ import annotations

from collections.abc import Iterable
from dataclasses import dataclass
from typing import Any, Protocol

from markupsafe import Markup, escape

from thesaurus_desk.store.replica import Replica
from thesaurus_desk.words import Words

ARROW = Markup(" → ")


class Links(Protocol):
    """How a sentence names a resource."""

    def term(self, number: int) -> str:
        """Returns the term of a resource in the reader's language."""

    def link(self, number: int) -> Markup:
        """Returns a link to the page of a resource, with its term."""

    def new(self, reference: str) -> Markup:
        """Returns the term of what a reference stands for; nothing if it isn't known."""

    def elsewhere(self, iri: str) -> str:
        """Returns the IRI of a concept elsewhere, with what it is called there, if that is known."""

    def field(self, name: str) -> str:
        """Returns the name of a field of values in the reader's language."""

    def candidate_above(self, number: int) -> int | None:
        """Returns a broader concept that is a candidate, if there is one."""

    def returned(self, number: int) -> int | None:
        """Returns the live concept as which a dead one has come back, if its end was taken back."""


@dataclass(frozen=True)
class Case:
    """An answer that isn't what was asked for, under the name that the program gave, and the request."""

    name: str
    answer: dict[str, Any]
    request: dict[str, Any]
    replica: Replica
    words: Words
    links: Links

    @property
    def do(self) -> str:
        """What was asked for."""
        return str(self.request.get("do", ""))

    def say(self, key: str, /, **values: object) -> Markup:
        """Returns the text of a key of this name."""
        return escape(self.words(f"refusals.{self.name}.{key}", **values))

    def link(self, number: object) -> Markup:
        """Returns a link to a resource; the new concept of a plan, or a number that isn't known, by itself."""
        if isinstance(number, int) and self.replica.get(number) is not None:
            return self.links.link(number)
        return escape(self.words("sentences.new_one") if isinstance(number, str) else str(number))

    def way(self, numbers: Iterable[int]) -> Markup:
        """Returns the links to concepts that lead to one another."""
        return ARROW.join(self.link(it) for it in numbers)

    def kind(self, name: str) -> str:
        """Returns the name of a kind of label or link."""
        group = "label" if name in ("pref", "alt", "hidden", "scope") else "link"
        return self.words(f"kinds.{group}.{name}")

    def label(self, text: str | None = None) -> Markup:
        """Returns the label of the request, or another text in its language."""
        tag = str(self.request.get("tag", "")).lower()
        return label_of(self.words, self.request.get("text", "") if text is None else text, tag)


def label_of(words: Words, text: str, tag: str) -> Markup:
    """Returns a label as a sentence names it: in quotes, with its language."""
    marked = Markup('<span lang="{}" dir="auto">{}</span>').format(tag, text)
    return escape(words("sentences.label", text=marked, tag=tag))
