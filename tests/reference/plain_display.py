"""The displays of the plain program: what a scheme's alphabetical and hierarchical display say in words, over plain
lists."""
from __future__ import annotations

from collections.abc import Iterable, Iterator
from typing import Any

from plain import BROADER, Plain

# A text of a concept, and the concept's number.
Named = tuple[str, int]
# By what such texts are sorted.
Rank = tuple[bytes, bytes, int]

# The symbols of the four kinds of broader links, upwards and downwards; and the marks of the typed ones in a hierarchy.
UP, DOWN, MARKS = ("BT", "BTG", "BTP", "BTI"), ("NT", "NTG", "NTP", "NTI"), ("", " (G)", " (P)", " (I)")


class PlainDisplay:
    """The live concepts of a scheme, with their terms in a language."""

    def __init__(self, plain: Plain, scheme: int | None, tag: str) -> None:
        self.plain, self.tag = plain, tag
        self.concepts = [
            n
            for n, it in enumerate(plain.resources, 1)
            if it["kind"] == "concept" and it["scheme"] == scheme and it["live"]
        ]

    def term(self, number: int) -> str:
        label = self.plain.preferred(number, self.tag)
        return label[3] if label else f"[{number}]"

    def texts(self, number: int, kind: str) -> list[Named]:
        """The concept's labels of a kind in the language."""
        return [
            (text, number)
            for owner, of_kind, tag, text in self.plain.labels
            if (owner, of_kind, tag) == (number, kind, self.tag)
        ]

    def terms(self, kind: str, number: int, is_second: bool = False) -> list[Named]:
        """The terms at the other ends of the links of a kind at which the concept is the first, or the second."""
        pairs = [(b, a) if is_second else (a, b) for of_kind, a, b in self.plain.links if of_kind == kind]
        return [(self.term(b), b) for a, b in pairs if a == number]

    def parts(self, number: int) -> Iterator[tuple[str, list[Named]]]:
        """The symbols below a term, each with its texts."""
        yield "SN", self.texts(number, "scope")
        yield "UF", self.texts(number, "alt")
        for symbols, is_second in ((UP, False), (DOWN, True)):
            yield from ((symbol, self.terms(kind, number, is_second)) for symbol, kind in zip(symbols, BROADER))
        yield "RT", self.terms("related", number) + self.terms("related", number, True)

    def alphabetical(self) -> bytes:
        entries: list[tuple[Any, bool, list[str]]] = []
        for number in self.concepts:
            term = self.term(number)
            lines = [
                f"  {symbol} {text}" for symbol, texts in self.parts(number) for text, _ in sorted(texts, key=place)
            ]
            entries.append((place((term, number)), False, [term, *lines]))
            entries += [(place(it), True, [it[0], f"  USE {term}"]) for it in self.texts(number, "alt")]
        return text_of(line for _, _, lines in sorted(entries) for line in lines)

    def broader(self, number: int) -> set[int]:
        """The concepts above a concept."""
        return {b for kind, a, b in self.plain.links if kind in BROADER and a == number}

    def rank(self, number: int) -> Rank:
        return place((self.term(number), number))

    def path(self, number: int) -> list[int]:
        """The way to a concept's line at home: below the first of the concepts above it."""
        above = sorted(self.broader(number), key=self.rank)
        return [*(self.path(above[0]) if above else []), number]

    def hierarchical(self) -> bytes:
        lines = []
        for number in self.concepts:
            above = sorted(self.broader(number), key=self.rank)
            places: list[int | None] = [*above] or [None]
            for it in places:
                way = [*(self.path(it) if it else []), number]
                marks = "".join(mark for mark, kind in zip(MARKS, BROADER) if (kind, number, it) in self.plain.links)
                star = " *" * (it is not None and it != above[0])
                lines.append(
                    ([self.rank(step) for step in way], f"{'  ' * (len(way) - 1)}{self.term(number)}{marks}{star}")
                )
        return text_of(line for _, line in sorted(lines))


def place(named: Named) -> Rank:
    """By what a text of a concept is sorted."""
    text, number = named
    return text.casefold().encode(), text.encode(), number


def text_of(lines: Iterable[str]) -> bytes:
    return "".join(f"{line}\n" for line in lines).encode()
