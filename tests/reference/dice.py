"""Throws numbers that are the same in each run and under each version of Python, and requests that are made by them."""
from __future__ import annotations

from collections.abc import Callable, Sequence
from typing import Any, TypeVar

from plain import BASE, BROADER, LABEL_KINDS, MAPPINGS, Plain

T = TypeVar("T")
Request = dict[str, Any]

LINK_KINDS = ("broader", "broader", "broader", "related", "member", "member", *BROADER[1:], *MAPPINGS)
IRIS = [f"{BASE}9", *(f"http://example.org/{n}" for n in range(1, 8))]
WORD = 2**64


class Dice:
    """Throws numbers: the generator is SplitMix64."""

    def __init__(self, seed: int) -> None:
        self.state = seed

    def throw(self) -> int:
        """Returns a number below 2^64."""
        self.state = (self.state + 0x9E3779B97F4A7C15) % WORD
        mixed = self.state
        mixed = (mixed ^ mixed >> 30) * 0xBF58476D1CE4E5B9 % WORD
        mixed = (mixed ^ mixed >> 27) * 0x94D049BB133111EB % WORD
        return mixed ^ mixed >> 31

    def below(self, count: int) -> int:
        return self.throw() % count

    def between(self, first: int, last: int) -> int:
        return first + self.below(last - first + 1)

    def pick(self, items: Sequence[T]) -> T:
        return items[self.below(len(items))]

    def one_in(self, count: int) -> bool:
        return self.below(count) == 0


class Requests(Dice):
    """Throws requests that are likely to be accepted, or to be refused for some reason."""

    def number(self, last: int) -> int:
        """A number from 1 up to the last, or seldom the one after it."""
        return last + 1 if self.one_in(40) or not last else self.between(1, last)

    def word(self) -> Request:
        return {"tag": self.pick(("de", "en", "en", "en", "en", "fr")), "text": f"t{self.between(10, 39)}"}

    def making(self, plain: Plain) -> Request:
        last = len(plain.resources)
        drawn = self.below(16)
        if last < 2 or drawn == 0:
            return {"do": "scheme", **self.word()}
        if drawn == 1:
            return {"do": "collection", "scheme": self.number(3), **self.word()}
        if drawn == 2:
            return {"do": "outside", "iri": self.pick(IRIS)}
        return {"do": "concept", "scheme": self.number(last) if drawn == 3 else self.between(1, 2), **self.word()}

    def labelling(self, plain: Plain) -> Request:
        """About a label that is held, or about any."""
        last = len(plain.resources)
        any_label = (self.number(last), self.pick(LABEL_KINDS), *self.word().values())
        owner, kind, tag, text = self.pick(plain.labels) if plain.labels and self.one_in(2) else any_label
        if self.one_in(4):
            owner = self.number(last)
        word = {"tag": tag, "text": text} if self.one_in(2) else self.word()
        does = self.pick(("addLabel", "addLabel", "dropLabel", "relabel"))
        if does == "relabel":
            return {"do": does, "owner": owner, **word, "keep": self.one_in(2)}
        return {"do": does, "owner": owner, "kind": kind if self.one_in(2) else self.pick(LABEL_KINDS), **word}

    def ends(self, refuses: Callable[[int, int], object], last: int) -> tuple[int, int]:
        """Two numbers, mostly such as may be linked or merged."""
        tried = [(self.number(last), self.number(last)) for _ in range(self.between(1, 30))]
        return next((it for it in tried if not refuses(*it)), tried[-1])

    def linking(self, plain: Plain) -> Request:
        kind = self.pick(LINK_KINDS)
        a, b = self.ends(lambda a, b: plain.refuses_ends(kind, a, b), len(plain.resources))
        does = "unlink" if self.one_in(5) else "link"
        if plain.links and self.one_in(3):
            held, a, b = self.pick(plain.links)
            kind = self.pick((held, held, kind))
        if self.one_in(6):
            a, b = b, a
        return {"do": does, "kind": kind, "a": a, "b": b}

    def splitting(self, plain: Plain) -> Request:
        """Postings of a concept, and now and then any other, or one twice."""
        posting = self.number(len(plain.postings))
        source = plain.place(posting) if posting <= len(plain.postings) else self.number(len(plain.resources))
        listed = [n for n in plain.standing_at(source) if self.one_in(2)]
        listed += [self.number(len(plain.postings))] if self.one_in(4) else []
        listed += [posting] if self.one_in(4) else []
        return {"do": "split", "source": source, **self.word(), "postings": listed[::-1]}

    def posting(self, plain: Plain) -> Request:
        last = len(plain.resources)
        drawn = self.below(20)
        if drawn < 12:
            record = f"r{self.below(3)}"
            if plain.postings and self.one_in(5):
                known = self.pick(plain.postings)
                return {"do": "post", "key": known["key"], "record": record, "concept": known["first"]}
            return {"do": "post", "key": f"k{self.below(1000)}", "record": record, "concept": self.number(last)}
        if drawn < 14:
            return {"do": "withdraw", "posting": self.number(len(plain.postings))}
        if drawn < 17:
            return self.splitting(plain)
        if drawn < 19:
            source, target = self.ends(plain.refuses_merge, last)
            return {"do": "merge", "source": source, "target": target}
        return {"do": "deprecate", "concept": self.number(last)}

    def showing(self, plain: Plain) -> Request:
        concept = self.number(len(plain.resources))
        return self.pick(
            (
                {"get": "totals"},
                {"get": "concept", "number": concept},
                {"get": "postings", "concept": concept},
                {"get": "posting", "number": self.number(len(plain.postings))},
            )
        )

    def request(self, plain: Plain, enough: int = 24) -> Request:
        """A request, likelier to make something as long as there are not enough resources."""
        if self.below(12) < (6 if len(plain.resources) < enough else 1):
            return self.making(plain)
        kinds = [self.labelling] * 4 + [self.linking] * 5 + [self.posting] * 4 + [self.showing]
        return self.pick(kinds)(plain)
