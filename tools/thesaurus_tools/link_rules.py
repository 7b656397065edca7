"""The rules that a link of a vocabulary may break."""
from __future__ import annotations

import re
from collections import deque
from typing import TYPE_CHECKING

from thesaurus_tools.kinds import BROADER, MAPPINGS, SYMMETRIC

if TYPE_CHECKING:
    from thesaurus_tools.vocabulary import Vocabulary

# The order in which links are added: hierarchical ones first, those with a type before others, so that a rule that two
# links break is the other one's.
LINK_ORDER = (*BROADER[1:], "broader", "broad", "narrow", "related", "relMatch", "exact", "close", "member")
IRI_FORM = re.compile(r'[A-Za-z][A-Za-z0-9+.-]*:[^\x00-\x20<>"{}|^`\\]+')
# The name of an outside concept is its IRI after this.
OUTSIDE = "outside "


class LinkRules:
    """The links accepted so far, and the rules that a further one may break."""

    def __init__(self, vocabulary: Vocabulary):
        self.vocabulary = vocabulary
        self.above: dict[str, set[str]] = {}
        self.apart: dict[str, set[str]] = {}
        self.alike: dict[str, set[str]] = {}
        self.seen: set[tuple[str, str, str]] = set()

    def accept(self, kind: str, a: str, b: str) -> bool:
        """Adds a link unless a rule refuses it, which becomes a finding."""
        is_turned = kind in SYMMETRIC and b in self.vocabulary.resources and b < a
        held = (kind, b, a) if is_turned else (kind, a, b)
        if held in self.seen or kind == "broader" and any((it, a, b) in self.seen for it in BROADER):
            return False
        if b == OUTSIDE + a and a not in self.vocabulary.resources:
            # (that a concept is left out is a finding already, and its own old IRI with it)
            return False
        why = self.refusal_of_ends(kind, a, b) or self.refusal(kind, a, b)
        if why:
            ring = self.chain(*self.low_and_high(kind, a, b)[::-1]) if why == "Cycle" else []
            said = {"ring": " < ".join(ring)} if ring else {}
            self.vocabulary.find(
                why, a, "ring" if ring else "link", link_kind=kind, target=b.removeprefix(OUTSIDE), **said
            )
            return False
        self.seen.add(held)
        if kind in BROADER or kind in ("broad", "narrow"):
            low, high = self.low_and_high(kind, a, b)
            self.above.setdefault(low, set()).add(high)
        if kind in ("broad", "narrow", "relMatch"):
            self.apart.setdefault(a, set()).add(b)
            self.apart.setdefault(b, set()).add(a)
        if kind == "exact":
            self.join(a, b)
        return True

    def refusal_of_ends(self, kind: str, a: str, b: str) -> str | None:
        """Returns why a link can't join these two, or None."""
        resources, is_mapping = self.vocabulary.resources, kind in MAPPINGS
        one, other = resources.get(a), resources.get(b)
        if not one or not other and not (is_mapping and b.startswith(OUTSIDE)):
            return "UnknownResource"
        if not other and not (IRI_FORM.fullmatch(b, len(OUTSIDE)) and len(b.encode()) <= 512 + len(OUTSIDE)):
            return "BadIri"
        if one.kind != ("collection" if kind == "member" else "concept") or other and other.kind != "concept":
            return "WrongKind"
        if one.is_dead or other and other.is_dead:
            return "NotLive"
        if a == b:
            return "SameResource"
        return "OtherScheme" if other and (one.scheme == other.scheme) == is_mapping else None

    def refusal(self, kind: str, a: str, b: str) -> str | None:
        """Returns the rule that a link would break, or None."""
        if kind in BROADER or kind in ("broad", "narrow"):
            low, high = self.low_and_high(kind, a, b)
            return "Cycle" if self.is_above(high, low) else None
        if kind in ("related", "relMatch"):
            return "S27" if self.is_above(a, b) or self.is_above(b, a) else None
        if kind == "exact":
            ones, others = self.alike.get(a, {a}), self.alike.get(b, {b})
            return "S46" if any(not self.apart.get(it, set()).isdisjoint(others) for it in ones) else None
        return None

    @staticmethod
    def low_and_high(kind: str, a: str, b: str) -> tuple[str, str]:
        """The narrower and the broader of two concepts that a hierarchical link joins."""
        return (b, a) if kind == "narrow" else (a, b)

    def is_above(self, low: str, high: str) -> bool:
        """Whether a chain of links leads up from one to the other."""
        return bool(self.chain(low, high))

    def chain(self, low: str, high: str) -> list[str]:
        """The concepts of a chain of links that leads up from one to the other, both among them; empty if there is
        none."""
        before, todo = {}, deque([low])
        while todo and high not in before:
            one = todo.popleft()
            for it in self.above.get(one, ()):
                if it not in before:
                    before[it] = one
                    todo.append(it)
        if high not in before:
            return []
        chain = [high]
        while chain[-1] != low or len(chain) == 1:
            chain.append(before[chain[-1]])
        return chain[::-1]

    def join(self, a: str, b: str) -> None:
        joined = self.alike.get(a, {a}) | self.alike.get(b, {b})
        for it in joined:
            self.alike[it] = joined
