"""The sources of terms: a value of their field is a term, with its language, and has the source. What becomes of a term
by a plan becomes of its source, by steps `set` that the desk adds to the plan."""
from __future__ import annotations

from collections import defaultdict
from collections.abc import Iterable, Iterator, Sequence

from thesaurus_desk.journal.entries import Request, Step
from thesaurus_desk.journal.value_rules import MAKING, ValueRules
from thesaurus_desk.journal.values import Value, set_request, text_of
from thesaurus_desk.store.changes import Change
from thesaurus_desk.store.schema import SCOPE
from thesaurus_tools.fields import TERM_SOURCE
from thesaurus_tools.values import member_of

# A language and a text.
Term = tuple[str, str]
# What a step has that the desk has added to a plan.
FOLLOWS = {"follows": True}


def follows(step: Step) -> bool:
    """Whether the desk has added a step to what was asked for."""
    return bool((step.kept or {}).get("follows"))


class TermSources:
    """Goes through a plan that was tried. `rules` have gone through it: they know the values that it leaves."""

    def __init__(
        self, rules: ValueRules, steps: Sequence[Step], requests: Sequence[Request], changes: Iterable[Change]
    ):
        self.rules, self.steps, self.requests = rules, steps, requests
        # The terms of each resource that the plan has removed and added at last.
        self.gone: dict[int, set[Term]] = defaultdict(set)
        self.new: dict[int, set[Term]] = defaultdict(set)
        for it in changes:
            if it[1] == "label" and it[3] != SCOPE:
                here, there = (self.new, self.gone) if it[0] == "insert" else (self.gone, self.new)
                here[it[2]].add((it[4], it[5]))
                there[it[2]].discard((it[4], it[5]))
        # What names in requests the resources that the plan makes.
        self.names = {
            (step.foreseen or {}).get("ok"): f"${place}"
            for place, step in enumerate(steps, 1)
            if step.request["do"] in MAKING
        }

    def has_term(self, owner: int, term: Term) -> bool:
        """Whether a resource has a term after the plan."""
        if term in self.gone[owner] or term in self.new[owner]:
            return term in self.new[owner]
        found = self.rules.replica.get(owner) if owner not in self.rules.made else None
        return found is not None and any(it[1:] == term and it[0] != "scope" for it in found.labels)

    def unknown(self) -> int | None:
        """Returns the place, from 1, of the first request that gives a source to a term that the resource hasn't."""
        for place, it in enumerate(self.requests, 1):
            if it["do"] == "set" and it["field"] == TERM_SOURCE and it["new"] is not None:
                if not self.has_term(it["owner"], (it["tag"], text_of(it["new"]) or "")):
                    return place
        return None

    def following(self) -> list[Step]:
        """Returns the steps by which sources go with their terms."""
        found = [Step({**it, "owner": self.names.get(it["owner"], it["owner"])}) for it in self.following_requests()]
        for step in found:
            step.foreseen, step.kept = {"done": True}, dict(FOLLOWS)
        return found

    def following_requests(self) -> Iterator[Request]:
        """Yields their requests: of terms that are renamed or removed, and of those that come from another concept."""
        renamed = self.renamed() if any(self.gone.values()) else {}
        for owner, terms in list(self.gone.items()):
            for value in self.values_of(owner):
                if (value.tag, value.text) in terms:
                    yield self.noted(self.request_for_gone(value, renamed))
        for it, step in zip(self.requests, self.steps):
            if it["do"] in ("merge", "split"):
                target = it["target"] if it["do"] == "merge" else (step.foreseen or {})["ok"]
                for value in self.values_of(it["source"]):
                    if self.lacks_source(target, value):
                        yield self.noted(set_request(target, TERM_SOURCE, value.tag, new=value.member))

    def values_of(self, owner: int) -> list[Value]:
        """Returns the sources of a resource's terms, as the plan leaves them so far."""
        return list(self.rules.values_of(owner, TERM_SOURCE))

    def lacks_source(self, owner: int, value: Value) -> bool:
        """Whether a resource has the term of a value, and no source for it."""
        term = value.tag, value.text
        return self.has_term(owner, term) and term not in [(it.tag, it.text) for it in self.values_of(owner)]

    def renamed(self) -> dict[tuple[int, Term], str]:
        """Returns the texts for which the plan has put others: by a new preferred term, or by a term that comes with
        the request that removes another one of its kind."""
        found: dict[tuple[int, Term], str] = {}
        before: Request = {}
        for it, step in zip(self.requests, self.steps):
            if it["do"] == "relabel":
                found[it["owner"], (it["tag"].lower(), (step.kept or {}).get("old", ""))] = it["text"]
            elif it["do"] == "dropLabel" and before == {**it, "do": "addLabel", "text": before.get("text")}:
                found[it["owner"], (it["tag"].lower(), it["text"])] = before["text"]
            before = it
        return found

    def request_for_gone(self, it: Value, renamed: dict[tuple[int, Term], str]) -> Request:
        """Returns the request for the source of a term that the resource has no more: it goes to the term that was put
        for that, unless there is none, or one with a source."""
        text, met = it.text, set[str]()
        while text not in met and not self.has_term(it.owner, (it.tag, text)):
            met.add(text)
            text = renamed.get((it.owner, (it.tag, text)), text)
        is_free = self.has_term(it.owner, (it.tag, text)) and text not in [
            one.text for one in self.values_of(it.owner) if one.tag == it.tag
        ]
        new = member_of(text, it.source) if is_free else None
        return set_request(it.owner, TERM_SOURCE, it.tag, old=it.member, new=new)

    def noted(self, it: Request) -> Request:
        """Notes a request, and returns it."""
        self.rules.note(it)
        return it
