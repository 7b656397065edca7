"""Performs requests with names as one plan: all of them, or none."""
from __future__ import annotations

import json
from collections.abc import Mapping, Sequence

from thesaurus_tools.load_scripts import NUMBERED_MEMBERS
from thesaurus_tools.program import Performer
from thesaurus_tools.requests import encode

# The most requests of a plan, and the most bytes.
MOST_REQUESTS, MOST_BYTES = 128, 1_048_000
# What a name stands for within a plan: a number, or a reference.
Names = Mapping[str, int | str]


def resolve_names(request: dict, names: Names) -> dict:
    """Returns a request with numbers or references in place of names. Raises KeyError for a name that has none."""

    def number(it: object) -> object:
        return names[it[1:]] if isinstance(it, str) and it.startswith("$") else it

    return {
        name: it
        if name not in NUMBERED_MEMBERS
        else [number(one) for one in it]
        if isinstance(it, list)
        else number(it)
        for name, it in request.items()
        if name != "as"
    }


def encode_plan(requests: Sequence[bytes]) -> bytes:
    """Returns requests, or some of them with commas between, as a plan."""
    return b"[" + b",".join([it.rstrip(b"\n") for it in requests]) + b"]\n"


class OnePlan:
    """Requests with names, to be performed as one. An outside concept that is known isn't made again."""

    def __init__(self, performer: Performer, requests: Sequence[dict], numbers: dict[str, int]):
        self.performer, self.requests, self.numbers = performer, requests, numbers
        # The numbers of outside concepts that are known, by the place of their requests, counted from 0.
        self.known: dict[int, int] = {}

    def first_of(self, place: int) -> int:
        """Returns the place of the first request for the same outside concept, or the place itself."""
        iri = self.requests[place].get("iri")
        return next(at for at, it in enumerate(self.requests) if at == place or iri and it.get("iri") == iri)

    def perform(self) -> tuple[int, dict]:
        """Performs all, and notes the numbers of names. Returns 0, or the place of the request that is refused, from
        1, with the answer.

        Raises KeyError for a name that nothing has."""
        while True:
            sent = [place for place in range(len(self.requests)) if not self.is_left_out(place)]
            answer = json.loads(self.performer.perform_plan(self.encoded(sent))) if sent else {"done": []}
            if "done" in answer:
                self.note(sent, answer["done"])
                return 0, {}
            place = sent[answer.get("at", 1) - 1]
            if answer.get("no") != "OutsideKnown":
                return place + 1, answer
            self.known[place] = answer["number"]

    def is_left_out(self, place: int) -> bool:
        """Whether a request is for an outside concept that is known, or that an earlier request makes."""
        return place in self.known or self.first_of(place) != place

    def encoded(self, sent: Sequence[int]) -> bytes:
        """Returns the plan of the requests at these places."""
        names: dict[str, int | str] = {**self.numbers}
        references = {place: f"${number}" for number, place in enumerate(sent, 1)}
        lines = []
        for place, request in enumerate(self.requests):
            if place in references:
                lines.append(encode(resolve_names(request, names)))
            if "as" in request:
                first = self.first_of(place)
                names[request["as"]] = self.known.get(first) or references[first]
        return encode_plan(lines)

    def note(self, sent: Sequence[int], answers: Sequence[dict]) -> None:
        """Notes the numbers of names after the plan."""
        found = {place: it.get("ok") or it.get("again") for place, it in zip(sent, answers)} | self.known
        for place, request in enumerate(self.requests):
            number = found.get(self.first_of(place))
            if "as" in request and number:
                self.numbers[request["as"]] = number
