"""Performs requests with names in place of numbers, as tables and converters make them, in plans of at most 128."""
from __future__ import annotations

from collections.abc import Callable, Sequence
from dataclasses import dataclass, field
from typing import Any

from thesaurus_desk.journal.entries import Batch, Request
from thesaurus_desk.journal.references import NUMBERS
from thesaurus_desk.store.plan_execution import Desk, LONGEST_PLAN, Outcome


@dataclass
class RequestSeries:
    """A run of requests with names: `{"as": "a", "do": "concept", ..}` makes what a later `"$a"` stands for."""

    desk: Desk
    user: str
    action: str
    numbers: dict[str, int] = field(default_factory=dict)
    # The file that asks for it.
    batch: Batch | None = None

    def perform(self, requests: Sequence[Request]) -> Outcome:
        """Performs at most 128 requests as one plan.

        Raises KeyError for a name that nothing has."""
        places = {it["as"]: place for place, it in enumerate(requests, 1) if "as" in it}
        sent = [self.resolved(it, places) for it in requests]
        outcome = self.desk.perform(self.user, self.action, sent, batch=self.batch)
        if outcome.is_done:
            for name, place in places.items():
                number = outcome.number(place)
                if number is not None:
                    self.numbers[name] = number
        return outcome

    def resolved(self, request: Request, places: dict[str, int]) -> Request:
        """Returns a request with numbers for names, and references for those that the same plan makes."""

        def one(value: Any) -> Any:
            if not isinstance(value, str) or not value.startswith("$"):
                return value
            name = value[1:]
            return f"${places[name]}" if name in places else self.numbers[name]

        return {
            name: [one(it) for it in value] if isinstance(value, list) else one(value) if name in NUMBERS else value
            for name, value in request.items()
            if name != "as"
        }

    def perform_all(self, requests: Sequence[Request], report: Callable[[int], None] | None = None) -> Outcome:
        """Performs any number of requests in parts; the first part that isn't done is the last."""
        outcome = Outcome("done")
        for first in range(0, len(requests), LONGEST_PLAN):
            outcome = self.perform(requests[first : first + LONGEST_PLAN])
            if not outcome.is_done:
                return outcome
            if report:
                report(first)
        return outcome
