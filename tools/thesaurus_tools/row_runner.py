"""Performs the requests of a table row by row: a row is done whole, as one plan; or, by a program without plans, what
was done of it is taken back."""
from __future__ import annotations

from collections import defaultdict
from collections.abc import Iterator, Sequence
from typing import NamedTuple

from thesaurus_tools.concept_finder import RowError
from thesaurus_tools.one_plan import MOST_REQUESTS, OnePlan, resolve_names
from thesaurus_tools.program import Performer
from thesaurus_tools.table_messages import reason_of

INVERSES = {"addLabel": "dropLabel", "dropLabel": "addLabel", "link": "unlink", "unlink": "link"}
ACCEPTED = ("ok", "done", "moved", "again")


class RowPlan(NamedTuple):
    """A row of the table, with the requests that it asks for, or why it can't be done."""

    line: int
    cells: list[str]
    requests: list[dict]
    reason: str = ""
    # What the reason says, if the row itself is at fault.
    error: RowError | None = None
    # Of rows that are done together: what the row itself asks for, and the line of the row with the requests of all.
    asked: Sequence[dict] = ()
    by: int = 0
    # When it is done: rows of one turn are done in their order.
    turn: int = 0

    @property
    def changes(self) -> Sequence[dict]:
        """What the row asks for."""
        return self.asked or self.requests

    @property
    def does_something(self) -> bool:
        """Whether something is done for the row, be it by another one."""
        return bool(self.changes or self.by)


class RowRunner:
    """Performs rows over a program or a server, and keeps the numbers of what has names."""

    def __init__(self, performer: Performer):
        self.performer = performer
        self.numbers: dict[str, int] = {}

    def run(self, plan: RowPlan) -> str:
        """Performs the requests of a row. Returns why the row is refused, or nothing."""
        if 1 < len(plan.requests) <= MOST_REQUESTS and self.performer.takes_plans():
            try:
                place, answer = OnePlan(self.performer, plan.requests, self.numbers).perform()
            except KeyError as error:
                return lacking(error)
            return reason_of(answer, plan.requests[place - 1]) if place else ""
        return self.run_singly(plan)

    def run_singly(self, plan: RowPlan) -> str:
        """Performs the requests of a row one after another, and takes them back after a refusal."""
        done: list[dict] = []
        for request in plan.requests:
            try:
                sent = resolve_names(request, self.numbers)
            except KeyError as error:
                return self.take_back(done, lacking(error))
            answer = self.performer.ask(sent)
            known: int = answer["number"] if answer.get("no") == "OutsideKnown" else 0
            if not known and not any(it in answer for it in ACCEPTED):
                return self.take_back(done, reason_of(answer, request))
            if "as" in request:
                self.numbers[request["as"]] = known or answer["ok"]
            done.append(sent)
        return ""

    def take_back(self, done: list[dict], reason: str) -> str:
        """Takes back what was done of a row as far as that can be. Returns the reason, with what stays."""
        stays = 0
        for request in reversed(done):
            inverse = {**request, "do": INVERSES.get(request["do"], "")}
            if not inverse["do"] or "done" not in self.performer.ask(inverse):
                stays += 1
        return f"{reason}; {stays} of its {len(done)} changes stay" if stays else reason


def lacking(error: KeyError) -> str:
    """Returns why a row is refused that needs what another row would have made."""
    return f"it needs {error.args[0]}, which was refused"


def with_others(plans: Sequence[RowPlan]) -> Iterator[list[RowPlan]]:
    """Yields the rows in the order in which they are done: each behind the others that its requests do."""
    others = defaultdict[int, list[RowPlan]](list)
    for plan in plans:
        others[plan.by or plan.line].append(plan)
    for plan in sorted(plans, key=lambda it: it.turn):
        if plan.by in (0, plan.line):
            yield [*(it for it in others[plan.line] if it.line != plan.line), plan]


def run_rows(runner: RowRunner, plans: list[RowPlan], keep_going: bool) -> Iterator[RowPlan]:
    """Performs rows as they are done, up to a refused one unless it keeps going, and yields each, with the reason."""
    for rows in with_others(plans):
        reason = rows[-1].reason or runner.run(rows[-1])
        yield from (it._replace(reason=reason) for it in rows)
        if reason and not keep_going:
            return
