"""Undoes what was done by many plans: part by part, each of them whole, while others change the thesaurus, too."""
from __future__ import annotations

import time
from collections.abc import Sequence
from dataclasses import dataclass, field
from typing import TYPE_CHECKING, Any

from thesaurus_desk.journal import Batch, Request
from thesaurus_desk.journal.batches import pack
from thesaurus_desk.journal.references import resolve_request
from thesaurus_desk.journal.undo import TakeBack
from thesaurus_desk.store.plan_outcome import Outcome
from thesaurus_desk.store.program import LONGEST_PLAN

if TYPE_CHECKING:
    from thesaurus_desk.store.plan_execution import Desk
    from thesaurus_desk.store.run_threads import Report

# The action of a plan that takes another one back.
TAKE_BACK = "take back"
# The seconds until it is tried again, where something else is under way.
PAUSE = 0.1


class UndoStopped(Exception):
    """That a part was refused: what came of it."""

    def __init__(self, outcome: Outcome) -> None:
        super().__init__(str(outcome.answer))
        self.outcome = outcome


def ignore_report(done: int, plan: int | None = None, size: int | None = None) -> None:
    """Takes no note of how far it is."""


def size_of_part(done: int, count: int, ends: Sequence[int]) -> int:
    """Returns how many of some requests, behind those that are done, are the next part: as many plans are undone by it
    as go into one. Only what undoes a single plan may be longer, and is parted itself."""
    most = min(count - done, LONGEST_PLAN)
    whole = [it - done for it in (*ends, count) if 0 < it - done <= most]
    return max(whole, default=most)


@dataclass
class UndoRun:
    """What undoes a plan and its further parts: the requests, at which of them what undoes a plan is complete, and the
    numbers of what those made that are done."""

    desk: Desk
    user: str
    undone: int
    requests: Sequence[Request]
    ends: Sequence[int]
    batch: Batch | None = None
    numbers: list[int | None] = field(default_factory=list)
    outcome: Outcome = field(default_factory=lambda: Outcome("done"))

    @property
    def is_over(self) -> bool:
        """Whether all is done, or a part wasn't."""
        return len(self.numbers) == len(self.requests) or not self.outcome.is_done

    def perform_part(self) -> None:
        """Performs the next part, unless something else is under way."""
        done = len(self.numbers)
        part = self.requests[done : done + size_of_part(done, len(self.requests), self.ends)]
        # (what an earlier part has made has its number by now)
        names = [*self.numbers, *(f"${place}" for place in range(1, len(part) + 1))]
        sent = [resolve_request(it, names) for it in part]
        outcome = self.desk.perform(self.user, TAKE_BACK, sent, takes_back=self.undone, batch=self.batch)
        if outcome.answer == {"fault": "Busy"}:
            return
        # (references count what was asked for, without what the desk has added)
        outcome.steps = outcome.steps[: len(part)]
        if outcome.is_done:
            self.numbers += outcome.numbers()
        whole, at = self.outcome, outcome.at
        whole.state, whole.answer, whole.at = outcome.state, outcome.answer, at and len(whole.steps) + at
        whole.steps += outcome.steps
        whole.plan = whole.plan or outcome.plan

    def perform_rest(self, report: Report = ignore_report) -> Outcome:
        """Performs what is left, and lets those come first between two parts who wait. What is cut short then says so,
        and goes on."""
        batch = self.batch
        try:
            while not self.is_over:
                before = len(self.numbers)
                self.perform_part()
                report(len(self.numbers), batch.plan if batch else None, len(self.requests))
                if len(self.numbers) == before and self.outcome.is_done:
                    time.sleep(PAUSE)
                self.desk.let_others()
            if batch and self.outcome.is_done:
                self.desk.batches.end(batch)
            return self.outcome
        finally:
            if batch:
                self.desk.batches.left(batch)


def undo_run(desk: Desk, user: str, back: TakeBack) -> UndoRun:
    """Returns what undoes a plan; if it takes several parts, it is one entry of the journal."""
    requests, ends = back.requests, back.ends
    is_long = len(requests) > LONGEST_PLAN
    batch = Batch("", "", len(requests), pack({"requests": requests, "ends": ends})) if is_long else None
    return UndoRun(desk, user, back.plan.id, requests, ends, batch)


def rest_of_undo(desk: Desk, user: str, batch: Batch, kept: Any) -> UndoRun:
    """Returns what undoes the rest of a plan, where that was cut short."""
    first = desk.journal.plan(batch.plan or 0)
    if first is None or first.takes_back is None:
        raise ValueError(f"plan {batch.plan} takes no plan back")
    # (an earlier desk kept the requests alone)
    requests, ends = (kept["requests"], kept["ends"]) if isinstance(kept, dict) else (kept, ())
    numbers = [(it.answer or {}).get("ok") for it in desk.batches.done(batch)]
    desk.batches.begin(first.id)
    return UndoRun(desk, user, first.takes_back, requests, ends, batch, numbers, Outcome("done", plan=first.id))
