"""Performs tables that were looked at, each row as one plan, while others change the thesaurus, too."""
from __future__ import annotations

import time
from collections.abc import Sequence
from typing import TYPE_CHECKING

from thesaurus_desk.importing.request_series import RequestSeries
from thesaurus_desk.importing.tables import Importer, TableRun, can_be_done, left_of, plan_rows, refused_rows
from thesaurus_desk.journal import Batch
from thesaurus_desk.journal.batches import pack
from thesaurus_desk.journal.edit_conflicts import is_change, parts_of
from thesaurus_tools.row_runner import RowPlan, with_others

if TYPE_CHECKING:
    from thesaurus_desk.journal import Plan
    from thesaurus_desk.store.plan_execution import Desk
    from thesaurus_desk.store.run_threads import Report

# The seconds until it is tried again, where something else is under way.
PAUSE = 0.1


def ignore_report(done: int, plan: int | None = None, size: int | None = None) -> None:
    """Takes no note of how far a table is."""


def run_table(desk: Desk, run: TableRun, bringer: Importer, report: Report = ignore_report) -> None:
    """Performs the rows of a table, each as one plan, and notes why rows were refused; the others are done."""
    performed = TablePerformance(desk, run, bringer)
    batch = run.batch = performed.batch
    if batch.plan:
        desk.batches.begin(batch.plan)
    try:
        run.plans = performed.rows(report)
        batch.refused = sum(bool(it.reason) for it in run.plans)
        desk.batches.end(batch, refused_rows(run) if batch.refused else ())
    finally:
        desk.batches.left(batch)
    run.numbers = performed.names.numbers
    run.is_done = True


class TablePerformance:
    """The rows of a table as they were shown, and as they are now.

    A row that would do something else than was shown, or what it changes was changed by another plan since, isn't
    done."""

    def __init__(self, desk: Desk, run: TableRun, bringer: Importer) -> None:
        self.desk, self.run, self.bringer = desk, run, bringer
        self.shown = {it.line: it.requests for it in run.plans}
        self.refused = {it.line: it.reason for it in run.plans if it.reason}
        touched = {it.line for it in run.plans if desk.seen.since_of(it.requests, run.last)}
        # What others have changed since the rows were read, up to a plan, by resources.
        self.others: dict[int, list[Plan]] = {}
        self.last = desk.journal.last_plan()
        plan_rows(run, desk.replica, desk.values, bringer)
        self.changed = touched | {it.line for it in run.plans if it.requests != self.shown.get(it.line)}
        self.batch = run.batch or Batch(run.name, run.digest, len(run.rows), pack(left_of(run)))
        self.names = RequestSeries(desk, bringer.name, "table", batch=self.batch)

    def rows(self, report: Report) -> list[RowPlan]:
        """Performs the rows, and returns them with the reasons why they weren't done."""
        found: list[RowPlan] = []
        for rows in with_others(self.run.plans):
            while (reason := self.perform(rows)) is None:
                # (nobody waits for this answer, so that it waits itself, unless the desk ends)
                report(len(found), self.batch.plan)
                time.sleep(PAUSE)
            found += [it._replace(reason=reason) for it in rows]
            report(len(found), self.batch.plan)
            self.desk.let_others()
        return sorted(found, key=lambda it: it.line)

    def perform(self, rows: Sequence[RowPlan]) -> str | None:
        """Performs a row with the others that are done with it. Returns why it wasn't done, or nothing; None if
        something else is under way."""
        row = rows[-1]
        if not can_be_done(row) or row.line in self.refused:
            return row.reason or self.refused.get(row.line, "")
        self.batch.lines = [it.line for it in rows]
        with self.desk.alone() as is_free:
            if not is_free:
                return None
            return self.bringer.words("bring_in.changed") if self.is_changed(row) else self.outcome(row)

    def is_changed(self, row: RowPlan) -> bool:
        """Whether a row would do something else than was shown, or to what others have changed meanwhile."""
        self.note_others()
        parts = {it for request in row.requests for it in parts_of(request)} if self.others else ()
        return row.line in self.changed or any(
            not plan.steps or any(is_change(step, number, part) for step in plan.steps)
            for number, part in parts
            for plan in self.others.get(number, ())
        )

    def note_others(self) -> None:
        """Notes what others have changed since the rows were read."""
        for plan in self.desk.journal.others_since(self.last, self.batch.plan or 0):
            for number in self.desk.history.resources_changed_by(plan.id):
                self.others.setdefault(number, []).append(plan)
        self.last = self.desk.journal.last_plan()

    def outcome(self, row: RowPlan) -> str:
        """Performs the requests of a row. Returns why it was refused, or nothing."""
        try:
            outcome = self.names.perform(row.requests)
        except KeyError:
            return self.bringer.words("bring_in.needs")
        return "" if outcome.is_done else self.bringer.tell(outcome)
