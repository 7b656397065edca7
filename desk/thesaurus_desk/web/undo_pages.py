"""Performs what undoes a plan that was done in many parts, and leads to what came of it, or to how far it is."""
from __future__ import annotations

from collections.abc import Callable
from typing import Any

from flask import redirect

from thesaurus_desk.store.plan_outcome import Outcome
from thesaurus_desk.store.run_threads import Report
from thesaurus_desk.store.undo_run import UndoRun, UndoStopped
from thesaurus_desk.web.background import in_background
from thesaurus_desk.web.context import path_that_tells, say


def show_undo(run: UndoRun, path: str, refuse: Callable[[Outcome], Any]) -> Any:
    """Performs what is left of a run, by a thread of its own if it is long, and leads to a page that says what came of
    it; `refuse` makes the page that says why a part wasn't done."""

    def do(report: Report) -> UndoRun:
        outcome = run.perform_rest(report)
        if not outcome.is_done:
            raise UndoStopped(outcome)
        return run

    def page_of(run: UndoRun) -> str:
        return path_that_tells(path, run.outcome.plan)

    if run.is_over:
        run.perform_rest()
        return redirect(page_of(run), 303) if run.outcome.is_done else refuse(run.outcome)
    try:
        found = in_background(say("changes.back_title"), False, len(run.requests), do, page_of)
    except UndoStopped as error:
        return refuse(error.outcome)
    return redirect(found[0], 303) if isinstance(found, tuple) else found
