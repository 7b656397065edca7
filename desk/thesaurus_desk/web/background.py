"""What takes long goes on by a thread of its own, as its reader, while the reader looks at other pages."""
from __future__ import annotations

import concurrent.futures
import contextlib
import logging
from collections.abc import Callable, Iterator
from concurrent.futures import Future
from typing import Any, TypeVar

from flask import Flask, current_app, g, redirect

from thesaurus_desk.importing.row_trial import NoTrial
from thesaurus_desk.store.run_threads import Progress, RunStop
from thesaurus_desk.store.undo_run import UndoStopped
from thesaurus_desk.web.context import begin_transaction, end_transaction, person, say, the_desk
from thesaurus_desk.web.journal_text import tell_outcome
from thesaurus_desk.web.paths import path_to
from thesaurus_tools.table_plans import NewConceptsError

T = TypeVar("T")
# How many seconds a request waits for what it has begun.
PATIENCE = 2.0
# What of a request a thread has, too: who asks, and in which languages.
OF_READER = ("person", "words", "tags")
log = logging.getLogger("desk")


def in_background(
    title: str, is_trial: bool, size: int, do: Callable[[Progress], T], keep: Callable[[T], str]
) -> tuple[str, T] | Any:
    """Has something be done by a thread of its own, and kept under a name. Returns the name with what came of it; or,
    if it takes long, what leads to a page that shows how far it is. Raises what it raises, and NoTrial if too much is
    under way."""
    if the_desk().threads.is_full:
        raise NoTrial("Busy")
    desk, app, reader = the_desk(), current_app._get_current_object(), reader_now()  # type: ignore[attr-defined]
    run, outcome = desk.runs.begin(person().name, title, is_trial, size), Future[tuple[str, T]]()

    def work(progress: Progress) -> None:
        with as_reader(app, reader):
            try:
                made = do(progress)
                kept = keep(made)
                desk.runs.end(run, "done", kept)
                outcome.set_result((kept, made))
            except RunStop:
                desk.runs.end(run, "cut")
            except Exception as error:
                desk.runs.end(run, "failed", reason_of(error))
                outcome.set_exception(error)

    desk.threads.start(run, work)
    concurrent.futures.wait([outcome], PATIENCE)
    if not outcome.done():
        return redirect(path_to("runs.run_page", name=run), 303)
    desk.runs.forget(run)
    return outcome.result()


def reader_now() -> dict[str, Any]:
    """Returns what of a request a thread has, too."""
    return {name: g.get(name) for name in OF_READER}


@contextlib.contextmanager
def as_reader(app: Flask, reader: dict[str, Any]) -> Iterator[None]:
    """Has a thread see the desk as a reader does."""
    with app.test_request_context():
        for name, value in reader.items():
            setattr(g, name, value)
        begin_transaction(False)
        try:
            yield
        finally:
            end_transaction()
            the_desk().replica.leave()


def reason_of(error: Exception) -> str:
    """Returns in the reader's words why something wasn't done."""
    if isinstance(error, NewConceptsError):
        return say("bring_in.new_concepts")
    if isinstance(error, NoTrial):
        return say(f"refusals.{error.fault}.text")
    if isinstance(error, UndoStopped):
        return tell_outcome(error.outcome).striptags()
    log.error("what was done beside the pages failed", exc_info=error)
    return say("errors.500.title")
