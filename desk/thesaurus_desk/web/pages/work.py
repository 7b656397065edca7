"""Gives a concept another status, and says what is to be done with it: by whom, until when, and what."""
from __future__ import annotations

from functools import partial
from typing import Any

from flask import Blueprint, abort, redirect, render_template, request

from thesaurus_desk.auth.route_roles import role
from thesaurus_desk.journal.entries import Request
from thesaurus_desk.journal.values import set_request
from thesaurus_desk.web.context import page_number, say, the_fields
from thesaurus_desk.web.form_submission import problem_in, submit
from thesaurus_desk.web.list_columns import columns_named
from thesaurus_desk.web.list_forms import in_other_form
from thesaurus_desk.web.pages.edit import resource, show_again
from thesaurus_desk.web.paths import concept_path
from thesaurus_desk.web.work_views import APPROVED, FORM, LISTS, Work, list_counts, concepts_of_list, names, work_of
from thesaurus_tools.fields import OF_WORK, STATUSES, tidy

pages = Blueprint("work", __name__)
PAGE = 200
# What a list of work has as a table, unless other columns are chosen.
WORK_COLUMNS = columns_named("number", "term", "language", *OF_WORK, "seen")


@pages.post("/c/<int:number>/work")
@role("editor")
def change_work(number: int) -> Any:
    """Gives a concept another status, and says what is to be done with it."""
    if resource(number).kind != "concept":
        abort(404)
    sent = work_of_form()
    before, then = work_of(number), concept_path(number)
    if sent.person not in ("", before.person, *names()):
        return show_again(number, problem_in(FORM, "person", say("status.unknown_person")), 409)
    requests = work_requests(number, before, sent)
    if not requests:
        return redirect(then, 303)
    return submit("work", requests, then=then, show=partial(show_again, number), blame=lambda it: str(it["field"]))


def work_of_form() -> Work:
    """Returns what a form asks for."""
    fields = the_fields()
    sent = {it: tidy(request.form.get(it, ""), fields[it].kind) for it in OF_WORK}
    if sent["status"] not in (APPROVED, *STATUSES):
        abort(400)
    return Work(**{**sent, "status": "" if sent["status"] == APPROVED else sent["status"]})


def work_requests(number: int, before: Work, after: Work) -> list[Request]:
    """Returns the requests by which a concept gets another status or task."""
    pairs = {it: (getattr(before, it), getattr(after, it)) for it in OF_WORK}
    return [
        set_request(number, name, "", old=old or None, new=new or None)
        for name, (old, new) in pairs.items()
        if old != new
    ]


# --- lists ---


@pages.get(f"/lists/work/<any({', '.join(LISTS)}):which>")
@role("reader")
def work_list(which: str) -> Any:
    """Shows the concepts that are in the reader's charge, that are due, or of a status."""
    numbers = concepts_of_list(which)
    if (other := in_other_form(which, lambda: numbers, usual=WORK_COLUMNS)) is not None:
        return other
    page = page_number()
    shown = numbers[page * PAGE : (page + 1) * PAGE]
    return render_template(
        "values/work.html",
        which=which,
        counts=list_counts(),
        works=[(it, work_of(it)) for it in shown],
        count=len(numbers),
        size=PAGE,
    )
