"""Indexes one record at a time: with all its concepts, as one plan."""
from __future__ import annotations

import logging
from typing import Any

from flask import Blueprint, abort, redirect, render_template, request
from markupsafe import Markup, escape

from thesaurus_desk.auth.route_roles import role
from thesaurus_desk.journal.queue import read_indexing
from thesaurus_desk.journal.record_texts import RecordText
from thesaurus_desk.journal.schema import sent_form
from thesaurus_desk.store.plan_execution import LONGEST_PLAN
from thesaurus_desk.store.record_suggestions import Suggestion
from thesaurus_desk.web.annif import NoService, ask_annif
from thesaurus_desk.web.concept_choice import choose, needs_choice, unknown_term
from thesaurus_desk.web.context import person, say, term, the_desk, the_replica
from thesaurus_desk.web.form_submission import problem_in, submit
from thesaurus_desk.web.forms import FormState
from thesaurus_desk.web.open_records import the_open_records
from thesaurus_desk.web.pages.edit import form_text
from thesaurus_desk.web.pages.queue import path_of_next, queue_page
from thesaurus_desk.web.record_forms import (
    RecordForm,
    catalogue_link,
    opened_record,
    sent_record,
    standing_of,
    text_of,
)
from thesaurus_desk.web.refusals.postings import record_link

pages = Blueprint("indexing", __name__)

LOG = logging.getLogger("desk")
FORM = "index"
# How many concepts are suggested: as many as there are digits to tick them by.
MOST_SUGGESTED = 9
# The fields of the form that don't show what may be wrong with them.
HIDDEN = ("record", "concept", "key", "was")
# What its buttons do: show it again with the concept that is named, save it, leave the record out, or delete its text.
DEEDS = ("look", "save", "skip", "forget")


@pages.get("/index")
@role("indexer")
def open_record() -> Any:
    """Shows a record with the form for its concepts; or the queue."""
    name = request.args.get("record", "").strip()
    return record_page(opened_record(name), FormState(), 200) if name else queue_page(FormState(), 200)


def record_page(form: RecordForm, state: FormState, status: int, is_adding: bool = False) -> Any:
    """Returns the page of a record with its form."""
    had = set(form.now.values())
    text = the_desk().record_texts.get(form.record) or RecordText(form.record)
    suggested = the_desk().suggester.suggest(form.record, text.title, text.text, MOST_SUGGESTED)
    first = [*sorted(had), *sorted(form.ticked - had)]
    page = render_template(
        "record/index.html",
        name=form.record,
        state=state,
        form=FORM,
        was=text_of(form.now),
        had=had,
        ticked=form.ticked,
        concepts=[*first, *(it.concept for it in suggested if it.concept not in first)],
        why={it.concept: reasons(it) for it in suggested},
        others=the_open_records().open(form.record, person().name),
        is_adding=is_adding,
        unknown=unknown_term(state),
        text=text if text != RecordText(form.record) else None,
        link_to_catalogue=catalogue_link(form.record),
        has_service=bool(read_indexing(the_desk().journal).annif),
    )
    return page, status


def reasons(it: Suggestion) -> list[Markup | str]:
    """Returns why a concept is suggested: by which term in the text, and by which records alike."""
    found: list[Markup | str] = []
    if it.match:
        found.append(say("indexing.by_term", term=it.match.text))
    if it.match and it.match.meanings > 1:
        found.append(say("indexing.by_meanings", n=it.match.meanings))
    if it.alike:
        found.append(escape(say("indexing.by_records", n=len(it.alike))) + Markup(" ") + record_link(it.alike[0]))
    return found


@pages.post("/index")
@role("indexer")
def index_record() -> Any:
    """Ticks the concept that the form names, and shows the page again; or makes the record's postings those that are
    ticked; or leaves it out."""
    name, do = form_text("record"), form_text("do", DEEDS)
    if not name:
        abort(400)
    if do == "skip":
        return redirect(leave(name, "skipped"), 303)
    keep_text(name, do == "forget")
    chosen = choose(request.form) if form_text("other") else None
    if chosen is not None and chosen.number is None:
        return record_page(sent_record(name), needs_choice(FORM, request.form, chosen), 409)
    form = sent_record(name, [chosen.number] if chosen and chosen.number else ())
    if wrong := stale_form(form):
        return record_page(form, wrong, 409)
    return save(form) if do == "save" else record_page(form, FormState(), 200, is_adding=chosen is not None)


@pages.post("/index/more")
@role("indexer")
def suggest_more() -> Any:
    """Returns what the service that the head has named suggests for a text, for the script of the page."""
    project = read_indexing(the_desk().journal).annif
    if not project:
        abort(404)
    try:
        proposed = ask_annif(project, "\n".join((form_text("title"), form_text("text"))))
    except NoService as error:
        LOG.warning("%s gives no suggestions: %s", project, error)
        return {"found": [], "said": say("indexing.no_service")}, 502
    known = [(it, the_replica().final(the_replica().by_iri(it.uri) or 0)) for it in proposed]
    found = [
        {"number": number, "term": term(number), "why": say("indexing.by_service", n=round(100 * it.score))}
        for it, number in known
        if number is not None
    ]
    unknown = len(proposed) - len(found)
    return {"found": found, "said": say("indexing.of_others", n=unknown) if unknown else ""}


def keep_text(name: str, is_forgotten: bool) -> None:
    """Keeps what the form says of a record, if it has been changed; or deletes it."""
    texts = the_desk().record_texts
    if is_forgotten:
        texts.forget(name)
    elif "title" in request.form:
        sent = RecordText(name, *(request.form.get(it, "") for it in ("title", "text", "link"))).tidy()
        if sent != (texts.get(name) or RecordText(name)):
            # (this is done a second time without harm: the form is known by what else it changes)
            form = sent_form.get()
            sent_form.set("")
            texts.keep([sent])
            sent_form.set(form)


def stale_form(form: RecordForm) -> FormState | None:
    """Returns the form with what colleagues have changed since it was made, if they have."""
    return problem_in(FORM, "", form.changes()) if form.is_stale else None


def save(form: RecordForm) -> Any:
    """Posts what is ticked and withdraws what isn't any more, as one plan, and leads to the next record."""
    requests = form.requests()
    if not requests:
        return redirect(leave(form.record, "done"), 303)
    if len(requests) > LONGEST_PLAN:
        return record_page(form, problem_in(FORM, "", say("indexing.too_many", most=LONGEST_PLAN)), 409)

    def check() -> FormState | None:
        return stale_form(sent_record(form.record)) if standing_of(form.record) != form.now else None

    def show(state: FormState, status: int) -> Any:
        return record_page(sent_record(form.record, form.ticked), state, status)

    def then(_: object) -> str:
        return leave(form.record, "done")

    return submit("index", requests, then=then, show=show, check=check, hidden=HIDDEN)


def leave(name: str, state: str) -> str:
    """Notes what has become of a record, and returns the path of the next one."""
    the_desk().queue.settle(name, state, person().name)
    the_open_records().close(name, person().name)
    return path_of_next()
