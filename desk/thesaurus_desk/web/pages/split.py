"""Splits a concept: a new one gets the records that are ticked."""
from __future__ import annotations

from functools import partial
from typing import Any

from flask import Blueprint, abort, render_template, request

from thesaurus_desk.auth.route_roles import role
from thesaurus_desk.journal.entries import Request
from thesaurus_desk.journal.rights import as_candidates
from thesaurus_desk.store.model import View
from thesaurus_desk.web.context import acts_on, say, the_desk, the_replica
from thesaurus_desk.web.form_submission import submit
from thesaurus_desk.web.forms import FormState
from thesaurus_desk.web.pages.create import page_of_new
from thesaurus_desk.web.pages.edit import form_text, given_tag, given_text
from thesaurus_desk.web.pages.move import live_concept
from thesaurus_desk.web.tick_lists import is_looking, ticks_of
from thesaurus_desk.web.value_copies import copies_to_new, copy_requests
from thesaurus_desk.web.work_views import work_of
from thesaurus_tools.kinds import BROADER

pages = Blueprint("split", __name__)

FORM = "split"
PLACES = ("below", "beside", "none")


@pages.route("/c/<int:number>/split", methods=["GET", "POST"])
@role("editor")
def split(number: int) -> Any:
    """Shows the records of a concept with ticks, and gives those that are ticked to a new concept."""
    view = live_concept(number)
    again = partial(split_page, view)
    if request.method == "GET" and "split" not in acts_on(number):
        abort(403)
    if request.method == "GET":
        return again(FormState(), 200)
    if is_looking():
        return again(FormState(FORM, request.form), 200)
    return submit("split", split_requests(view), then=page_of_new, show=again)


def split_requests(view: View) -> list[Request]:
    """Returns the requests of a split: itself, the place of the new concept, and the values
    that it gets."""
    ticked = sorted(ticks_of(view.number).ticked)
    requests: list[Request] = [
        {"do": "split", "source": view.number, "tag": given_tag(), "text": given_text(), "postings": ticked}
    ]
    place = form_text("place", PLACES)
    if place == "below":
        requests.append({"do": "link", "kind": form_text("kind", BROADER), "a": "$1", "b": view.number})
    elif place == "beside":
        kinds = [(above, it) for above in view.broader for it in the_replica().link_types(view.number, above)]
        requests += [{"do": "link", "kind": it, "a": "$1", "b": above} for above, it in kinds]
    if "related" in request.form and place != "below":
        requests.append({"do": "link", "kind": "related", "a": "$1", "b": view.number})
    requests += copy_requests(copies_to_new(view.number), "$1", request.form.getlist("value"))
    # (a part of a candidate is one)
    return as_candidates(requests) if work_of(view.number).is_hidden else requests


def split_page(view: View, state: FormState, status: int) -> Any:
    """Returns the form of a split."""
    page = render_template(
        "split/page.html",
        form=FORM,
        state=state,
        view=view,
        n=view.number,
        ticks=ticks_of(view.number),
        copies=copies_to_new(view.number),
        seen=the_desk().seen.mark(view.number, "postings"),
        kinds=[(it, say(f"kinds.link.{it}")) for it in (*BROADER[1:], BROADER[0])],
    )
    return page, status
