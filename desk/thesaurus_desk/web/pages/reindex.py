"""Indexes many records of a concept with another one: those that are ticked, or all."""
from __future__ import annotations

from functools import partial
from typing import Any

from flask import Blueprint, abort, render_template, request

from thesaurus_desk.auth.route_roles import role
from thesaurus_desk.store.model import Posting
from thesaurus_desk.store.plan_execution import LONGEST_PLAN
from thesaurus_desk.web.concept_choice import choose, needs_choice, unknown_term
from thesaurus_desk.web.context import say, the_desk, the_replica
from thesaurus_desk.web.form_submission import problem_in, submit
from thesaurus_desk.web.forms import FormState
from thesaurus_desk.web.pages.edit import form_text, resource
from thesaurus_desk.web.pages.records import reindex_requests
from thesaurus_desk.web.paths import concept_path, path_to
from thesaurus_desk.web.record_forms import withdrawal
from thesaurus_desk.web.tick_lists import is_looking, ticks_of

pages = Blueprint("reindex", __name__)

FORM = "reindex"
# The most records that one form re-indexes.
MOST_AT_ONCE = 2000


@pages.route("/c/<int:number>/records", methods=["GET", "POST"])
@role("indexer")
def reindex_many(number: int) -> Any:
    """Lists the records of a concept with ticks, and indexes them with another one, or withdraws them."""
    view = resource(number)
    if view.kind != "concept" or not view.is_live:
        abort(404)
    again = partial(show, number)
    if request.method == "GET":
        return again(FormState(), 200)
    if is_looking():
        return again(FormState(FORM, request.form), 200)
    return perform(number, again)


def perform(number: int, again: partial[Any]) -> Any:
    """Re-indexes or withdraws what the form asks for."""
    do, numbers = form_text("do", ("ticked", "all", "withdraw")), sorted(ticks_of(number).ticked)
    if do == "all":
        numbers = the_replica().postings.numbers_at(number)[:MOST_AT_ONCE]
    if not numbers:
        return again(problem_in(FORM, "", say("records.none_ticked")), 409)
    if len(numbers) > MOST_AT_ONCE:
        return again(problem_in(FORM, "", say("records.too_many", n=len(numbers), most=MOST_AT_ONCE)), 409)
    postings = the_replica().postings.several(numbers)
    then = (
        path_to("reindex.reindex_many", number=number)
        if len(numbers) < the_replica().postings.count_at(number)
        else concept_path(number)
    )
    if do == "withdraw":
        requests = [withdrawal(it.number) for it in postings]
        return submit("withdraw", requests, then=then, show=again, may_cut=len(requests) > LONGEST_PLAN)
    return perform_reindex(number, postings, then, again)


def perform_reindex(number: int, postings: list[Posting], then: str, again: partial[Any]) -> Any:
    """Re-indexes postings of a concept with the one that the form names."""
    chosen = choose(request.form, without=number)
    if chosen.number is None:
        return again(needs_choice(FORM, request.form, chosen), 409)
    if the_replica().final(chosen.number) == number:
        return again(problem_in(FORM, "other", say("records.same")), 409)
    requests = [it for posting in postings for it in reindex_requests(posting, chosen.number)]
    return submit("reindex", requests, then=then, show=again, may_cut=len(requests) > LONGEST_PLAN)


def show(number: int, state: FormState, status: int) -> Any:
    """Returns the page with the ticks of the form."""
    view = resource(number)
    mark = the_desk().seen.mark(number, "postings")
    page = render_template(
        "record/many.html",
        view=view,
        n=number,
        state=state,
        form=FORM,
        ticks=ticks_of(number),
        seen=mark,
        most=MOST_AT_ONCE,
        unknown=unknown_term(state),
    )
    return page, status
