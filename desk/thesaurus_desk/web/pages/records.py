"""Records and the concepts with which they are indexed: of a concept, of a record, and of one posting."""
from __future__ import annotations

from functools import partial
from typing import Any
from urllib.parse import urlencode

from flask import Blueprint, abort, render_template, request

from thesaurus_desk.auth.route_roles import role
from thesaurus_desk.journal.entries import Request
from thesaurus_desk.store.model import Posting
from thesaurus_desk.web.concept_choice import choose, needs_choice, unknown_term
from thesaurus_desk.web.context import link, own_path, say, the_desk, the_replica
from thesaurus_desk.web.form_submission import problem_in, submit
from thesaurus_desk.web.forms import FormState
from thesaurus_desk.web.journal_text import PlanText, tell_plan
from thesaurus_desk.web.pages.edit import form_text, given_number, resource, show_again
from thesaurus_desk.web.paths import concept_path, path_to
from thesaurus_desk.web.posting_keys import new_key
from thesaurus_desk.web.record_forms import catalogue_link, post, withdrawal
from thesaurus_desk.web.record_views import concepts_of, records_found

pages = Blueprint("records", __name__)

MOST_FOUND = 50
# The fields of a record's page that it doesn't show.
HIDDEN = ("record", "key")


# --- at a concept ---


@pages.post("/c/<int:number>/postings/add")
@role("indexer")
def add_record(number: int) -> Any:
    """Indexes a record with a concept."""
    resource(number)
    record = form_text("record")
    requests, check = [post(record, number, form_text("key"))], partial(
        known_indexing, "post", "record", record, number
    )
    return submit(
        "post", requests, then=f"{concept_path(number)}#at-post", show=partial(show_again, number), check=check
    )


@pages.post("/c/<int:number>/postings/withdraw")
@role("indexer")
def withdraw_record(number: int) -> Any:
    """Withdraws a posting of a concept."""
    resource(number)
    requests = [withdrawal(given_number("posting"))]
    return submit("withdraw", requests, then=f"{concept_path(number)}#records", show=partial(show_again, number))


def known_indexing(form: str, field: str, record: str, concept: int) -> FormState | None:
    """Returns a form with what is wrong in a field of it, if a record is indexed with a concept already."""
    if not record or not is_indexed(record, concept):
        return None
    return problem_in(form, field, say("records.known", record=record, concept=link(concept)))


def is_indexed(record: str, concept: int) -> bool:
    """Whether a record is indexed with a concept, or with the one that replaces it."""
    final = the_replica().final(concept)
    return any(it.place == final and not it.is_withdrawn for it in the_replica().postings.of_record(record))


# --- of a record ---


@pages.get("/record")
def record() -> Any:
    """Shows the concepts of a record; or asks for its name, and shows the records that have a text in their names."""
    name = request.args.get("name", "").strip()
    if name:
        return record_page(name, FormState(), 200)
    query = request.args.get("like", "").strip()
    found = records_found(query, MOST_FOUND + 1) if query else []
    shown = {it: concepts_of(it) for it in found[:MOST_FOUND]}
    return render_template("record/find.html", like=query, found=shown, is_more=len(found) > MOST_FOUND)


def record_page(name: str, state: FormState, status: int) -> Any:
    """Returns the page of a record."""
    postings = the_replica().postings.of_record(name)
    standing = [it for it in postings if not it.is_withdrawn]
    withdrawn = [it for it in postings if it.is_withdrawn]
    page = render_template(
        "record/page.html",
        name=name,
        standing=standing,
        withdrawn=withdrawn,
        state=state,
        new_key=new_key,
        unknown=unknown_term(state),
        text=the_desk().record_texts.get(name),
        link_to_catalogue=catalogue_link(name),
        plan_of_move=plan_of_move,
    )
    return page, status


def page_of_record(name: str) -> str:
    """Returns the path of the page of a record."""
    return f"{path_to('records.record')}?{urlencode({'name': name})}"


@pages.post("/record/add")
@role("indexer")
def add_concept() -> Any:
    """Indexes a record with another concept."""
    name = form_text("record")
    again = partial(record_page, name)
    chosen = choose(request.form)
    if chosen.number is None:
        return again(needs_choice("add", request.form, chosen), 409)
    requests, check = [post(name, chosen.number, form_text("key"))], partial(
        known_indexing, "add", "other", name, chosen.number
    )
    return submit("post", requests, then=page_of_record(name), show=again, check=check, hidden=HIDDEN)


@pages.post("/record/reindex")
@role("indexer")
def reindex() -> Any:
    """Indexes a record with another concept in place of one: posted first, then withdrawn, as one plan."""
    posting = posting_of_form()
    again = partial(record_page, posting.record)
    chosen, form = choose(request.form), form_text("form")
    if chosen.number is None:
        return again(needs_choice(form, request.form, chosen), 409)
    check = partial(known_indexing, form, "other", posting.record, chosen.number)
    requests = [post(posting.record, chosen.number, form_text("key")), withdrawal(posting.number)]
    return submit("reindex", requests, then=page_of_record(posting.record), show=again, check=check, hidden=HIDDEN)


@pages.post("/record/withdraw")
@role("indexer")
def withdraw() -> Any:
    """Withdraws a posting of a record."""
    posting = posting_of_form()
    then = own_path(request.form.get("next")) if "next" in request.form else page_of_record(posting.record)
    return submit("withdraw", [withdrawal(posting.number)], then=then, show=partial(record_page, posting.record))


def posting_of_form() -> Posting:
    """Returns the posting that a form names."""
    posting = the_replica().postings.get(given_number("posting"))
    if posting is None:
        abort(404)
    return posting


def reindex_requests(posting: Posting, concept: int) -> list[Request]:
    """Returns the requests that index a record with another concept in place of a posting's."""
    if is_indexed(posting.record, concept):
        return [withdrawal(posting.number)]
    return [post(posting.record, concept), withdrawal(posting.number)]


@pages.get("/posting/<int:number>")
def show_posting(number: int) -> Any:
    """Shows a posting with its moves."""
    posting = the_replica().postings.get(number)
    if posting is None:
        abort(404)
    return render_template("record/posting.html", it=posting, plan_of_move=plan_of_move)


def plan_of_move(source: int, target: int) -> PlanText | None:
    """Returns in the reader's words the plan that moved records from one concept to another, if the journal has it."""
    plan = the_desk().history.plan_that_moved(source, target)
    return tell_plan(plan, number=source) if plan else None
