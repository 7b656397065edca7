"""Proposals of terms and changes, which editors accept or decline; and comments at a resource."""
from __future__ import annotations

import logging
import sqlite3
from collections.abc import Iterable, Sequence
from typing import Any

from flask import Blueprint, abort, render_template, request

from thesaurus_desk.auth.route_roles import role
from thesaurus_desk.journal.entries import Acceptance, Plan, Request
from thesaurus_desk.journal.proposals import LONGEST_TEXT, Proposal, Proposals
from thesaurus_desk.journal.rights import as_candidates
from thesaurus_desk.journal.values import member_of, source_of
from thesaurus_desk.journal.values import text_of as value_text
from thesaurus_desk.web.concept_choice import is_number, scheme_of
from thesaurus_desk.web.context import (
    field_words,
    go,
    person,
    say,
    tags,
    the_desk,
    the_fields,
    the_replica,
    the_rights,
    words,
)
from thesaurus_desk.web.forms import FormState, Problem
from thesaurus_desk.web.journal_text import LINKS, tell_outcome, tell_plans, tell_step
from thesaurus_desk.web.pages.edit import form_text
from thesaurus_desk.web.pages.search import number_of
from thesaurus_desk.web.paths import concept_path, path_to
from thesaurus_desk.web.proposal_forms import (
    FORM,
    KINDS,
    OF_NO_CONCEPT,
    OF_VALUE,
    asked_of_form,
    concept_of_request,
    proposed_field,
    too_long,
    value_to_replace,
)
from thesaurus_desk.web.request_text import sentence_of
from thesaurus_tools.fields import TERM_SOURCE, tidy

pages = Blueprint("proposals", __name__)
# How many proposals a page shows.
PAGE = 50
# How many comments are shown after the proposals.
MOST_COMMENTS = 20
STATES = ("open", "accepted", "declined", "withdrawn")
# The list of the reader's own proposals, in any state.
OWN = "own"
# What the address of the form for a proposal may fill in.
ASKED = ("kind", "text", "reason")
LOG = logging.getLogger("desk")


def the_proposals() -> Proposals:
    """Returns the proposals and comments of the journal."""
    return the_desk().proposals


# --- looking ---


@pages.get("/proposals")
def proposals() -> Any:
    """Shows proposals in a state, or the reader's own, the last first; and before them which of these were decided
    since the reader last looked."""
    state = request.args.get("state", "open")
    chosen = state if state in (*STATES, OWN) else "open"
    which_state, user = (None, person().name) if chosen == OWN else (chosen, None)
    found = the_proposals().find(state=which_state, user=user, before=number_of("before"), most=PAGE + 1)
    further = (
        f"{path_to('proposals.proposals')}?state={chosen}&before={found[PAGE - 1].id}" if len(found) > PAGE else ""
    )
    unread = the_proposals().unread(person().name, PAGE)
    page = render_template(
        "proposals/list.html",
        state=chosen,
        states=(*STATES, OWN),
        proposals=tell_proposals(found[:PAGE]),
        further=further,
        decided=tell_proposals(unread),
        comments=the_proposals().recent_comments(MOST_COMMENTS),
        of_visitors=the_desk().visitor_proposals.waiting() if person().may("editor") else [],
    )
    note_read(unread)
    return page


def note_read(shown: Sequence[Proposal]) -> None:
    """Notes that the reader, who is their author, has read how proposals were decided."""
    if request.method == "GET" and shown:
        try:
            the_proposals().note_read([it.id for it in shown])
        except sqlite3.Error as error:
            # (a full disk takes no page from who only reads)
            LOG.warning("it isn't noted what %s has read: %s", person().name, error)


def tell_proposals(proposals: Iterable[Proposal]) -> list[tuple[Proposal, list[Any]]]:
    """Returns proposals, each with what it would do, or has done."""
    return [(it, tell_proposal(it)) for it in proposals]


def tell_proposal(proposal: Proposal) -> list[Any]:
    """Returns what a proposal would do, or has done, as sentences."""
    plan = the_desk().journal.plan(proposal.plan) if proposal.plan else None
    if plan is not None and plan.state == "done":
        return [tell_step(it) for it in plan.steps]
    return [sentence_of(it, None, the_replica(), words(), LINKS) for it in proposal.requests]


@pages.get("/proposals/<int:number>")
def show_proposal(number: int) -> Any:
    """Shows a proposal, and what may be done with it; its author then has read how it was decided."""
    page = proposal_page(number, FormState(), 200)
    note_read([it for it in the_proposals().unread(person().name) if it.id == number])
    return page


def proposal_page(number: int, state: FormState, status: int) -> Any:
    """Returns the page of a proposal. Its form carries the last plan that its reader sees."""
    found = proposal_or_404(number)
    plan = the_desk().journal.plan(found.plan) if found.plan else None
    text = text_of(found.requests)
    is_changed = plan is not None and text_of([it.request for it in plan.steps]) != text
    later = changes_since(found)
    page = render_template(
        "proposals/one.html",
        it=found,
        lines=tell_proposal(found),
        text=text,
        is_value=any(it["do"] == "set" and not is_source_of_term(it) for it in found.requests),
        is_changed=is_changed,
        later=tell_plans(later),
        last=max((it.id for it in later), default=0),
        state=state,
    )
    return page, status


def changes_since(proposal: Proposal) -> list[Plan]:
    """Returns the plans that have changed what an open proposal is about to change, since it was made."""
    if proposal.state != "open":
        return []
    first = the_desk().journal.last_plan_at(proposal.at)
    return the_desk().seen.since_of(proposal.requests, first)


def proposal_or_404(number: int) -> Proposal:
    """Returns a proposal."""
    found = the_proposals().get(number)
    if found is None:
        abort(404)
    return found


# --- proposing ---


@pages.get("/propose")
def form_to_propose() -> Any:
    """Shows the form for a proposal about a concept, or about a new one of a scheme."""
    return propose_page(FormState(), 200)


def propose_page(state: FormState, status: int, alike: Sequence[int] = ()) -> Any:
    """Returns the form for a proposal."""
    number = concept_of_request()
    kinds = kinds_about(number)
    schemes = the_replica().ordered(the_replica().numbers("scheme"), tags())
    scheme = scheme_of(number) if number else None
    asked = {**asked_value_of(number), **{it: request.args[it][:LONGEST_TEXT] for it in ASKED if it in request.args}}
    about = {"asked": asked, "number": number, "scheme": scheme, "kinds": kinds, "schemes": schemes, "alike": alike}
    return render_template("proposals/new.html", **about, state=state, form=FORM, most=LONGEST_TEXT), status


def kinds_about(number: int | None) -> list[tuple[str, str]]:
    """Returns what can be proposed about a concept, or about none, as pairs of a kind and its words: values of fields
    before what is in words alone."""
    kinds = [(it, say(f"proposals.kind.{it}")) for it in (KINDS if number else OF_NO_CONCEPT)]
    names = [it for it in the_fields() if proposed_field(f"{OF_VALUE}{it}")] if number else []
    values = [(f"{OF_VALUE}{it}", field_words(it).capitalize()) for it in names]
    return [*kinds[:-1], *values, kinds[-1]]


def asked_value_of(number: int | None) -> dict[str, str]:
    """Returns the value in whose place the reader proposes another one, as the form has it; nothing, if there is
    none."""
    field = proposed_field(request.args.get("kind", ""))
    value = value_to_replace(field, number) if field and number else None
    return {"value": str(value.id), "tag": value.tag, "text": value.text, "source": value.source} if value else {}


@pages.post("/propose")
@role("reader")
def propose() -> Any:
    """Adds a proposal, unless the desk knows that it would be refused."""
    number, kind = concept_of_request(), request.form.get("kind", "")
    is_about_one = number is not None or is_number(form_text("concept"))
    field = proposed_field(kind)
    if kind not in KINDS and field is None or not is_about_one and kind not in OF_NO_CONCEPT:
        abort(400)
    asked = asked_of_form(kind, number)
    if asked.wrong is not None:
        return propose_page(asked.wrong, 409, asked.alike)
    action = f"proposals.kind.{kind if field is None else 'value'}"
    made = the_proposals().propose(person().name, action, asked.requests, form_text("reason"), number)
    return go(path_to("proposals.show_proposal", number=made))


# --- deciding ---


@pages.post("/proposals/<int:number>/accept")
@role("editor")
def accept(number: int) -> Any:
    """Performs a proposal, under the names of both, or closes one that is in words alone."""
    with the_desk().alone() as is_free:
        if not is_free:
            return busy_page(number, "accept")
        # (it may have been performed, and the journal couldn't be written)
        the_desk().write_late()
        # (two who accept it at once are one after the other, and the second finds it decided)
        return accept_now(proposal_or_404(number))


def accept_now(proposal: Proposal) -> Any:
    """Performs a proposal that is open, and shows what came of it."""
    number = proposal.id
    if proposal.state != "open":
        return go(path_to("proposals.show_proposal", number=number))
    word = request.form.get("word", "").strip()
    if len(word) > LONGEST_TEXT:
        return refusal_answer(number, "accept", "word", too_long(word))
    if any(it.id > last_seen() for it in changes_since(proposal)):
        return refusal_answer(number, "accept", "", say("proposals.look_first"))
    requests = accepted_requests(proposal)
    if not requests:
        the_proposals().decide(number, "accepted", person().name, word)
        return go(path_to("proposals.show_proposal", number=number))
    if why := the_rights().refusal(requests, person().role):
        return refusal_answer(number, "accept", "", say(why))
    accepted = Acceptance(number, proposal.user, word)
    outcome = the_desk().perform(person().name, "accept", requests, accepted=accepted)
    if not outcome.is_done:
        return refusal_answer(number, "accept", "", tell_outcome(outcome))
    return go(path_to("proposals.show_proposal", number=number), outcome.plan)


def last_seen() -> int:
    """Returns the last plan that the author of the form has seen; 0 if the form doesn't say it."""
    text = form_text("last")
    return int(text) if is_number(text) else 0


def refusal_answer(number: int, form: str, field: str, text: str) -> Any:
    """Returns the page of a proposal with what is wrong in a field of a form."""
    return proposal_page(number, FormState(form, request.form, [Problem(field, text)]), 409)


def accepted_requests(proposal: Proposal) -> list[Request]:
    """Returns the requests of a proposal, with the text that the form gives in place of the proposed one."""
    found, text = list(proposal.requests), request.form.get("text", "")
    place = next((at for at, it in enumerate(found) if text_of([it])), None)
    if place is not None and text.strip():
        its = with_text(found[place], text)
        # (its source goes with the term)
        rest = [with_text(it, text_of([its])) if is_source_of_term(it) else it for it in found[place + 1 :]]
        found[place:] = [its, *rest]
    rights = the_rights()
    return as_candidates(found) if rights.proposed_are_candidates else rights.completed(found, person().role)


def is_source_of_term(it: Request) -> bool:
    """Whether a request gives a term its source."""
    return bool(it["do"] == "set" and it["field"] == TERM_SOURCE)


def with_text(it: Request, text: str) -> Request:
    """Returns a request for a term, a note or a value with another text."""
    if it["do"] != "set":
        return {**it, "text": " ".join(text.split())}
    field = the_fields().get(it["field"])
    return {**it, "new": member_of(tidy(text, field.kind if field else "line"), source_of(it["new"]))}


def text_of(requests: Sequence[Request]) -> str:
    """Returns the text of a term, a note, a new concept or a value among requests; nothing if there is none."""
    texts = (value_text(it["new"]) if it["do"] == "set" else it.get("text") for it in requests)
    return next((str(it) for it in texts if it), "")


@pages.post("/proposals/<int:number>/decline")
@role("editor")
def decline(number: int) -> Any:
    """Declines a proposal, with a word to its author."""
    proposal_or_404(number)
    word = request.form.get("word", "").strip()
    if not word or len(word) > LONGEST_TEXT:
        problem = too_long(word) if word else say("proposals.no_word")
        return refusal_answer(number, "decline", "word", problem)
    with the_desk().alone() as is_free:
        if not is_free:
            return busy_page(number, "decline")
        the_proposals().decide(number, "declined", person().name, word)
    return go(path_to("proposals.show_proposal", number=number))


@pages.post("/proposals/<int:number>/withdraw")
@role("reader")
def withdraw(number: int) -> Any:
    """Withdraws a proposal of one's own."""
    if proposal_or_404(number).user != person().name:
        abort(403)
    with the_desk().alone() as is_free:
        if not is_free:
            return busy_page(number, "withdraw")
        the_proposals().decide(number, "withdrawn", person().name)
    return go(path_to("proposals.show_proposal", number=number))


def busy_page(number: int, form: str) -> Any:
    """Returns the page of a proposal that isn't decided, since something else took too long."""
    return refusal_answer(number, form, "", say("refusals.Busy.text"))


# --- comments ---


@pages.post("/c/<int:number>/comments")
@role("reader")
def comment(number: int) -> Any:
    """Adds a comment at a resource."""
    if the_replica().kind(number) is None:
        abort(404)
    text = request.form.get("text", "").strip()
    if len(text) > LONGEST_TEXT:
        abort(413)
    if text:
        the_proposals().comment(person().name, number, text)
    return go(f"{concept_path(number)}#comments")


@pages.post("/c/<int:number>/comments/<int:which>/remove")
@role("reader")
def remove_comment(number: int, which: int) -> Any:
    """Removes a comment: its author may, and a head."""
    found = next((it for it in the_proposals().comments(number) if it.id == which), None)
    if found is None:
        abort(404)
    if found.user != person().name and not person().may("head"):
        abort(403)
    the_proposals().remove_comment(which, person().name)
    return go(f"{concept_path(number)}#comments")
