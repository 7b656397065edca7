"""What visitors of a public desk propose, if the head allows it: limited as passwords are, seen by editors first."""
from __future__ import annotations

from functools import partial
from typing import Any

from flask import Blueprint, abort, current_app, make_response, redirect, render_template, request

from thesaurus_desk.auth.limits import Limits
from thesaurus_desk.auth.route_roles import public, role
from thesaurus_desk.journal.proposals import LONGEST_TEXT
from thesaurus_desk.web.context import go, person, say, the_desk, the_entry, visitor_may_propose
from thesaurus_desk.web.form_submission import problem_in
from thesaurus_desk.web.forms import FormState
from thesaurus_desk.web.paths import path_to
from thesaurus_desk.web.proposal_forms import concept_of_request, too_long

pages = Blueprint("visitors", __name__)
FORM = "visitor"
# The characters that the words before a visitor's text may have, in the reason of a proposal.
LEAD = 100


def the_limits() -> Limits:
    """Returns the counts of what visitors have sent lately."""
    limits: Limits = current_app.extensions.setdefault("visitor_limits", Limits())
    return limits


@pages.get("/visitor-proposal")
@public
def form_of_visitor() -> Any:
    """Shows a visitor the form for a proposal, or that it was sent."""
    if person().name:
        return redirect(path_to("proposals.form_to_propose"), 303)
    if not visitor_may_propose():
        abort(404)
    if "sent" in request.args:
        return render_template("message.html", title=say("visitors.sent"), text=say("visitors.sent_text"))
    return visitor_page(FormState(), 200)


def visitor_page(state: FormState, status: int) -> Any:
    """Returns the form."""
    page = render_template(
        "proposals/visitor.html", state=state, form=FORM, number=concept_of_request(), most=LONGEST_TEXT - LEAD
    )
    return page, status


@pages.post("/visitor-proposal")
@role("visitor")
def propose_as_visitor() -> Any:
    """Keeps what a visitor proposes, for an editor to look at."""
    if not visitor_may_propose():
        abort(404)
    text = request.form.get("text", "").strip()
    again = partial(problem_in, FORM, "text")
    if not text or len(text) > LONGEST_TEXT - LEAD:
        return visitor_page(again(too_long(text) if text else say("visitors.empty")), 409)
    if wait := the_limits().try_one(the_entry().address(request), FORM):
        answer = make_response(visitor_page(again(say("visitors.wait", n=wait)), 429))
        answer.headers["Retry-After"] = str(wait)
        return answer
    if not the_desk().visitor_proposals.add(text, concept_of_request()):
        return visitor_page(again(say("visitors.full")), 409)
    return redirect(f"{path_to('visitors.form_of_visitor')}?sent=1", 303)


@pages.post("/visitor-proposals/<int:number>/take-up")
@role("editor")
def take_up(number: int) -> Any:
    """Makes what a visitor proposes a proposal that all users see."""
    made = the_desk().visitor_proposals.take_up(number, person().name, lambda text: f"{say('visitors.of_one')} {text}")
    return go(path_to("proposals.show_proposal", number=made) if made else path_to("proposals.proposals"))


@pages.post("/visitor-proposals/<int:number>/discard")
@role("editor")
def discard(number: int) -> Any:
    """Discards what a visitor proposes."""
    the_desk().visitor_proposals.discard(number, person().name)
    return go(path_to("proposals.proposals"))
