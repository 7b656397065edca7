"""Gives a concept another place in the hierarchy, alone or with concepts beside it."""
from __future__ import annotations

from collections.abc import Sequence
from dataclasses import dataclass
from functools import partial
from typing import Any

from flask import Blueprint, abort, render_template, request
from markupsafe import Markup

from thesaurus_desk.auth.route_roles import role
from thesaurus_desk.journal.edit_conflicts import Conflict, read_mark
from thesaurus_desk.journal.entries import Request
from thesaurus_desk.store.model import View
from thesaurus_desk.store.plan_execution import LONGEST_PLAN
from thesaurus_desk.web.concept_choice import choose, is_number, needs_choice
from thesaurus_desk.web.context import link, say, tags, the_desk, the_replica
from thesaurus_desk.web.form_submission import problem_in, submit
from thesaurus_desk.web.forms import FormState
from thesaurus_desk.web.journal_text import tell_conflict
from thesaurus_desk.web.pages.edit import form_text, resource
from thesaurus_desk.web.paths import concept_path
from thesaurus_tools.kinds import BROADER

pages = Blueprint("move", __name__)

FORM = "move"
AS_BEFORE = "same"


@dataclass(frozen=True)
class Place:
    """A place of a concept: the broader concept, the types of the links to it, and those beside it there."""

    above: int
    kinds: tuple[str, ...]
    beside: tuple[int, ...]


def live_concept(number: int) -> View:
    """Returns the live concept that a page is about."""
    view = resource(number)
    if view.kind != "concept" or not view.is_live:
        abort(404)
    return view


def places_of(view: View) -> list[Place]:
    """Returns the places of a concept in order."""
    replica, langs = the_replica(), tags()
    found = []
    for above in replica.ordered(view.broader, langs):
        its = replica.view(above)
        beside = [it for it in replica.ordered(its.narrower, langs) if it != view.number] if its is not None else []
        found.append(Place(above, replica.link_types(view.number, above), tuple(beside)))
    return found


@pages.route("/c/<int:number>/move", methods=["GET", "POST"])
@role("editor")
def move(number: int) -> Any:
    """Shows the places of a concept, and moves it, with those that are ticked, as one plan."""
    view = live_concept(number)
    again = partial(show_again, view)
    if request.method == "GET":
        return move_page(view, FormState(), 200)
    chosen = choose(request.form, scheme=view.scheme, without=number)
    if chosen.number is None:
        return again(needs_choice(FORM, request.form, chosen), 409)
    if "from" not in request.form:
        # (a page whose place is gone has none chosen)
        return again(problem_in(FORM, "", say("move.choose")), 409)
    old, target = form_text("from"), chosen.number
    if old and (not is_number(old) or int(old) not in view.broader):
        return again(problem_in(FORM, "", say("move.gone")), 409)
    moved = [number, *(int(it) for it in request.form.getlist("with") if is_number(it) and it != str(number))]
    left = [it for it in moved if old and not the_replica().link_types(it, int(old))]
    if left:
        problem = problem_in(FORM, "", say("move.left", concept=link(left[0]), above=link(int(old))))
        return again(problem, 409, left[:1])
    requests = move_requests(moved, int(old) if old else None, target, form_text("kind", (AS_BEFORE, *BROADER)))
    if not requests or old == str(target) and form_text("kind") == AS_BEFORE:
        return again(problem_in(FORM, "other", say("move.same", concept=link(number), above=link(target))), 409)
    if len(requests) > LONGEST_PLAN:
        return again(problem_in(FORM, "", say("move.too_many", n=len(moved), most=LONGEST_PLAN // 2)), 409)
    return submit("move", requests, then=concept_path(number), show=again)


def show_again(view: View, state: FormState, status: int, others: Sequence[int] = ()) -> Any:
    """Returns the form as it was sent, over the places as they are now: so it says what was changed since it was made,
    in the links of the concept, and of others that were to move with it."""
    seen, marks = the_desk().seen, request.form.getlist("seen")
    own = [it for it in map(seen.conflict, marks) if it is not None and it.number == view.number]
    plan = min((read_mark(it)[3] for it in marks), default=the_desk().journal.last_plan())
    found = [*own, *(Conflict(it, "links", [], seen.since(it, "links", plan), "") for it in others)]
    conflicts = [tell_conflict(it) for it in found if it.changes or it.plans]
    state.seen = Markup(render_template("resource/since.html", conflicts=conflicts)) if conflicts else ""
    return move_page(view, state, status)


def move_requests(moved: list[int], old: int | None, target: int, kind: str) -> list[Request]:
    """Returns the requests of a move: the new links first, so that no concept is without its place."""
    its_kinds = places_of(resource(moved[0]))[:1]
    otherwise = its_kinds[0].kinds if its_kinds else (BROADER[1],)
    links: list[Request] = []
    unlinks: list[Request] = []
    for number in moved:
        before = the_replica().link_types(number, old) if old else ()
        wanted = (before or otherwise) if kind == AS_BEFORE else (kind,)
        there = the_replica().link_types(number, target)
        links += [{"do": "link", "kind": it, "a": number, "b": target} for it in wanted if it not in there]
        gone = [it for it in before if target != old or it not in wanted]
        unlinks += [{"do": "unlink", "kind": it, "a": number, "b": old} for it in gone]
    return links + unlinks


def move_page(view: View, state: FormState, status: int) -> Any:
    """Returns the form of a move."""
    kinds = [(it, say(f"kinds.link.{it}")) for it in (*BROADER[1:], BROADER[0])]
    page = render_template(
        "move/page.html",
        form=FORM,
        state=state,
        view=view,
        n=view.number,
        places=places_of(view),
        below=len(the_replica().below(view.number)) - 1,
        seen=the_desk().seen.mark(view.number, "links"),
        kinds=[(AS_BEFORE, say("move.as_before")), *kinds] if view.broader else kinds,
        most=LONGEST_PLAN // 2,
    )
    return page, status
