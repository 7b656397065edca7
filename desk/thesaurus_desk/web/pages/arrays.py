"""Makes arrays below a concept, and changes the places of collections and the order of what is in them."""
from __future__ import annotations

from functools import partial
from typing import Any

from flask import Blueprint, abort, redirect, render_template, request

from thesaurus_desk.auth.route_roles import role
from thesaurus_desk.journal.entries import Request
from thesaurus_desk.journal.values import set_request
from thesaurus_desk.store.arrays import parts_of
from thesaurus_desk.store.model import View
from thesaurus_desk.store.plan_execution import LONGEST_PLAN
from thesaurus_desk.web.array_views import place_view
from thesaurus_desk.web.concept_choice import choose, is_number, needs_choice
from thesaurus_desk.web.context import say, tags, the_desk, the_replica, the_places
from thesaurus_desk.web.field_views import mark_of
from thesaurus_desk.web.form_submission import problem_in, submit
from thesaurus_desk.web.forms import FormState
from thesaurus_desk.web.pages.create import FORM, known_name, of_same_name, page_of_new
from thesaurus_desk.web.pages.edit import form_text, given_tag, given_text, is_slip, resource, show_again
from thesaurus_desk.web.paths import concept_path, path_to
from thesaurus_tools.fields import ORDER, SUPERORDINATE, WITHIN
from thesaurus_tools.kinds import BROADER

pages = Blueprint("arrays", __name__)
# What a collection is below or within, and what may be there.
PLACES = {SUPERORDINATE: "concept", WITHIN: "collection"}


def collection(number: int) -> View:
    """Returns the collection that a page is about."""
    view = resource(number)
    if view.kind != "collection":
        abort(404)
    return view


def place_requests(owner: int, field: str, new: list[int] | None) -> list[Request]:
    """Returns the request for another place or order; none, if it is the one that there is."""
    held = the_desk().values.held(owner, field)
    old = held[0].member if held else None
    return [] if old == new else [set_request(owner, field, "", old=old, new=new)]


# --- a new array ---


@pages.route("/new/array", methods=["GET", "POST"])
@role("editor")
def new_array() -> Any:
    """Shows the form of a new array below a concept, and makes it with its members, as one plan."""
    text = request.values.get("concept", "")
    concept = int(text) if is_number(text) else 0
    if the_replica().kind(concept) != "concept" or not the_replica().is_live(concept):
        abort(404)
    view = resource(concept)
    if request.method == "GET":
        return array_page(view, FormState(), 200)
    again = partial(array_page, view)
    if is_slip(given_tag()):
        return again(problem_in(FORM, "tag", say("refusals.BadTag.text", tag=given_tag())), 409)
    requests = array_requests(view)
    check = partial(known_name, "collection", view.scheme)
    is_long = len(requests) > LONGEST_PLAN
    return submit("new_array", requests, then=page_of_new, show=again, check=check, may_cut=is_long)


def array_page(view: View, state: FormState, status: int) -> Any:
    """Returns the form of a new array."""
    replica = the_replica()
    page = render_template(
        "new/array.html",
        form=FORM,
        state=state,
        view=view,
        same=of_same_name("collection", view.scheme) if state.problem_at(FORM, "text") else [],
        narrower=replica.ordered(view.narrower, tags()),
        outer=[(it, replica.term(it, tags())[1]) for it in the_places().arrays.get(view.number, ())],
    )
    return page, status


def array_requests(view: View) -> list[Request]:
    """Returns the requests that make an array: its name, its place, and its members."""
    within = form_text("within")
    place = (WITHIN, int(within)) if is_number(within) else (SUPERORDINATE, view.number)
    members = [int(it) for it in request.form.getlist("member") if is_number(it)]
    return [
        {"do": "collection", "scheme": view.scheme, "tag": given_tag(), "text": given_text()},
        set_request("$1", place[0], "", new=[place[1]]),
        *({"do": "link", "kind": "member", "a": "$1", "b": it} for it in members),
    ]


# --- its place ---


@pages.post("/c/<int:number>/place")
@role("editor")
def change_place(number: int) -> Any:
    """Puts a collection below a concept, or within another one; without a name, nowhere."""
    view, field = collection(number), form_text("field", tuple(PLACES))
    again, then = partial(show_again, number), f"{concept_path(number)}#place"
    new = None
    if form_text("other"):
        chosen = choose(request.form, kinds=(PLACES[field],), scheme=view.scheme, without=number)
        if chosen.number is None:
            return again(needs_choice(form_text("form"), request.form, chosen), 409)
        new = [chosen.number]
    requests = place_requests(number, field, new)
    return submit("place", requests, then=then, show=again) if requests else redirect(then, 303)


@pages.post("/c/<int:number>/narrower")
@role("editor")
def link_members(number: int) -> Any:
    """Makes members of an array narrower than its superordinate concept."""
    collection(number)
    kind, above = form_text("kind", BROADER), the_places().superordinate(number)
    members = [int(it) for it in request.form.getlist("member") if is_number(it)]
    then, again = f"{concept_path(number)}#members", partial(show_again, number)
    if above is None or not members:
        return again(problem_in(form_text("form"), "", say("arrays.none_ticked")), 409)
    requests: list[Request] = [{"do": "link", "kind": kind, "a": it, "b": above} for it in members]
    return submit("link_members", requests, then=then, show=again, may_cut=len(requests) > LONGEST_PLAN)


# --- the order in it ---


@pages.route("/c/<int:number>/order", methods=["GET", "POST"])
@role("editor")
def order(number: int) -> Any:
    """Shows what is in a collection in its order, and puts it into another one."""
    view = collection(number)
    again = partial(order_page, view)
    if request.method == "GET":
        return again(FormState(), 200)
    parts = parts_of(the_replica(), the_places(), number, tags())
    moved = next((int(it) for name in ("up", "down") if is_number(it := form_text(name))), None)
    new = None if "alphabetical" in request.form else moved_by_one(parts, moved) if moved else order_of_form(parts)
    then = path_to("arrays.order", number=number) + (f"#part-{moved}" if moved else "")
    requests = place_requests(number, ORDER, new)
    return submit("order", requests, then=then, show=again) if requests else redirect(then, 303)


def order_page(view: View, state: FormState, status: int) -> Any:
    """Returns the page of an order."""
    return (
        render_template(
            "resource/order.html", view=view, state=state, place=place_view(view), mark=mark_of(view.number, ORDER)
        ),
        status,
    )


def moved_by_one(parts: list[int], number: int) -> list[int]:
    """Returns what is in order with one moved up or down by one place."""
    if number not in parts:
        abort(400)
    at = parts.index(number)
    to = at - 1 if form_text("up") else at + 1
    rest = [it for it in parts if it != number]
    return [*rest[: max(0, to)], number, *rest[max(0, to) :]]


def order_of_form(parts: list[int]) -> list[int]:
    """Returns what is in order, with those whose places were written anew at these places."""
    wanted = {it: form_text(f"place-{it}") for it in parts}
    moved = {it: int(text) for at, it in enumerate(parts, 1) if is_number(text := wanted[it]) and int(text) != at}
    found = [it for it in parts if it not in moved]
    for it in sorted(moved, key=lambda it: (moved[it], parts.index(it))):
        found.insert(max(0, moved[it] - 1), it)
    return found
