"""Changes terms, notes and links of a resource, each beside what it changes."""
from __future__ import annotations

from functools import partial
from typing import Any

from flask import Blueprint, abort, redirect, request

from thesaurus_desk.auth.route_roles import role
from thesaurus_desk.journal.entries import Request
from thesaurus_desk.store.model import View
from thesaurus_desk.store.plan_execution import LONGEST_PLAN
from thesaurus_desk.web.concept_choice import ConceptChoice, choose, is_number, needs_choice
from thesaurus_desk.web.context import own_path, say, the_replica
from thesaurus_desk.web.form_submission import problem_in, submit
from thesaurus_desk.web.forms import FormState
from thesaurus_desk.web.pages.concept import resource_page
from thesaurus_desk.web.paths import concept_path
from thesaurus_tools.entities import entity_address
from thesaurus_tools.fields import TERM_SOURCE
from thesaurus_tools.kinds import BROADER, LABEL_KINDS, MAPPINGS
from thesaurus_tools.values import member_of, set_request

pages = Blueprint("edit", __name__)

NARROWER = tuple(it.replace("broader", "narrower") for it in BROADER)
LINK_KINDS = (*BROADER, *NARROWER, "related", *MAPPINGS, "member")


def resource(number: int) -> View:
    """Returns the resource that a page is about."""
    view = the_replica().view(number)
    if view is None:
        abort(404)
    return view


def form_text(name: str, among: tuple[str, ...] = ()) -> str:
    """Returns a field of the form, without spaces around; one of some values, if these are named."""
    value = request.form.get(name, "").strip()
    if among and value not in among:
        abort(400)
    return value


def given_text(name: str = "text") -> str:
    """Returns a term or a note: on one line, with single spaces."""
    return " ".join(request.form.get(name, "").split())


def given_tag() -> str:
    """Returns a language tag as the store has it."""
    return form_text("tag").lower()


def is_slip(tag: str) -> bool:
    """Whether a language tag has the form of one, and is rather the name of a language, as `english`.

    All that are registered have two or three letters first. Those that are in use stay."""
    return len(tag.partition("-")[0]) > 3 and tag not in the_replica().tags


def given_number(name: str) -> int:
    """Returns a number that a page put into its form."""
    value = form_text(name)
    if not is_number(value):
        abort(400)
    return int(value)


def next_or(path: str) -> str:
    """Returns the page to which a form leads that is on another page than its concept's; else a path."""
    return own_path(request.form["next"]) if request.form.get("next") else path


def show_again(number: int, state: FormState, status: int) -> Any:
    """Shows the page of a resource with the form that was sent."""
    return resource_page(number, state, status)


# --- terms and notes ---


@pages.post("/c/<int:number>/terms/add")
@role("editor")
def add_term(number: int) -> Any:
    """Adds a term or a note."""
    resource(number)
    kind, tag = form_text("kind", LABEL_KINDS), given_tag()
    if is_slip(tag):
        return show_again(number, problem_in(form_text("form"), "tag", say("refusals.BadTag.text", tag=tag)), 409)
    text = given_text()
    label = {"do": "addLabel", "owner": number, "kind": kind, "tag": tag, "text": text}
    then = next_or(f"{concept_path(number)}#at-add-term")
    requests = [label, *source_requests(number, tag, ("", ""), (text, given_source(kind)))]
    return submit("add_term", requests, then=then, show=partial(show_again, number))


@pages.post("/c/<int:number>/terms/change")
@role("editor")
def change_term(number: int) -> Any:
    """Renames the preferred term, or changes another term or a note; or the source of a term."""
    resource(number)
    kind, tag, old, text = form_text("kind", LABEL_KINDS), given_tag(), request.form.get("old", ""), given_text()
    keep, label = kind == "pref" and "keep" in request.form, {"owner": number, "kind": kind, "tag": tag}
    requests: list[Request] = []
    if old != text and kind == "pref":
        requests = [{"do": "relabel", "owner": number, "tag": tag, "text": text, "keep": keep}]
    elif old != text:
        requests = [{"do": "addLabel", **label, "text": text}, {"do": "dropLabel", **label, "text": old}]
    # (a term that is kept keeps its source)
    before = "" if keep and old != text else given_source(kind, "old_source")
    requests += source_requests(number, tag, (old, before), (text, given_source(kind)))
    if not requests:
        return redirect(f"{concept_path(number)}#terms", 303)
    action = "value" if old == text else "rename" if kind == "pref" else "change_term"
    return submit(action, requests, then=f"{concept_path(number)}#terms", show=partial(show_again, number))


def given_source(kind: str, name: str = "source") -> str:
    """Returns the source of a term; a note has none."""
    return given_text(name) if kind != "scope" else ""


def source_requests(owner: int, tag: str, before: tuple[str, str], after: tuple[str, str]) -> list[Request]:
    """Returns the request that puts a term with its source in the place of another one; none if it is the same."""
    old, new = (member_of(*it) if it[1] else None for it in (before, after))
    return [set_request(owner, TERM_SOURCE, tag, old=old, new=new)] if old != new else []


@pages.post("/c/<int:number>/terms/prefer")
@role("editor")
def prefer_term(number: int) -> Any:
    """Makes an alternative or hidden term the preferred one; the preferred one becomes an alternative term."""
    view = resource(number)
    kind, tag, text = form_text("kind", LABEL_KINDS), given_tag(), request.form.get("text", "")
    requests: list[Request] = [{"do": "dropLabel", "owner": number, "kind": kind, "tag": tag, "text": text}]
    if any(its == tag for its, _ in view.pref):
        requests.append({"do": "relabel", "owner": number, "tag": tag, "text": text, "keep": True})
    else:
        requests.append({"do": "addLabel", "owner": number, "kind": "pref", "tag": tag, "text": text})
    again = partial(show_again, number)
    return submit("prefer_term", requests, then=f"{concept_path(number)}#terms", show=again, hidden=("text",))


@pages.post("/c/<int:number>/terms/remove")
@role("editor")
def remove_term(number: int) -> Any:
    """Removes a term or a note."""
    resource(number)
    kind, tag = form_text("kind", LABEL_KINDS), given_tag()
    label = {"do": "dropLabel", "owner": number, "kind": kind, "tag": tag, "text": request.form.get("text", "")}
    again = partial(show_again, number)
    return submit("remove_term", [label], then=f"{concept_path(number)}#terms", show=again, hidden=("text",))


# --- links ---


@pages.post("/c/<int:number>/links/add")
@role("editor")
def add_link(number: int) -> Any:
    """Adds a link to the concept that a field names, or a match to an address elsewhere."""
    view, form, kind = resource(number), form_text("form"), form_text("kind", LINK_KINDS)
    again = partial(show_again, number)
    iri = match_address(form_text("other")) if kind in MAPPINGS else ""
    if kind in MAPPINGS and is_outside_iri(iri):
        return submit(
            "add_link", match_requests(number, kind, iri), then=f"{concept_path(number)}#at-{form}", show=again
        )
    chosen = choose_end(view, kind)
    if chosen.number is None:
        if kind in MAPPINGS and iri and not chosen.choices:
            chosen = ConceptChoice(None, say("refusals.Choice.match", text=iri))
        return again(needs_choice(form, request.form, chosen), 409)
    return submit(
        "add_link",
        [link_request("link", number, kind, chosen.number)],
        then=f"{concept_path(number)}#at-{form}",
        show=again,
    )


def choose_end(view: View, kind: str) -> ConceptChoice:
    """Returns the other end of a link: a collection of a concept, a member of a collection, or a concept."""
    is_of_concept = kind == "member" and view.kind == "concept"
    return choose(
        request.form,
        kinds=("collection",) if is_of_concept else ("concept", "outside") if kind in MAPPINGS else ("concept",),
        scheme=None if kind in MAPPINGS else view.scheme,
        without=view.number,
    )


def match_address(text: str) -> str:
    """Returns the address that a text means, unless a concept here is called so."""
    return text if the_replica().named(text) else entity_address(text)


def is_outside_iri(text: str) -> bool:
    """Whether a text is meant as an address elsewhere: it has a scheme, and is none of this store's."""
    scheme, colon, rest = text.partition(":")
    if not colon or not rest or not scheme.isascii() or not scheme.replace("+", "").isalnum() or " " in text:
        return False
    return the_replica().by_iri(text) is None and not the_replica().named(text)


def match_requests(number: int, kind: str, iri: str) -> list[Request]:
    """Returns the requests that note an outside concept and link it."""
    return [{"do": "outside", "iri": iri}, {"do": "link", "kind": kind, "a": number, "b": "$1"}]


def link_request(do: str, number: int, kind: str, other: int | str) -> Request:
    """Returns the request for a link as seen from a resource: some kinds lead from the other end."""
    if kind in NARROWER:
        return {"do": do, "kind": kind.replace("narrower", "broader"), "a": other, "b": number}
    if kind == "member" and the_replica().kind(number) == "concept":
        return {"do": do, "kind": kind, "a": other, "b": number}
    return {"do": do, "kind": kind, "a": number, "b": other}


@pages.post("/c/<int:number>/links/remove")
@role("editor")
def remove_link(number: int) -> Any:
    """Removes a link."""
    resource(number)
    link = {"do": "unlink", "kind": form_text("kind", LINK_KINDS), "a": given_number("a"), "b": given_number("b")}
    return submit(
        "remove_link", [link], then=next_or(f"{concept_path(number)}#links"), show=partial(show_again, number)
    )


@pages.post("/c/<int:number>/members/remove")
@role("editor")
def remove_members(number: int) -> Any:
    """Removes all members of a collection, which itself stays."""
    view, again = resource(number), partial(show_again, number)
    requests: list[Request] = [{"do": "unlink", "kind": "member", "a": number, "b": it} for it in view.members]
    if not requests:
        return again(problem_in("remove-members", "", say("edit.collection_stays")), 409)
    then, is_long = f"{concept_path(number)}#members", len(requests) > LONGEST_PLAN
    return submit("remove_members", requests, then=then, show=again, may_cut=is_long)


@pages.post("/c/<int:number>/links/retype")
@role("editor")
def retype_link(number: int) -> Any:
    """Gives a broader link another type: the new link first, so that the concept keeps its place."""
    resource(number)
    old, kind, ends = (
        form_text("old", BROADER),
        form_text("kind", BROADER),
        {"a": given_number("a"), "b": given_number("b")},
    )
    if old == kind:
        return redirect(f"{concept_path(number)}#links", 303)
    requests: list[Request] = [{"do": "link", "kind": kind, **ends}, {"do": "unlink", "kind": old, **ends}]
    return submit("retype_link", requests, then=f"{concept_path(number)}#links", show=partial(show_again, number))


@pages.post("/c/<int:number>/deprecate")
@role("editor", act="deprecate")
def deprecate(number: int) -> Any:
    """Takes a concept out of use."""
    resource(number)
    if not the_replica().is_live(number):
        return show_again(number, problem_in("deprecate", "", say("edit.is_dead")), 409)
    return submit(
        "deprecate",
        [{"do": "deprecate", "concept": number}],
        then=concept_path(number),
        show=partial(show_again, number),
    )
