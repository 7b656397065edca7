"""Makes concepts with their first terms and their place, collections and schemes."""
from __future__ import annotations

from functools import partial
from typing import Any

from flask import Blueprint, render_template, request

from thesaurus_desk.auth.route_roles import role
from thesaurus_desk.journal.entries import Request
from thesaurus_desk.journal.rights import as_candidates
from thesaurus_desk.journal.values import member_of, set_request
from thesaurus_desk.store.plan_execution import Outcome
from thesaurus_desk.store.text_keys import fold
from thesaurus_desk.web.concept_choice import choose, is_number, scheme_of, needs_choice
from thesaurus_desk.web.context import person, say, tags, the_replica, the_rights
from thesaurus_desk.web.form_submission import problem_in, submit
from thesaurus_desk.web.forms import FormState, Problem
from thesaurus_desk.web.pages.edit import form_text, given_tag, given_text, is_slip
from thesaurus_desk.web.paths import concept_path, path_to
from thesaurus_desk.web.work_views import work_of
from thesaurus_tools.fields import TERM_SOURCE, tidy
from thesaurus_tools.kinds import BROADER

pages = Blueprint("create", __name__)

FORM = "new"
# How many further languages the form has fields for.
MOST_TAGS = 5


def number_in(name: str, kind: str) -> int | None:
    """Returns the resource of a kind that a field of the form, or of the address, names."""
    text = request.values.get(name, "")
    number = int(text) if is_number(text) else 0
    return number if the_replica().kind(number) == kind else None


def scheme_of_form(parent: int | None = None) -> int | None:
    """Returns the scheme of what is made: that of its broader concept, the one named, or the first."""
    above = the_replica().view(parent) if parent else None
    if above is not None:
        return above.scheme
    return number_in("scheme", "scheme") or next(iter(the_replica().numbers("scheme")), None)


@pages.route("/new", methods=["GET", "POST"])
@role("editor")
def new_concept() -> Any:
    """Shows the form of a new concept, and makes it with its terms, its note and its place, as one plan."""
    parent = number_in("parent", "concept") or number_in("other_number", "concept")
    scheme = scheme_of_form(parent)
    if scheme is None:
        return scheme_page(FormState(), 200)
    again = partial(concept_page, scheme, parent)
    if request.method == "GET":
        return again(FormState(), 200)
    if is_slip(given_tag()):
        problem = Problem("tag", say("refusals.BadTag.text", tag=given_tag()))
        return again(FormState(FORM, request.form, [problem]), 409)
    above = None
    if form_text("other"):
        chosen = choose(request.form, scheme=scheme)
        if chosen.number is None:
            return again(needs_choice(FORM, request.form, chosen), 409)
        above = chosen.number
    alike = concepts_alike(scheme, given_text())
    if alike and "sure" not in request.form:
        return again(FormState(FORM, request.form, [Problem("text", say("new.alike"))]), 409, alike)
    requests = concept_requests(scheme, above)
    if "candidate" in request.form:
        requests = as_candidates(requests)
    return submit("new", requests, then=page_after(above, scheme), show=again, blame=field_of_label)


def concept_page(scheme: int, parent: int | None, state: FormState, status: int, alike: list[int] | None = None) -> Any:
    """Returns the form of a new concept."""
    replica = the_replica()
    page = render_template(
        "new/concept.html",
        form=FORM,
        state=state,
        parent=parent,
        scheme=scheme,
        schemes=replica.ordered(replica.numbers("scheme"), tags()),
        alike=alike or [],
        has_more=has_more(),
        text=request.args.get("text", ""),
        kind=request.args.get("kind", "broaderGeneric"),
        kinds=[(it, say(f"kinds.link.{it}")) for it in (*BROADER[1:], BROADER[0])],
        other_tags=tags()[1 : MOST_TAGS + 1],
        approves=person().role >= the_rights().approver,
        is_below_candidate=bool(parent) and work_of(parent or 0).is_hidden,
    )
    return page, status


def concepts_alike(scheme: int, text: str) -> list[int]:
    """Returns the live concepts of a scheme that have the term but for case and accents, or as an alternative one."""
    replica = the_replica()
    found = []
    for number in {it.number for it in replica.named(text, ("concept",), True)}:
        view = replica.view(number)
        if view is None or view.scheme != scheme or (given_tag(), text) in view.pref:
            continue
        if any(fold(its) == fold(text) for _, its in (*view.pref, *view.alt)):
            found.append(number)
    return replica.ordered(found, tags())


def concept_requests(scheme: int, above: int | None) -> list[Request]:
    """Returns the requests that make a concept: itself, its place, its terms, its notes and its notation."""
    tag = given_tag()
    requests: list[Request] = [{"do": "concept", "scheme": scheme, "tag": tag, "text": given_text()}]
    if above is not None:
        requests.append({"do": "link", "kind": form_text("kind", BROADER), "a": "$1", "b": above})
    labels = [("pref", it, given_text(f"text-{it}")) for it in tags() if it != tag]
    labels += [("alt", tag, " ".join(it.split())) for it in request.form.get("alt", "").splitlines()]
    labels.append(("scope", tag, given_text("scope")))
    requests += [
        {"do": "addLabel", "owner": "$1", "kind": kind, "tag": its, "text": text} for kind, its, text in labels if text
    ]
    source = given_text("source")
    values: list[tuple[str, str, Any]] = [
        ("definition", tag, tidy(request.form.get("definition", ""), "text")),
        ("notation", "", form_text("notation")),
        (TERM_SOURCE, tag, member_of(given_text(), source) if source else ""),
    ]
    return [*requests, *(set_request("$1", field, its, new=new) for field, its, new in values if new)]


def field_of_label(request: Request) -> str:
    """Returns the field from which a label or a value of the new concept comes."""
    if request["do"] == "set":
        return "source" if request["field"] == TERM_SOURCE else str(request["field"])
    if request["do"] != "addLabel":
        return "text"
    return f"text-{request['tag']}" if request["kind"] == "pref" else str(request["kind"])


def page_after(above: int | None, scheme: int) -> Any:
    """Returns what gives the page after a concept is made: its own, or the form for another one beside it."""

    def path(outcome: Outcome) -> str:
        if form_text("then") != "another":
            return concept_path(outcome.made)
        more = "&more=1" if has_more() else ""
        return f"{path_to('create.new_concept')}?scheme={scheme}&kind={form_text('kind', BROADER)}{more}" + (
            f"&parent={above}" if above else ""
        )

    return path


def has_more() -> bool:
    """Whether the form has more than a preferred term and a place: the one after it then opens these fields, too."""
    names = ("alt", "scope", "definition", "notation", "source", *(f"text-{it}" for it in tags()))
    return "more" in request.args or any(form_text(it) for it in names)


# --- collections and schemes ---


@pages.route("/new/collection", methods=["GET", "POST"])
@role("editor")
def new_collection() -> Any:
    """Makes a collection."""
    scheme = scheme_of_form()
    if scheme is None:
        return scheme_page(FormState(), 200)
    if request.method == "GET":
        return collection_page(FormState(), 200)
    made = {"do": "collection", "scheme": scheme, "tag": given_tag(), "text": given_text()}
    check = partial(known_name, "collection", scheme)
    return submit("new_collection", [made], then=page_of_new, show=collection_page, check=check)


def known_name(kind: str, scheme: int | None = None) -> FormState | None:
    """Returns the form with what is wrong with its name, if something has it and its author isn't sure."""
    return problem_in(FORM, "text", say("new.same_name")) if of_same_name(kind, scheme) else None


def of_same_name(kind: str, scheme: int | None = None) -> list[int]:
    """Returns what has the name that a form gives to a new one, unless its author is sure: a form may be sent twice."""
    if "sure" in request.form:
        return []
    hits = the_replica().named(given_text(), (kind,))
    found = {it.number for it in hits if it.kind == "pref" and it.tag == given_tag()}
    return sorted(it for it in found if scheme is None or scheme_of(it) == scheme)


def collection_page(state: FormState, status: int) -> Any:
    """Returns the form of a new collection."""
    same = of_same_name("collection", scheme_of_form()) if state.problem_at(FORM, "text") else []
    schemes = the_replica().ordered(the_replica().numbers("scheme"), tags())
    return (
        render_template(
            "new/other.html",
            form=FORM,
            state=state,
            what="collection",
            schemes=schemes,
            scheme=scheme_of_form(),
            same=same,
        ),
        status,
    )


@pages.route("/new/scheme", methods=["GET", "POST"])
@role("editor")
def new_scheme() -> Any:
    """Makes a scheme: a thesaurus of its own in this store."""
    if request.method == "GET":
        return scheme_page(FormState(), 200)
    made = {"do": "scheme", "tag": given_tag(), "text": given_text()}
    return submit("new_scheme", [made], then=page_of_new, show=scheme_page, check=partial(known_name, "scheme"))


def scheme_page(state: FormState, status: int) -> Any:
    """Returns the form of a new scheme."""
    same = of_same_name("scheme") if state.problem_at(FORM, "text") else []
    page = render_template("new/other.html", form=FORM, state=state, what="scheme", schemes=[], scheme=None, same=same)
    return page, status


def page_of_new(outcome: Outcome) -> str:
    """Returns the page of what was made."""
    return concept_path(outcome.made)
