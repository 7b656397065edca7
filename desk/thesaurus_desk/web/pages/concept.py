"""The page of a resource: a concept, live or dead, a scheme, a collection or an outside concept."""
from __future__ import annotations

from collections.abc import Iterable
from dataclasses import dataclass
from typing import Any

from flask import Blueprint, Response, abort, redirect, render_template, request
from werkzeug.wrappers import Response as BaseResponse

from thesaurus_desk.auth.route_roles import public
from thesaurus_desk.journal.edit_conflicts import OF_FIELD, OF_FORMS
from thesaurus_desk.store.below_counts import BelowCount
from thesaurus_desk.store.model import Posting, View
from thesaurus_desk.web import field_views
from thesaurus_desk.web.array_views import Group, arrays_of, groups, place_view
from thesaurus_desk.web.context import (
    ending_of,
    link_elsewhere,
    page_number,
    person,
    returned_as,
    say,
    tags,
    the_desk,
    the_replica,
)
from thesaurus_desk.web.forms import FormState
from thesaurus_desk.web.journal_text import tell_plans
from thesaurus_desk.web.paths import concept_path
from thesaurus_desk.web.posting_keys import new_key
from thesaurus_desk.web.resource_history import history_of
from thesaurus_desk.web.spreadsheets import rows_of_postings, sheet, sheet_of_rows
from thesaurus_desk.web.work_views import work_form, work_of_view
from thesaurus_tools.fields import OFFERED
from thesaurus_tools.kinds import LABEL_KINDS, MAPPINGS

pages = Blueprint("concept", __name__)

PAGE = 100
# How many neighbours a page shows; the tree shows the others.
MOST_NEIGHBOURS = 60
# The most characters of a search that led here.
LONGEST_QUERY = 300
# In how many languages a page shows terms, and how many in all, before one asks for all.
MOST_LANGUAGES, MOST_TERMS = 40, 300
MOST_MEMBERS = 500
# How many plans the page of a number that nothing has shows.
MOST_PLANS = 5


@dataclass(frozen=True)
class LinkRow:
    """A link as a row of a page: its kind as seen from there, the other end, and the request's kind and ends."""

    seen_as: str
    other: int
    kind: str
    a: int
    b: int


@dataclass(frozen=True)
class Neighbourhood:
    """The tree around a concept: the way down to it, those beside it and those below it, by arrays."""

    path: tuple[int, ...]
    siblings: list[Group]
    below: list[Group]


@pages.get("/c/<int:number>")
@public
def show(number: int) -> Any:
    """Shows a resource."""
    return resource_page(number, FormState()) if the_replica().kind(number) else missing_page(number)


def missing_page(number: int) -> Any:
    """Returns the page of a number that nothing has: up to where the numbers go, and what the journal has of it."""
    history = the_desk().history
    # (what a restored store lacks is set apart)
    its = -number if history.recent(number=-number, most=1) else number
    plans = history.recent(number=its, most=MOST_PLANS) if person().name else []
    was_made = bool(plans) and history.dates(its).created is not None
    return (
        render_template(
            "resource/missing.html",
            n=number,
            last=the_replica().counts()["resources"],
            plans=tell_plans(plans, number),
            was_made=was_made,
        ),
        404,
    )


def resource_page(number: int, state: FormState, status: int = 200) -> Any:
    """Returns the page of a resource, with the forms as they were sent."""
    view = the_replica().view(number)
    if view is None:
        abort(404)
    all_terms = terms_by_tag(view)
    opened = state.name or request.args.get("open", "")
    # (a form that is open may be that of any term)
    shown_terms = all_terms if "terms" in request.args or opened else first_terms(all_terms)
    held = the_desk().values.of(number)
    sources, terms = field_views.term_sources(held), {*view.pref, *view.alt, *view.hidden}
    values = field_views.shown_values(view, held)
    marks = marks_of(number, values)
    return (
        render_template(
            "resource/page.html",
            view=view,
            state=state,
            near=near_tree(view) if view.kind == "concept" else None,
            terms_by_tag=shown_terms,
            term_sources=sources,
            lost_sources={term: it for term, it in sources.items() if term not in terms},
            more_languages=len(all_terms) - len(shown_terms),
            hierarchy_links=hierarchy_rows(view),
            links=link_rows(view),
            tops=the_replica().ordered(the_replica().tops(number), tags()) if view.kind == "scheme" else [],
            its_collections=collections_of(view),
            dates=the_desk().history.dates(number) if person().name else None,
            label_kinds=[(it, say(f"kinds.label.{it}")) for it in ("alt", "pref", "hidden", "scope")],
            new_key=new_key,
            final=the_replica().final(number),
            returned=None if view.is_live else returned_as(number),
            ending=ending_of(number) if person().name and not view.is_live else None,
            merged=the_replica().merged_into(number),
            free_collections=free_collections(view),
            records=records_of(view),
            history=history_of(number) if person().name else [],
            comments=the_desk().proposals.comments(number) if person().name else [],
            place=place_view(view),
            arrays=arrays_of(view),
            fields=field_views.shown_fields(view),
            values=values,
            field_mark=lambda number, field: marks.get(OF_FIELD + field) or field_views.mark_of(number, field),
            choices_of=field_views.choices_of,
            offered=OFFERED,
            work=work_of_view(view),
            work_form=work_form,
            seen=marks,
            opened=opened,
            most=MOST_MEMBERS if view.kind == "collection" else MOST_NEIGHBOURS,
            size=PAGE,
            MAPPINGS=MAPPINGS,
            address_elsewhere=address_elsewhere,
            link_elsewhere=link_elsewhere,
            asked=request.args.get("q", "")[:LONGEST_QUERY],
        ),
        status,
    )


def marks_of(number: int, fields: Iterable[str]) -> dict[str, str]:
    """Returns what the forms of a resource's page carry of what their author sees, those of some fields among them;
    nothing to who edits nothing."""
    parts = (*OF_FORMS, *(OF_FIELD + it for it in fields)) if person().may("editor") else ()
    return the_desk().seen.marks(number, parts)


def address_elsewhere(number: int) -> str:
    """Returns the address of a concept elsewhere, if a browser can open it."""
    view = the_replica().view(number)
    is_page = view is not None and view.kind == "outside" and view.iri.startswith(("http://", "https://"))
    return view.iri if view is not None and is_page else ""


def near_tree(view: View) -> Neighbourhood:
    """Returns the tree around a concept."""
    path = the_replica().path_up(view.number, tags())[:-1]
    siblings = groups(path[-1], narrower_in_order(path[-1])) if path else []
    return Neighbourhood(tuple(path), siblings, groups(view.number, narrower_in_order(view.number)))


def narrower_in_order(number: int) -> tuple[int, ...]:
    """Returns the narrower concepts of a concept in the order of their terms; kept, as there may be thousands."""
    replica, langs = the_replica(), tuple(tags())
    parts = ("labels", "links")
    return replica.once(
        ("narrower in order", number, langs), lambda: tuple(replica.ordered(replica.branch(number), langs)), parts
    )


def terms_by_tag(view: View) -> list[tuple[str, list[tuple[str, str]]]]:
    """Returns the terms and notes of a resource by language, the reader's first: kind and text."""
    found: dict[str, list[tuple[str, str]]] = {}
    for kind in LABEL_KINDS:
        for tag, text in view.terms(kind):
            found.setdefault(tag, []).append((kind, text))
    order = {tag: place for place, tag in enumerate(tags())}
    return sorted(found.items(), key=lambda it: (order.get(it[0], len(order)), it[0]))


def first_terms(terms: list[tuple[str, list[tuple[str, str]]]]) -> list[tuple[str, list[tuple[str, str]]]]:
    """Returns the terms in the first languages: all of them, unless they make a page too long."""
    shown: list[tuple[str, list[tuple[str, str]]]] = []
    count = 0
    for it in terms[:MOST_LANGUAGES]:
        count += len(it[1])
        if shown and count > MOST_TERMS:
            break
        shown.append(it)
    return shown


def hierarchy_rows(view: View) -> dict[str, list[tuple[int, list[LinkRow]]]]:
    """Returns the broader and the first narrower concepts in order, each with the links to it, one for each type."""
    replica, me = the_replica(), view.number
    up = [
        (other, [LinkRow(it, other, it, me, other) for it in replica.link_types(me, other)])
        for other in replica.ordered(view.broader, tags())[:MOST_NEIGHBOURS]
    ]
    down = [
        (other, [LinkRow(narrower_kind(it), other, it, other, me) for it in replica.link_types(other, me)])
        for other in narrower_in_order(me)[:MOST_NEIGHBOURS]
    ]
    return {"broader": up, "narrower": down}


def narrower_kind(kind: str) -> str:
    """Returns the kind of a broader link as seen from the broader concept."""
    return kind.replace("broader", "narrower")


def link_rows(view: View) -> dict[str, list[LinkRow]]:
    """Returns the related concepts, matches, collections and members of a resource, in order."""
    replica, me, langs = the_replica(), view.number, tags()
    matches = sorted(view.mappings, key=lambda it: (MAPPINGS.index(it[0]), it[1]))
    return {
        "related": [LinkRow("related", other, "related", me, other) for other in replica.ordered(view.related, langs)],
        "matches": [match_row(me, kind, other) for kind, other in matches],
        "collections": [
            LinkRow("member", other, "member", other, me) for other in replica.ordered(view.collections, langs)
        ],
        "members": [LinkRow("member", other, "member", me, other) for other in replica.ordered(view.members, langs)],
    }


def match_row(me: int, seen_as: str, other: int) -> LinkRow:
    """Returns a match as the store has it: as seen from here, or as seen from its other end."""
    for link in the_replica().links_between(me, other):
        turned = {"broad": "narrow", "narrow": "broad"}.get(link.kind, link.kind)
        if (link.a, link.kind) == (me, seen_as) or (link.b, turned) == (me, seen_as):
            return LinkRow(seen_as, other, link.kind, link.a, link.b)
    return LinkRow(seen_as, other, seen_as, me, other)


def free_collections(view: View) -> list[int]:
    """Returns the collections of the concept's scheme of which it isn't a member."""
    if view.kind != "concept":
        return []
    return [it for it in the_replica().numbers("collection", view.scheme) if it not in view.collections]


def collections_of(view: View) -> list[int]:
    """Returns the collections of a scheme, in order."""
    replica = the_replica()
    return replica.ordered(replica.numbers("collection", view.number), tags()) if view.kind == "scheme" else []


@dataclass(frozen=True)
class Records:
    """A page of the records of a concept, alone or with those of the concepts below it."""

    # How many records there are, and how many with those of the concepts below it, as far as they were counted; each
    # counted once.
    count: int
    below: BelowCount | None
    # How many of them the concept has more than once.
    repeated: int
    with_below: bool
    page: int
    # How many rows all pages have, and those of this one: a row for each posting.
    row_count: int
    rows: list[Posting]
    # The numbers of the rows whose record the same concept has in an earlier row.
    again: frozenset[int]


def records_of(view: View) -> Records | None:
    """Returns the page of records that is asked for; nothing to a visitor, and of no other resource."""
    if view.kind != "concept" or not person().name:
        return None
    replica, page = the_replica(), page_number()
    with_below = request.args.get("with") == "below" and bool(view.narrower)
    postings, number = replica.postings, view.number
    if with_below:
        count, rows = postings.count_below(number), postings.page_below(number, page + 1, PAGE)
    else:
        count, rows = postings.count_at(number), postings.page_at(number, page + 1, PAGE)
    repeated = postings.repeated_at(number)
    return Records(
        replica.count_records(view.number),
        the_desk().below.get(view.number) if view.narrower else BelowCount(0),
        repeated,
        with_below,
        page,
        count,
        rows,
        postings.again(rows) if repeated or with_below else frozenset(),
    )


@pages.get("/c/<int:number>/records-below")
def count_below(number: int) -> BaseResponse:
    """Counts the records of a concept with those of the concepts below it, and leads back to its page."""
    if the_replica().kind(number) != "concept":
        abort(404)
    the_desk().below.count(number)
    return redirect(f"{concept_path(number)}#records", 303)


@pages.get("/c/<int:number>/records.csv")
def records_csv(number: int) -> Response:
    """Returns the records of a concept as a table, alone or with those of the concepts below it."""
    if the_replica().kind(number) != "concept":
        abort(404)
    postings = the_replica().postings
    with_below = request.args.get("with") == "below"
    return sheet_of_rows("records", rows_of_postings(postings.each_at(number, with_below)))


@pages.get("/c/<int:number>/members.csv")
@public
def members_csv(number: int) -> Response:
    """Returns the members of a collection as a table."""
    view = the_replica().view(number)
    if view is None or view.kind != "collection":
        abort(404)
    return sheet("members", the_replica().ordered(view.members, tags()))
