"""What was on a day: a resource and the tree, and what differs between two days."""
from __future__ import annotations

from collections.abc import Iterator
from dataclasses import dataclass
from typing import Any

from flask import Blueprint, abort, render_template, request

from thesaurus_desk.clock import span_of
from thesaurus_desk.interfaces import Source
from thesaurus_desk.journal import Plan
from thesaurus_desk.journal.edit_conflicts import OF_FIELD, PARTS, Content, differences
from thesaurus_desk.journal.past_replica import PastReplica, after_plan, unknown_after
from thesaurus_desk.store.model import View
from thesaurus_desk.store.replica import Replica
from thesaurus_desk.web.context import page_number, shown_as, tags, the_desk, the_replica
from thesaurus_desk.web.field_views import shown_fields
from thesaurus_desk.web.journal_text import tell_changes, tell_plans
from thesaurus_desk.web.pages.concept import terms_by_tag
from thesaurus_desk.web.pages.releases import counts_of, row_of, table_rows
from thesaurus_desk.web.pages.search import number_of
from thesaurus_desk.web.pages.tree import MOST_TOPS, branches
from thesaurus_desk.web.spreadsheets import is_table_asked, sheet_of_rows
from thesaurus_tools.fields import TERM_SOURCE
from thesaurus_tools.release_changes import KINDS, Change, changes_of, gather

pages = Blueprint("past", __name__)
# What a comparison of a resource names; records aren't among it.
COMPARED = [it for it in PARTS["all"] if it not in ("postings", "broader", "narrower")]
# How many changes between two days a page shows.
PAGE = 500


@dataclass(frozen=True)
class Days:
    """What an address asks for: a day with the last plan on it, and another one to compare it with."""

    day: str = ""
    plan: int | None = None
    until: str = ""
    last: int | None = None
    # The first day of the journal, where the day is before it.
    first: str = ""

    @property
    def query(self) -> dict[str, str]:
        """The days, as addresses have them."""
        return {"day": self.day, "until": self.until}


def asked_days() -> Days:
    """Returns which days are asked for; of two the first one comes first."""
    days = [it for it in (request.args.get(name, "").strip() for name in ("day", "until")) if span_of(it)]
    days.sort(key=lambda it: span_of(it) or ("", ""))
    ends = [span[1] for it in days if (span := span_of(it))]
    if not ends:
        return Days()
    begin = the_desk().journal.one("SELECT at FROM plan ORDER BY id LIMIT 1")
    if begin is None or ends[0] <= begin["at"]:
        return Days(days[0], first=begin["at"] if begin else "-")
    plans = [the_desk().journal.last_plan_at(it) for it in ends]
    return Days(days[0], plans[0], days[1], plans[1]) if days[1:] else Days(days[0], plans[0])


# --- a resource ---


@pages.get("/c/<int:number>/past")
def of_resource(number: int) -> Any:
    """Shows a resource as it was on a day, and what has changed of it until another one."""
    if the_replica().kind(number) is None:
        abort(404)
    asked = asked_days()
    if asked.plan is None:
        return resource_page(number, asked)
    changes = changes_until(number, asked.plan, asked.last) if asked.until else None
    unknown = unknown_after(the_desk().journal, asked.plan, number)
    with after_plan(the_desk().replica, asked.plan) as past, shown_as(past):
        return resource_page(number, asked, past, changes, unknown)


def resource_page(
    number: int, asked: Days, past: PastReplica | None = None, changes: Any = None, unknown: list[Plan] | None = None
) -> str:
    """Returns the page of a resource on a day; without the past only the form that asks for the day."""
    view = past.view(number) if past else None
    fields = {it.name for it in shown_fields(view)} if view else set()
    values = past.values.of(number) if past else {}
    return render_template(
        "past/resource.html",
        number=number,
        asked=asked,
        view=view,
        terms=terms_by_tag(view) if view else (),
        links=links_of(view) if view else (),
        term_sources={(it.tag, it.text): it.source for it in values.get(TERM_SOURCE, ())},
        values={name: its for name, its in values.items() if name in fields},
        changes=changes,
        unknown=tell_plans(unknown or (), number),
    )


def links_of(view: View) -> Iterator[tuple[str, list[int]]]:
    """Yields the links of a resource by their kinds, with the other ends in order."""
    found: dict[str, list[int]] = {}
    for kind, other in (*view.untyped, *view.typed, *view.mappings):
        found.setdefault(f"kinds.link.{kind}", []).append(other)
    found |= {f"concept.{it}": list(getattr(view, it)) for it in ("related", "collections", "members")}
    yield from ((key, the_replica().ordered(its, tags())) for key, its in found.items() if its)


def changes_until(number: int, plan: int, last: int | None) -> Any:
    """Returns what of a resource differs after two plans, in words."""
    old, new = (content_after(number, it) for it in (plan, last))
    return tell_changes(differences(fill_parts(old, new), fill_parts(new, old)))


def content_after(number: int, plan: int | None) -> Content:
    """Returns what a resource held after a plan: nothing, if it wasn't there yet."""
    with after_plan(the_desk().replica, plan or 0) as past, past.reading():
        view = past.view(number)
        if view is None:
            return {}
        content: Content = {name: getattr(view, name) for name in COMPARED}
        fields = {"status", *(it.name for it in shown_fields(view))}
        for name, held in past.values.of(number).items():
            if name in fields:
                content[OF_FIELD + name] = tuple((it.tag, it.text, it.source) for it in held)
        return content


def fill_parts(content: Content, other: Content) -> Content:
    """Returns a content with all parts that another one has, too."""
    empty = {name: () if isinstance(it, tuple) else it for name, it in other.items()}
    return {**empty, **content}


# --- the tree ---


@pages.get("/tree/past")
def of_tree() -> Any:
    """Shows the tree as it was on a day; with another day, what has changed between the two."""
    asked = asked_days()
    if asked.plan is None:
        return render_template("past/tree.html", asked=asked)
    unknown = unknown_after(the_desk().journal, asked.plan)
    if asked.until:
        return comparison(asked, unknown)
    with after_plan(the_desk().replica, asked.plan) as past, shown_as(past):
        return tree_page(past, asked, unknown)


def tree_page(past: Replica, asked: Days, unknown: list[Plan]) -> str:
    """Returns the page of the tree on a day; `at` opens the branches down to a concept, and its own."""
    schemes, at = past.ordered(past.numbers("scheme"), tags()), number_of("at")
    found = past.view(at) if at else None
    is_there = found is not None and found.kind == "concept"
    scheme = found.scheme if found and is_there else number_of("scheme")
    if scheme not in schemes:
        # (the first that has most)
        scheme = max(schemes, key=lambda it: len(past.tops(it))) if schemes else None
    tops = past.ordered(past.tops(scheme), tags()) if scheme else []
    path = past.path_up(at, tags()) if at and is_there else tops if len(tops) == 1 else []
    return render_template(
        "past/tree.html",
        asked=asked,
        schemes=schemes,
        scheme=scheme,
        rows=branches(tops[:MOST_TOPS], None, path),
        more=len(tops) - MOST_TOPS,
        at=at,
        unknown=tell_plans(unknown),
    )


def comparison(asked: Days, unknown: list[Plan]) -> Any:
    """Returns what has changed between two days, as a page or a table."""
    found = sorted(changes_between(asked.plan or 0, asked.last or 0), key=lambda it: KINDS.index(it.kind))
    if is_table_asked():
        return sheet_of_rows(f"changes-{asked.until}", table_rows(found))
    page = page_number()
    return render_template(
        "past/tree.html",
        asked=asked,
        counts=[it for it in counts_of(found) if it[1]],
        count=len(found),
        rows=[row_of(it) for it in found[page * PAGE : (page + 1) * PAGE]],
        page=page,
        size=PAGE,
        unknown=tell_plans(unknown),
    )


def changes_between(plan: int, last: int) -> list[Change]:
    """Returns what of the vocabulary differs after two plans, as everybody sees it."""
    query = "SELECT DISTINCT number FROM concern WHERE plan > ? AND plan <= ? AND changes = 1 AND number > 0"
    rows = the_desk().journal.all(f"{query} ORDER BY number", plan, last)
    numbers = [it["number"] for it in rows if the_replica().kind(it["number"]) not in (None, "outside")]
    old, new = (stated_after(it, numbers) for it in (plan, last))
    iris = ((the_replica().iri(it), old.get(it, {}), new.get(it, {})) for it in numbers if it in old or it in new)
    return [change for iri, before, after in iris for change in changes_of(iri, before, after)]


def stated_after(plan: int, numbers: list[int]) -> dict[int, Any]:
    """Returns what an export would have stated of resources after a plan."""
    with after_plan(the_desk().replica, plan) as past, past.reading():
        values = past.values
        source = Source(lambda: past, values=values.public, places=lambda: past.places)
        return {it: gather(source.triples(it)) for it in numbers if past.kind(it)}
