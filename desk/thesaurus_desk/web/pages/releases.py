"""Releases: what has changed since the last one, a new one, and downloads of each."""
from __future__ import annotations

import re
from collections import Counter
from collections.abc import Iterable, Iterator
from dataclasses import dataclass
from datetime import date
from typing import Any, cast

from flask import Blueprint, Response, abort, current_app, render_template, request
from markupsafe import Markup

from thesaurus_desk.auth.route_roles import public, role
from thesaurus_desk.interfaces import Source
from thesaurus_desk.interfaces.linked_data import ENDINGS, MEDIA
from thesaurus_desk.interfaces.whole_thesaurus import WholeAnswers
from thesaurus_desk.journal.releases import NameTaken, Release
from thesaurus_desk.store.plan_outcome import Outcome
from thesaurus_desk.store.release_export import make_release
from thesaurus_desk.web.context import field_words, go, link, page_number, person, say, tags, the_desk, the_fields
from thesaurus_desk.web.context import the_replica
from thesaurus_desk.web.form_submission import refused_form
from thesaurus_desk.web.forms import FormState, Problem
from thesaurus_desk.web.pages.edit import form_text
from thesaurus_desk.web.paths import path_to
from thesaurus_desk.web.spreadsheets import is_table_asked, sheet_of_rows
from thesaurus_tools.fields import LONGEST, tidy
from thesaurus_tools.kinds import LABEL_PROPERTIES, LINK_PROPERTIES
from thesaurus_tools.ntriples import SKOS, Literal, Node, parse_ntriples
from thesaurus_tools.rdf_writer import WRITERS
from thesaurus_tools.release_changes import (
    KINDS,
    Change,
    changes_of,
    gather,
    has_types,
    properties_of_subjects,
    without_types,
)

pages = Blueprint("releases", __name__)

FORM = "release"
NAME = re.compile(r"(?!(?:present|last)$)[0-9A-Za-z][0-9A-Za-z._-]{0,39}(?<!\.(?:ttl|rdf))(?<!\.nt)(?<!\.jsonld)")
# What a download is called, and how many changes a page shows.
FORMATS = {**ENDINGS, "rdf": "rdfxml", "jsonld": "jsonld"}
FORM_NAMES = (("ttl", "Turtle"), ("rdf", "RDF/XML"), ("jsonld", "JSON-LD"), ("nt", "N-Triples"))
PAGE = 500


@dataclass(frozen=True)
class Row:
    """A change as a row of a page: its kind, the resource by its number (or its IRI, if it isn't there), what of it has
    changed, and what that was and is."""

    kind: str
    number: int | None
    iri: str
    what: str
    before: Markup
    after: Markup


@pages.get("/releases")
@public
def releases() -> Any:
    """Shows the releases."""
    return releases_page(FormState())


def releases_page(state: FormState, status: int = 200) -> Any:
    """Returns the page of the releases, with the form as it was sent."""
    found = the_desk().releases.all()
    page = render_template(
        "releases/all.html",
        form=FORM,
        state=state,
        found=found,
        formats=FORM_NAMES,
        has_changes=bool(found) and not the_desk().releases.is_as_released(found[0]),
        today=date.today().isoformat(),
    )
    return page, status


@pages.post("/releases")
@role("head")
def new_release() -> Any:
    """Freezes what everybody sees now."""
    name, day, note = form_text("name"), form_text("day"), tidy(request.form.get("note", ""), "text")
    wrong = {
        "name": not NAME.fullmatch(name),
        "day": not is_day(day),
        "note": len(note) > LONGEST,
    }
    problems = [Problem(it, say(f"releases.wrong.{it}")) for it, is_so in wrong.items() if is_so]
    if not problems and the_desk().releases.find(name) is not None:
        problems = [Problem("name", say("releases.wrong.taken", name=name))]
    last = the_desk().releases.last()
    if not problems and last and the_desk().releases.is_as_released(last) and "sure" not in request.form:
        problems = [Problem("sure", say("releases.wrong.same", name=last.name))]
    if not the_replica().numbers("scheme"):
        problems = [Problem("", say("releases.wrong.empty"))]
    if problems:
        return releases_page(FormState(FORM, request.form, problems), 409)
    try:
        outcome = make_release(the_desk(), person().name, name, day, note)
    except NameTaken:
        return releases_page(
            FormState(FORM, request.form, [Problem("name", say("releases.wrong.taken", name=name))]), 409
        )
    return page_of_release(outcome, name)


def page_of_release(outcome: Outcome, name: str) -> Any:
    """Returns what follows a release: its page, or the form again."""
    if not outcome.is_done:
        return releases_page(refused_form(outcome), 409)
    return go(path_to("releases.release", name=name), outcome.plan)


def is_day(text: str) -> bool:
    """Whether a text is a day, as 2026-11-30."""
    try:
        return len(text) == 10 and bool(date.fromisoformat(text))
    except ValueError:
        return False


# --- what has changed ---


@pages.get("/releases/<name>")
@public
def release(name: str) -> Any:
    """Shows a release, and what has changed since the one before."""
    found = the_desk().releases.find(name) or abort(404)
    changes = the_desk().releases.changes(found)
    return changes_page(found, the_desk().releases.before(found), changes, path_to("releases.release", name=name))


@pages.get("/releases/present")
@public
def present() -> Any:
    """Shows what has changed since the last release."""
    last = the_desk().releases.last() or abort(404)
    return changes_page(None, last, present_changes(last), path_to("releases.present"))


def changes_page(release: Release | None, before: Release | None, changes: list[Change] | None, path: str) -> Any:
    """Returns the page, or the table, of what has changed between two releases, or since one."""
    found = sorted(changes or (), key=lambda it: KINDS.index(it.kind))
    if is_table_asked():
        return sheet_of_rows(f"changes-{release.name if release else 'present'}", table_rows(found))
    page = page_number()
    return render_template(
        "releases/changes.html",
        release=release,
        before=before,
        is_first=changes is None,
        counts=[(kind, count) for kind, count in counts_of(found) if count],
        count=len(found),
        rows=[row_of(it) for it in found[page * PAGE : (page + 1) * PAGE]],
        formats=FORM_NAMES,
        size=PAGE,
        path=path,
    )


def counts_of(changes: Iterable[Change]) -> list[tuple[str, int]]:
    """Returns how many resources have a change of each kind."""
    subjects = Counter(kind for kind, _ in {(it.kind, it.subject) for it in changes})
    return [(kind, subjects[kind]) for kind in KINDS]


def present_changes(last: Release) -> list[Change]:
    """Returns what has changed since a release: of the resources that plans since have changed."""
    desk, source = the_desk(), the_source()
    replica = source.replica()
    numbers = [it for it in desk.releases.changed_since(last) if replica.kind(it) != "outside"]
    lines = desk.releases.text(last).decode().split("\n")[:-1]
    before = properties_of_subjects(lines, {replica.iri(it) for it in numbers})
    now = [(replica.iri(it), gather(source.triples(it))) for it in numbers]
    pairs = now if has_types(lines) else [(iri, without_types(its)) for iri, its in now]
    return [change for iri, now in pairs for change in changes_of(iri, before.get(iri, {}), now)]


def row_of(change: Change) -> Row:
    """Returns a change as a page shows it."""
    number = the_replica().by_iri(change.subject)
    joined = (Markup(", ").join(map(shown_node, nodes)) for nodes in (change.before, change.after))
    return Row(change.kind, number, change.subject, what_changed(change.property), *joined)


def shown_node(node: Node) -> Markup:
    """Returns a value or a resource as a page shows it."""
    if isinstance(node, Literal):
        return Markup('<span lang="{}" dir="auto">{}</span>').format(node.tag, node.text)
    number = the_replica().by_iri(node)
    return link(number) if number is not None else Markup('<span dir="ltr">{}</span>').format(node)


def what_changed(name: str) -> str:
    """Returns the name of a property in the reader's language."""
    if not name:
        return ""
    short = name.removeprefix(SKOS)
    if short in LABEL_PROPERTIES:
        return say(f"kinds.label.{LABEL_PROPERTIES[short]}")
    if short == "memberList":
        return field_words("order")
    if short in LINK_PROPERTIES:
        return say(f"kinds.link.{LINK_PROPERTIES[short]}")
    of_field = next((it.name for it in the_fields().values() if it.property == name), None)
    if of_field is None and name.endswith("superOrdinate"):
        of_field = "superordinate"
    return field_words(of_field) if of_field else name


def table_rows(changes: Iterable[Change]) -> Iterator[tuple[object, ...]]:
    """Yields the rows of a table of changes, the headings first."""
    columns = (*("change", "number", "address", "term", "what", "before", "after"),)
    yield tuple(say(f"releases.column.{it}") for it in columns)
    replica = the_replica()
    for it in changes:
        number = replica.by_iri(it.subject)
        term = replica.term(number, tags())[1] if number is not None else ""
        texts = (" | ".join(map(plain_node, nodes)) for nodes in (it.before, it.after))
        yield say(f"releases.kind.{it.kind}"), number or "", it.subject, term, what_changed(it.property), *texts


def plain_node(node: Node) -> str:
    """Returns a value or a resource as a table has it."""
    if isinstance(node, Literal):
        return f"{node.text} ({node.tag})" if node.tag else node.text
    number = the_replica().by_iri(node)
    return the_replica().term(number, tags())[1] if number is not None else str(node)


# --- downloads ---


def the_source() -> Source:
    """Returns what other programs see."""
    return cast(Source, current_app.extensions["source"])


@pages.get("/releases/<name>.<any(nt,ttl,rdf,jsonld):ending>")
@public
def download(name: str, ending: str) -> Response:
    """Returns the frozen export of a release."""
    found = the_desk().releases.find(name) or abort(404)
    whole = cast(WholeAnswers, current_app.extensions["releases"])
    form = FORMATS[ending]

    def make() -> Iterable[str]:
        data = the_desk().releases.text(found)
        if form == "ntriples":
            return [data.decode()]
        return WRITERS[form](parse_ntriples(data, name), the_replica().base)

    response = whole.response((found.digest, ending), make, f"{MEDIA[form]}; charset=utf-8")
    response.headers["Content-Disposition"] = f'attachment; filename="{found.name}.{ending}"'
    return response
