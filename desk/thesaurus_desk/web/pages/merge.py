"""Merges a concept into another one: both side by side, with what the program says that will move, and the notes to
copy."""
from __future__ import annotations

from dataclasses import dataclass
from functools import partial
from typing import Any

from flask import Blueprint, abort, render_template, request
from markupsafe import Markup

from thesaurus_desk.auth.route_roles import role
from thesaurus_desk.journal.entries import Answer, Request
from thesaurus_desk.journal.undo import fits
from thesaurus_desk.store.model import View
from thesaurus_desk.web.concept_choice import choose, needs_choice
from thesaurus_desk.web.context import acts_on, say, tags, the_desk, the_replica, words
from thesaurus_desk.web.form_submission import problem_in, submit
from thesaurus_desk.web.forms import FormState, Problem
from thesaurus_desk.web.journal_text import LINKS
from thesaurus_desk.web.merge_preview import MergePreview, preview_of
from thesaurus_desk.web.pages.move import live_concept
from thesaurus_desk.web.paths import concept_path
from thesaurus_desk.web.refusals import explain, label_of
from thesaurus_desk.web.value_copies import copies_to, copy_requests
from thesaurus_desk.web.work_views import work_of
from thesaurus_tools.fields import TERM_SOURCE

pages = Blueprint("merge", __name__)

CHOICE, FORM = "into", "merge"
# The refusals that concern which concept was chosen.
OF_TARGET = ("UnknownResource", "WrongKind", "NotLive", "SameResource", "OtherScheme")


@pages.route("/c/<int:number>/merge", methods=["GET", "POST"])
@role("editor")
def merge(number: int) -> Any:
    """Asks into which concept, shows what a merge will do, and merges."""
    source = live_concept(number)
    if "merge" not in acts_on(number):
        abort(403)
    if not request.values.get("other") and not request.values.get("other_number"):
        return merge_page(source, None, FormState(), 200)
    chosen = choose(request.values, scheme=source.scheme, without=number)
    if chosen.number is None:
        return merge_page(source, None, needs_choice(CHOICE, request.values, chosen), 409)
    target = the_replica().view(chosen.number)
    assert target is not None
    again = partial(merge_page, source, target)
    if request.method == "GET":
        return again(FormState(), 200)
    if "sure" not in request.form:
        return again(problem_in(FORM, "sure", say("merge.tick")), 409)
    return submit("merge", merge_requests(source, target), then=concept_path(target.number), show=again)


def merge_requests(source: View, target: View) -> list[Request]:
    """Returns the requests of a merge: the notes and values that are copied or move, and itself, which nothing takes
    back wholly."""
    wanted = request.form.getlist("note")
    requests: list[Request] = []
    for place, (tag, text) in enumerate(source.scope):
        if str(place) in wanted and (tag, text) not in target.scope:
            requests.append({"do": "addLabel", "owner": target.number, "kind": "scope", "tag": tag, "text": text})
    # (before the merge, since nothing is set at what has ended)
    requests += copy_requests(copies_to(source.number, target.number), target.number, request.form.getlist("value"))
    return [*requests, merge_of(source, target)]


def merge_of(source: View, target: View) -> Request:
    """Returns the request of a merge."""
    return {"do": "merge", "source": source.number, "target": target.number}


def merge_page(source: View, target: View | None, state: FormState, status: int) -> Any:
    """Returns the page of a merge: the question into which concept, and if there is an answer, what will happen."""
    answer = the_desk().tried([merge_of(source, target)]) if target is not None else {}
    if target is not None and answer.get("no") in OF_TARGET:
        state, status = (
            FormState(CHOICE, request.values, [Problem("other", reason_against(source, target, answer))]),
            409,
        )
        target = None
    seen = the_desk().seen
    page = render_template(
        "merge/page.html",
        choice=CHOICE,
        form=FORM,
        state=state,
        source=source,
        target=target,
        notes=[(place, it) for place, it in enumerate(source.scope) if target is not None and it not in target.scope],
        copies=copies_to(source.number, target.number) if target is not None else [],
        quoted=quote,
        count_records=the_replica().count_records,
        marks=[seen.mark(it.number, "all") for it in (source, target) if it is not None],
        **(told_merge(source, target, answer) if target is not None else {}),
    )
    return page, status


def told_merge(source: View, target: View, answer: Answer) -> dict[str, Any]:
    """Returns what a page says of a merge by the program's answer to the question what it would do."""
    if "changes" not in answer:
        return {"refused": reason_against(source, target, answer), "is_refused": "no" in answer}
    plan = preview_of(the_replica(), source.number, target.number, answer["changes"])
    return {
        "plan": plan,
        "terms": terms_by_language(source, target, plan),
        "candidates": told_candidates(source, target),
        "is_final": not fits(plan.postings),
    }


def reason_against(source: View, target: View, answer: Answer) -> Markup:
    """Returns why the program would refuse a merge, or that it can't be asked now."""
    return explain(answer or {"fault": "Closed"}, merge_of(source, target), the_replica(), words(), LINKS)


@dataclass(frozen=True)
class Terms:
    """What becomes of the source's terms in a language."""

    tag: str
    # The labels, each with the key of what is said of it, and with its source if the target gets that.
    rows: list[tuple[str, str, str]]
    # Whether the source has a preferred term in it, and the target has none.
    lacks_preferred: bool


def terms_by_language(source: View, target: View, plan: MergePreview) -> list[Terms]:
    """Returns what becomes of the source's terms, by their languages, the reader's first."""
    rows: dict[str, list[tuple[str, str, str]]] = {}
    sources = sources_along(source.number, target.number)
    becoming = [(f"becomes_{kind}", tag, text) for kind, tag, text in plan.labels]
    for what, tag, text in (*becoming, *(("label_there", tag, text) for _, tag, text in plan.dropped_labels)):
        rows.setdefault(tag, []).append((what, text, sources.get((tag, text), "")))
    lacking = {tag for tag, _ in source.pref} - {tag for tag, _ in target.pref}
    places = {tag: place for place, tag in enumerate(tags())}
    order = sorted(rows, key=lambda it: (places.get(it, len(places)), it))
    return [Terms(tag, rows[tag], tag in lacking) for tag in order]


def sources_along(source: int, target: int) -> dict[tuple[str, str], str]:
    """Returns the sources of the source's terms, by languages and texts, that go with them: those of terms that have
    none at the target."""
    own, there = (the_desk().values.held(it, TERM_SOURCE) for it in (source, target))
    known = {(it.tag, it.text) for it in there}
    return {(it.tag, it.text): it.source for it in own if (it.tag, it.text) not in known}


def told_candidates(source: View, target: View) -> list[str]:
    """Returns what is said where one of two concepts is a candidate: what the public will see of them."""
    is_source, is_target = (work_of(it.number).is_hidden for it in (source, target))
    names = {"source": LINKS.link(source.number), "target": LINKS.link(target.number)}
    if is_source == is_target:
        return []
    return [say("merge.candidate_source" if is_source else "merge.candidate_target", **names)]


def quote(text: str, tag: str) -> Markup:
    """Returns a label in quotes, with its language."""
    return label_of(words(), text, tag)
