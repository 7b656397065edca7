"""The mapping bench: concepts beside what another publisher's vocabulary has for them, and what became of mappings."""
from __future__ import annotations

import random
import re
from dataclasses import dataclass
from functools import partial
from typing import Any, cast

from flask import Blueprint, abort, current_app, render_template, request

from thesaurus_desk.auth.route_roles import role
from thesaurus_desk.importing.posting_files import MOST_BYTES
from thesaurus_desk.importing.tables import TableRun
from thesaurus_desk.journal.entries import Request
from thesaurus_desk.mapping.candidates import Candidate, Finder
from thesaurus_desk.mapping.decisions import LATER, NONE, REJECTED
from thesaurus_desk.mapping.entries import entry_of, search_entries
from thesaurus_desk.mapping.loads import Loads
from thesaurus_desk.mapping.pairs import Pair, find_pairs
from thesaurus_desk.mapping.progress import LEFT, MAPPED, STATES, ChangedTarget, Progress
from thesaurus_desk.mapping.vocabularies import Vocabulary
from thesaurus_desk.store.model import View, best_of
from thesaurus_desk.web.context import (
    go,
    link_elsewhere,
    page_number,
    person,
    say,
    tags,
    tell_place,
    the_desk,
    the_replica,
)
from thesaurus_desk.web.form_submission import problem_in, submit
from thesaurus_desk.web.forms import FormState
from thesaurus_desk.web.pages.edit import form_text, given_number, link_request, resource
from thesaurus_desk.web.pages.imports import LARGEST
from thesaurus_desk.web.paths import path_to
from thesaurus_desk.web.table_pages import show_preview
from thesaurus_tools.headings import find_columns
from thesaurus_tools.kinds import MAPPINGS
from thesaurus_tools.spreadsheets import Row
from thesaurus_tools.table_plans import TableOptions
from thesaurus_tools.vocabulary_dumps import ENDS

pages = Blueprint("mapping", __name__)
# How many concepts a page lists, and pairs are drawn.
PAGE, DRAWN = 50, 20
LONGEST_NAME = 60
FORM = "map"
# The keys of the kinds of mappings.
KEYS = dict(zip(("exact", "close", "broad", "narrow", "relMatch"), "ecbnr"))


@dataclass(frozen=True)
class CandidateView:
    """A candidate as a page shows it: its label in the reader's language, and why it is one."""

    candidate: Candidate
    label: tuple[str, str]


def the_loads() -> Loads:
    """Returns the loads of dumps that were sent."""
    return cast(Loads, current_app.extensions["loads"])


def vocabulary_of(number: int) -> Vocabulary:
    """Returns the vocabulary that a page is about."""
    found = the_desk().vocabularies.get(number)
    if found is None:
        abort(404)
    return found


def concept_of(number: int) -> View:
    """Returns the concept that a page is about."""
    view = resource(number)
    if view.kind != "concept":
        abort(404)
    return view


def progress_of(vocabulary: Vocabulary) -> Progress:
    """Returns how far a vocabulary is mapped."""
    return Progress(the_replica(), the_desk().decisions, vocabulary)


def scheme_asked() -> int | None:
    """Returns the scheme of a page, in its address or its form."""
    text = request.values.get("scheme", "")
    number = int(text) if re.fullmatch("[0-9]{1,10}", text) else 0
    return number if the_replica().kind(number) == "scheme" else None


def best_name(terms: list[tuple[str, str]], otherwise: str = "") -> tuple[str, str]:
    """Returns the language and the text of a name in the reader's language."""
    return best_of(terms, tags()) or ("", otherwise)


# --- vocabularies ---


@pages.get("/mapping")
@role("editor")
def mapping() -> Any:
    """Shows the vocabularies, and how far each is mapped."""
    return start_page(FormState(), 200)


def start_page(state: FormState, status: int) -> Any:
    """Returns the page of the vocabularies."""
    replica, vocabularies = the_replica(), the_desk().vocabularies
    schemes = replica.ordered(replica.numbers("scheme"), tags())
    with vocabularies.reading():
        them = vocabularies.each()
        progress = {it.id: progress_of(it) for it in them}
        counts = {
            (it.id, scheme): {state: len(found) for state, found in progress[it.id].by_state(scheme).items()}
            for it in them
            for scheme in schemes
        }
        page = render_template(
            "mapping/start.html",
            state=state,
            vocabularies=them,
            schemes=schemes,
            counts=counts,
            changed={number: len(it.changed()) for number, it in progress.items()},
            bad_lines={it.id: vocabularies.bad_lines(it) for it in them if it.bad},
            load=the_loads().last,
            tell_place=tell_place,
            room=the_desk().room(),
            most=MOST_BYTES >> 20,
            ends=",".join(ENDS),
        )
    return page, status


@pages.post("/mapping/load")
@role("head", LARGEST)
def load() -> Any:
    """Begins to load a dump that was sent."""
    name, sent = " ".join(form_text("name").split()), request.files.get("file")
    if not 0 < len(name) <= LONGEST_NAME:
        return start_page(problem_in("load", "name", say("mapping.no_name", most=LONGEST_NAME)), 409)
    if not sent or not sent.filename or not sent.filename.lower().endswith(ENDS):
        return start_page(problem_in("load", "file", say("mapping.no_dump", ends=", ".join(ENDS))), 409)
    if not the_loads().start(name, sent.filename[:200], sent.read()):
        return start_page(problem_in("load", "", say("mapping.loading_another")), 409)
    return go(f"{path_to('mapping.mapping')}#load")


@pages.post("/mapping/<int:number>/remove")
@role("head")
def remove(number: int) -> Any:
    """Begins to remove a vocabulary; what was decided of it stays."""
    vocabulary, form = vocabulary_of(number), f"remove-{number}"
    if "sure" not in request.form:
        return start_page(problem_in(form, "sure", say("mapping.remove_sure")), 409)
    if not the_loads().remove(vocabulary.name):
        return start_page(problem_in(form, "", say("mapping.loading_another")), 409)
    return go(f"{path_to('mapping.mapping')}#load")


# --- concepts of a vocabulary ---


@pages.get("/mapping/<int:number>")
@role("editor")
def concepts(number: int) -> Any:
    """Lists concepts in a state, with the best candidate of each."""
    vocabulary, scheme = vocabulary_of(number), scheme_asked()
    with the_desk().vocabularies.reading():
        progress = progress_of(vocabulary)
        found = progress.by_state(scheme)
        asked = request.args.get("state", LEFT)
        state = asked if asked in STATES else LEFT
        page = page_number()
        numbers = found[state][page * PAGE : (page + 1) * PAGE]
        the_replica().look_at(numbers)
        return render_template(
            "mapping/list.html",
            vocabulary=vocabulary,
            scheme=scheme,
            state=state,
            counts={it: len(them) for it, them in found.items()},
            numbers=numbers,
            best={it: shown_candidates(vocabulary, progress, it, 2) for it in numbers} if state != MAPPED else {},
            matches=progress.mapped(),
            link_elsewhere=link_elsewhere,
            size=PAGE,
            path=f"{path_to('mapping.concepts', number=number)}?state={state}&scheme={scheme or ''}",
        )


def shown_candidates(vocabulary: Vocabulary, progress: Progress, concept: int, most: int) -> list[CandidateView]:
    """Returns the best candidates for a concept, with their labels."""
    vocabularies = the_desk().vocabularies
    finder = Finder(the_replica(), vocabularies, vocabulary.id)
    found = finder.find(concept, progress.rejected(concept), most)
    return [CandidateView(it, best_name(vocabularies.names(it.iri), it.iri)) for it in found]


@pages.get("/mapping/<int:number>/c/<int:concept>")
@role("editor")
def candidates(number: int, concept: int) -> Any:
    """Shows a concept beside its candidates."""
    return side_by_side(vocabulary_of(number), concept_of(concept), FormState(), 200)


def side_by_side(vocabulary: Vocabulary, view: View, state: FormState, status: int) -> Any:
    """Returns the page of a concept beside its candidates, and beside what a search finds."""
    vocabularies, asked = the_desk().vocabularies, request.args.get("q", "").strip()[:200]
    with vocabularies.reading():
        progress = progress_of(vocabulary)
        found = shown_candidates(vocabulary, progress, view.number, 8)
        searched = search_entries(vocabularies, vocabulary.id, asked) if asked else []
        entries = [entry_of(vocabularies, it) for it in (*searched, *(one.candidate.entry for one in found))]
        page = render_template(
            "mapping/side.html",
            vocabulary=vocabulary,
            view=view,
            state=state,
            form=FORM,
            entries=list({it.id: it for it in entries}.values()),
            why={one.candidate.entry: one.candidate for one in found},
            names=best_name,
            matches=progress.mapped().get(view.number, []),
            decision=the_desk().decisions.of_concepts(vocabulary.name).get(view.number),
            rejected=len(progress.rejected(view.number)),
            link_elsewhere=link_elsewhere,
            kinds=KEYS,
            scheme=scheme_asked(),
            asked=asked,
            seen=the_desk().seen.mark(view.number, "links"),
            count_records=the_replica().count_records,
        )
    return page, status


@pages.post("/mapping/<int:number>/c/<int:concept>")
@role("editor")
def decide(number: int, concept: int) -> Any:
    """Maps a concept to a candidate; or notes that one is none, that there is none, or that it waits."""
    vocabulary, view, do, iri = vocabulary_of(number), concept_of(concept), form_text("do"), form_text("iri")
    again, desk = partial(side_by_side, vocabulary, view), the_desk()
    here = f"{path_to('mapping.candidates', number=number, concept=concept)}?scheme={scheme_asked() or ''}"
    if do in MAPPINGS:
        if not iri:
            return again(problem_in(FORM, "", say("mapping.choose")), 409)
        return submit("map", mapping_requests(do, concept, iri), then=next_page(vocabulary, concept), show=again)
    if do == REJECTED and iri:
        desk.decisions.decide(person().name, vocabulary.name, concept, REJECTED, iri)
        return go(here)
    if do == "again":
        desk.decisions.forget(vocabulary.name, concept)
        return go(here)
    if do not in (NONE, LATER):
        abort(400)
    then = next_page(vocabulary, concept)
    desk.decisions.decide(person().name, vocabulary.name, concept, do)
    return go(then)


def mapping_requests(kind: str, concept: int, iri: str) -> list[Request]:
    """Returns the requests for a mapping to a concept elsewhere, which may be known here."""
    known = the_replica().by_iri(iri)
    if known is not None:
        return [link_request("link", concept, kind, known)]
    return [{"do": "outside", "iri": iri}, link_request("link", concept, kind, "$1")]


def next_page(vocabulary: Vocabulary, concept: int) -> str:
    """Returns the address of the next concept of which nothing was decided; that of the vocabulary after the last."""
    scheme = scheme_asked()
    with the_desk().vocabularies.reading():
        left = [it for it in progress_of(vocabulary).by_state(scheme)[LEFT] if it != concept]
    following = next((it for it in left if it > concept), left[0] if left else None)
    number = vocabulary.id
    if following:
        path = path_to("mapping.candidates", number=number, concept=following)
    else:
        path = path_to("mapping.concepts", number=number)
    return f"{path}?scheme={scheme or ''}"


# --- all that have the same label ---


def pairs_of(vocabulary: Vocabulary) -> list[Pair]:
    """Returns the concepts that are left, each with the one entry of the same label below a common broader term."""
    progress, scheme = progress_of(vocabulary), scheme_asked()
    left = progress.by_state(scheme)[LEFT]
    finder = Finder(the_replica(), the_desk().vocabularies, vocabulary.id)
    found = find_pairs(finder, left, the_replica().numbers("concept", scheme, True))
    return [it for it in found if it.iri not in progress.rejected(it.concept)]


@pages.get("/mapping/<int:number>/same")
@role("editor")
def same(number: int) -> Any:
    """Shows twenty at random of the concepts that have the same label as one entry, below a common broader term."""
    return same_page(vocabulary_of(number), FormState(), 200)


def same_page(vocabulary: Vocabulary, state: FormState, status: int) -> Any:
    """Returns the page of pairs."""
    vocabularies = the_desk().vocabularies
    with vocabularies.reading():
        found = pairs_of(vocabulary)
        drawn = random.sample(found, min(DRAWN, len(found)))
        page = render_template(
            "mapping/same.html",
            vocabulary=vocabulary,
            state=state,
            scheme=scheme_asked(),
            count=len(found),
            drawn=[(it, entry_of(vocabularies, it.entry)) for it in drawn],
            names=best_name,
        )
    return page, status


@pages.post("/mapping/<int:number>/same")
@role("editor")
def same_table(number: int) -> Any:
    """Shows what mapping all of them would do, as a table that is imported: a plan for each row."""
    vocabulary = vocabulary_of(number)
    if "sure" not in request.form:
        return same_page(vocabulary, problem_in("same", "sure", say("mapping.look_first")), 409)
    with the_desk().vocabularies.reading():
        found = pairs_of(vocabulary)
    heading = ["number", "exact match"]
    rows = [Row(line, [str(it.concept), it.iri]) for line, it in enumerate(found, 2)]
    columns = find_columns(heading, tags()[0], {})
    run = TableRun(say("mapping.table_name", name=vocabulary.name), heading, columns, rows, TableOptions())
    return show_preview(run)


# --- targets that have changed ---


@pages.get("/mapping/<int:number>/changed")
@role("editor")
def changed_targets(number: int) -> Any:
    """Lists the mappings whose targets are gone, deprecated, replaced or renamed in the newest dump."""
    return changed_page(vocabulary_of(number), FormState(), 200)


def changed_page(vocabulary: Vocabulary, state: FormState, status: int) -> Any:
    """Returns the page of targets that have changed."""
    vocabularies = the_desk().vocabularies
    with vocabularies.reading():
        page = render_template(
            "mapping/changed.html",
            vocabulary=vocabulary,
            state=state,
            targets=progress_of(vocabulary).changed(),
            names=best_name,
            names_of=vocabularies.names,
        )
    return page, status


@pages.post("/mapping/<int:number>/changed")
@role("editor")
def mend(number: int) -> Any:
    """Takes the new name of a target; or maps a concept to what replaces its target, or to nothing."""
    vocabulary, do, iri = vocabulary_of(number), form_text("do", ("rename", "follow", "remove")), form_text("iri")
    here = path_to("mapping.changed_targets", number=number)
    if do == "rename":
        the_desk().decisions.accept_names([iri])
        return go(here)
    kind, concept = form_text("kind", MAPPINGS), given_number("concept")
    target = target_of(vocabulary, iri)
    removal = link_request("unlink", concept, kind, target.number)
    if do == "remove":
        return submit("map", [removal], then=here, show=partial(changed_page, vocabulary))
    if not target.replaced:
        abort(409)
    requests = [*mapping_requests(kind, concept, target.replaced), removal]
    return submit("map", requests, then=here, show=partial(changed_page, vocabulary))


def target_of(vocabulary: Vocabulary, iri: str) -> ChangedTarget:
    """Returns a target that has changed."""
    with the_desk().vocabularies.reading():
        found = next((it for it in progress_of(vocabulary).changed() if it.iri == iri), None)
    if found is None:
        abort(404)
    return found
