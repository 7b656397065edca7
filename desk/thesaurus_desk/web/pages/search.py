"""Finding: search, suggestions, A to Z."""
from __future__ import annotations

from collections.abc import Iterable, Sequence
from dataclasses import dataclass
from itertools import chain
from typing import Any
from urllib.parse import quote, urlencode

from flask import Blueprint, jsonify, redirect, render_template, request

from thesaurus_desk.auth.route_roles import public
from thesaurus_desk.store.model import OPPOSITE, Hit
from thesaurus_desk.web.context import (
    link_elsewhere,
    page_number,
    person,
    record_title,
    say,
    status_words,
    tags,
    term,
    the_replica,
)
from thesaurus_desk.web.list_forms import in_other_form
from thesaurus_desk.web.paths import concept_path, path_to
from thesaurus_desk.web.record_views import concepts_of, records_found
from thesaurus_desk.web.value_search import found_values, has_notation
from thesaurus_tools.entities import entity_address
from thesaurus_tools.texts import fold

pages = Blueprint("search", __name__)
KINDS = ("concept", "collection", "scheme")
MOST_SUGGESTED, MOST_FOUND, MOST_RECORDS = 12, 300, 50
# How many records are suggested after terms.
FEW_RECORDS = 4
LONGEST_QUERY = 300
# The fewest letters that are looked for within words and in notes, and how many resources these find.
SHORTEST_PART, MOST_WITHIN = 3, 100
LETTER_PAGE = 500
# The name of the group of terms that begin with no letter or digit.
OTHER = "…"


@dataclass(frozen=True)
class Result:
    """A resource that was found: the label by which, its best term, and what a reader needs to tell it from others."""

    number: int
    text: str
    tag: str
    pref: str
    kind: str
    is_live: bool
    above: str
    is_alike: bool

    @property
    def note(self) -> str:
        """What a suggestion says after the term."""
        notes = [say("find.in", term=self.above)] if self.above else []
        notes += [say(f"kinds.resource.{self.kind}")] if self.kind != "concept" else []
        notes += [] if self.is_live else [say("find.dead")]
        return " · ".join(notes)


def found_by(hits: Iterable[Hit]) -> list[Result]:
    """Returns what a page shows of hits. An old code (a hidden label) isn't shown, but the term that it stands for."""
    replica, found = the_replica(), list(hits)
    above = replica.above(it.number for it in found)
    replica.look_at({*above, *chain.from_iterable(above.values())})
    return [found_one(it, replica.ordered(above[it.number], tags())) for it in found]


def found_one(hit: Hit, broader: Sequence[int]) -> Result:
    """Returns what a page shows of a hit with these broader concepts, the first of which is shown."""
    replica, pref = the_replica(), term(hit.number)
    is_hidden = hit.kind == "hidden"
    return Result(
        hit.number,
        pref if is_hidden else hit.text,
        tags()[0] if is_hidden else hit.tag,
        pref,
        replica.kind(hit.number) or "concept",
        replica.is_live(hit.number),
        term(broader[0]) if broader else "",
        hit.is_alike,
    )


def query_of() -> str:
    """Returns what is looked for."""
    return request.args.get("q", "").strip()[:LONGEST_QUERY]


def number_of(name: str) -> int | None:
    """Returns a number in the address, if there is one."""
    text = request.args.get(name, "")
    return int(text) if text.isascii() and text.isdigit() and len(text) < 11 else None


@pages.get("/suggest")
@public
def suggest() -> Any:
    """Returns suggestions for what is typed, as JSON."""
    asked = request.args.get("kinds", "concept")
    kinds = KINDS if asked == "all" else tuple(it for it in asked.split(",") if it in KINDS)
    found = the_replica().search(
        query_of(),
        kinds=kinds,
        scheme=number_of("scheme"),
        live=True if "live" in request.args else None,
        prefer=tags()[0],
        most=MOST_SUGGESTED + 1,
    )
    # (the concept of a form isn't suggested for its other one)
    hits = [it for it in found if it.number != number_of("without")][:MOST_SUGGESTED]
    answers = [
        {
            "number": it.number,
            "text": it.text,
            "tag": it.tag,
            "pref": it.pref,
            "note": " · ".join(filter(None, [it.note, status_words(it.number)])),
            "href": concept_path(it.number),
        }
        for it in found_by(hits)
    ]
    if asked == "all" and person().name and len(answers) < MOST_SUGGESTED and len(query_of()) > 1:
        answers += [suggested_record(it) for it in records_found(query_of(), FEW_RECORDS)]
    return jsonify(answers)


def suggested_record(name: str) -> dict[str, object]:
    """Returns a record as a suggestion: by its title, if that is known."""
    href, title = f"{path_to('records.record')}?{urlencode({'name': name})}", record_title(name)
    note = " · ".join(filter(None, [say("find.record"), name if title else ""]))
    return {"number": None, "text": title or name, "tag": "", "pref": title or name, "note": note, "href": href}


@pages.get("/search")
@public
def search() -> Any:
    """Shows what a search finds; leads to the one that it finds by its very name or number."""
    query, lang = query_of(), request.args.get("in", "")
    hits = the_replica().search(
        query,
        kinds=KINDS,
        scheme=number_of("scheme"),
        lang=lang if lang in tags() else None,
        prefer=tags()[0],
        most=MOST_FOUND,
    )
    if (other := in_other_form("search", lambda: resources_found(query, hits))) is not None:
        return other
    records = records_found(query, MOST_RECORDS) if person().name and len(query) > 1 else []
    whole = [it for it in hits if is_named(it, query)]
    matched = matches_of(query)
    if len(whole) == 1 and "all" not in request.args:
        # (the page then leads to what else was found)
        others = f"?{urlencode({'q': query})}" if len(hits) + len(records) + len(matched) > 1 else ""
        return redirect(concept_path(whole[0].number) + others, 303)
    coded = has_notation(query)
    if coded is not None and not whole and "all" not in request.args:
        return redirect(concept_path(coded), 303)
    values = found_values(query)
    within = found_within(query, hits)
    exact = [it for it in records if it == query]
    if exact and not hits and not values and "all" not in request.args:
        return redirect(f"{path_to('records.record')}?{urlencode({'name': query})}", 303)
    nothing = not (hits or records or values or matched or within)
    is_only_match = len(matched) == 1 and matched[0].is_whole and not (hits or records or values)
    if is_only_match and "all" not in request.args:
        return redirect(concept_path(matched[0].concept), 303)
    keyed = the_replica().postings.with_key(query) if person().name and nothing else None
    if keyed is not None and "all" not in request.args:
        return redirect(path_to("records.show_posting", number=keyed.number), 303)
    return render_template(
        "search.html",
        query=query,
        found=found_by(hits),
        records={it: concepts_of(it) for it in records},
        values=values,
        matched=matched,
        within=within,
        chosen=lang,
        is_full=len(hits) >= MOST_FOUND,
        link_elsewhere=link_elsewhere,
        path=f"{path_to('search.search')}?q={quote(query)}&all=1",
    )


def found_within(query: str, hits: list[Hit]) -> list[Hit]:
    """Returns what has a query within a word or in a scope note, beside what was found by its words."""
    if len(query) < SHORTEST_PART:
        return []
    # (those that were found by forgiving an error may be among them)
    known = {it.number for it in hits if not it.is_alike}
    return [it for it in the_replica().containing(query, MOST_WITHIN) if it.number not in known]


def resources_found(query: str, hits: list[Hit]) -> list[int]:
    """Returns all resources that the page of a search names, in its order."""
    found = [it.number for it in (*hits, *found_within(query, hits))]
    found += [it.concept for it in matches_of(query)]
    return [*dict.fromkeys([*found, *(it.owner for it in found_values(query))])]


@dataclass(frozen=True)
class Match:
    """A concept with a match whose address was found: the kind of the match, the number and the address of what it is
    matched with, and whether that is the whole address."""

    concept: int
    kind: str
    number: int
    address: str
    is_whole: bool


def matches_of(query: str) -> list[Match]:
    """Returns the concepts that have a match with an address: the whole one, or what it ends with."""
    replica, address = the_replica(), entity_address(query)
    found = []
    for number in replica.outside_named(address):
        view = replica.view(number)
        if view is None:
            continue
        for kind, concept in view.mappings:
            if replica.is_live(concept):
                found.append(Match(concept, OPPOSITE.get(kind, kind), number, view.iri, view.iri == address))
    return found[:MOST_FOUND]


def is_named(hit: Hit, query: str) -> bool:
    """Whether a query names a resource: by a term, an old code, the number or the address."""
    names = {str(hit.number), f"#{hit.number}", the_replica().iri(hit.number)}
    return not hit.is_alike and (fold(hit.text) == fold(query) or query in names)


@pages.get("/az")
@public
def az() -> Any:
    """Shows the terms in the reader's language by their first letter."""
    chosen = request.args.get("letter", "")[:2]
    letters = letters_here()
    letter = chosen if chosen in letters else next(iter(letters), "")
    firsts, page, lang = letters.get(letter, []), page_number(), tags()[0]
    other = in_other_form(
        "a-z", lambda: dict.fromkeys(hit.number for it in firsts for hit in the_replica().beginning(it, lang))
    )
    if other is not None:
        return other
    hits = hits_on_page(firsts, page)
    the_replica().look_at(it.number for it in hits)
    return render_template(
        "az.html",
        letters=letters,
        letter=letter,
        hits=hits,
        count=sum(the_replica().count_beginning(it, lang) for it in firsts),
        size=LETTER_PAGE,
        path=f"{path_to('search.az')}?letter={quote(letter)}",
    )


def hits_on_page(firsts: Sequence[str], page: int) -> list[Hit]:
    """Returns a page of the terms in the reader's language that begin with some letters."""
    replica, lang = the_replica(), tags()[0]
    if len(firsts) == 1:
        return replica.page_beginning(firsts[0], lang, page, LETTER_PAGE)
    hits = [hit for it in firsts for hit in replica.beginning(it, lang)]
    return hits[page * LETTER_PAGE : (page + 1) * LETTER_PAGE]


def letters_here() -> dict[str, list[str]]:
    """Returns the first letters of terms in the reader's language, and the characters that each stands for."""
    replica, lang = the_replica(), tags()[0]

    def make() -> dict[str, list[str]]:
        there = [it for it in replica.letters() if replica.has_beginning(it, lang)]
        found = {it: [it] for it in there if it.isalnum()}
        others = [it for it in there if not it.isalnum()]
        return {**found, OTHER: others} if others else found

    return replica.once(("letters", lang), make, ("labels", "resources"))
