"""Displays on paper: a scheme or one branch, whole, in alphabetical or hierarchical order."""
from __future__ import annotations

from collections.abc import Iterator
from dataclasses import dataclass
from typing import Any
from urllib.parse import urlencode

from flask import Blueprint, abort, render_template, request

from thesaurus_desk.auth.route_roles import public
from thesaurus_desk.store.arrays import numbers_below, parts_of
from thesaurus_desk.store.model import View
from thesaurus_desk.store.text_keys import has_language, sort_key
from thesaurus_desk.web.context import begin_transaction, person, tags, the_replica, the_places, words
from thesaurus_desk.web.field_views import public_values
from thesaurus_desk.web.paths import path_to
from thesaurus_desk.web.spreadsheets import is_table_asked, sheet
from thesaurus_desk.web.work_views import work_of
from thesaurus_desk.words import LANGUAGES, Words
from thesaurus_desk.words.field_words import field_name
from thesaurus_tools.arrays import node_label
from thesaurus_tools.fields import DESCRIPTION

pages = Blueprint("print_displays", __name__)
FORMS = ("alphabetical", "hierarchical")
# The name of a kind of notes, and a note.
Note = tuple[str, str]


@dataclass(frozen=True)
class Entry:
    """An entry of the alphabetical display: a preferred term with what belongs to it, or a term that isn't used."""

    text: str
    number: int
    # The term to use, where this one isn't used.
    use: str = ""
    notes: tuple[Note, ...] = ()
    notations: tuple[str, ...] = ()
    used_for: tuple[str, ...] = ()
    # Pairs of BT, NT or RT and the terms; or of "array" and a node label, with the NT after it.
    links: tuple[tuple[str, tuple[str, ...]], ...] = ()


@dataclass(frozen=True)
class Line:
    """A line of the hierarchical display: how deep, whether what is below it is shown elsewhere, and whether it is the
    node label of an array."""

    depth: int
    number: int
    text: str
    notes: tuple[Note, ...]
    notations: tuple[str, ...]
    is_elsewhere: bool
    is_array: bool = False


def texts(view: View, kind: str, lang: str) -> tuple[str, ...]:
    """Returns the labels of a kind in a language."""
    return tuple(text for tag, text in view.terms(kind) if has_language(tag, lang))


def term_in(number: int, lang: str) -> str:
    """Returns the preferred term in a language; without one, the best term with its language."""
    tag, text = the_replica().term(number, [lang, *tags()])
    return text if not tag or has_language(tag, lang) else f"{text} [{tag}]"


def terms_in(numbers: tuple[int, ...], lang: str) -> tuple[str, ...]:
    """Returns the terms of concepts in their order."""
    return tuple(sorted((term_in(it, lang) for it in numbers), key=sort_key))


def words_in(lang: str) -> Words:
    """Returns the words for a display in a language; without any, those of the reader."""
    return Words(lang[:2]) if lang[:2] in LANGUAGES else words()


def notes_of(view: View, lang: str) -> tuple[Note, ...]:
    """Returns the scope notes of a concept, and what it has of other fields that everybody sees, but notations."""
    its = words_in(lang)
    found = (
        (field_name(field, its), it.text) for field, it in public_values(view.number, lang) if field.kind != "code"
    )
    return (*((its("print.SN"), text) for text in texts(view, "scope", lang)), *found)


def describe(view: View, lang: str) -> list[Note]:
    """Returns what describes a scheme, as its title and its licence; nothing of another resource."""
    its = words_in(lang)
    found = public_values(view.number, lang) if view.kind == "scheme" else ()
    return [(field_name(field, its), it.text) for field, it in found if field.name in DESCRIPTION]


def notations_of(number: int, lang: str) -> tuple[str, ...]:
    """Returns the notations of a concept, of whatever code."""
    return tuple(it.text for field, it in public_values(number, lang) if field.kind == "code")


def entries_of(numbers: list[int], lang: str) -> list[Entry]:
    """Returns the entries of concepts, those of terms that aren't used among them, in alphabetical order."""
    return sorted(
        (entry for number in numbers if (view := the_replica().view(number)) for entry in entries_of_view(view, lang)),
        key=lambda it: (sort_key(it.text), it.number),
    )


def entries_of_view(view: View, lang: str) -> Iterator[Entry]:
    """Yields the entry of a concept, and those of its alternative terms."""
    preferred, used_for = term_in(view.number, lang), texts(view, "alt", lang)
    links = (("BT", terms_in(view.broader, lang)), *narrower_of(view, lang), ("RT", terms_in(view.related, lang)))
    links = tuple(it for it in links if it[1])
    notations = notations_of(view.number, lang)
    yield Entry(preferred, view.number, "", notes_of(view, lang), notations, used_for, links)
    yield from (Entry(text, view.number, preferred) for text in used_for)


def narrower_of(view: View, lang: str) -> Iterator[tuple[str, tuple[str, ...]]]:
    """Yields the narrower terms of a concept: those of each array after its node label, and the others."""
    replica, places, order = the_replica(), the_places(), [lang, *tags()]
    others = list[int]()
    waiting = numbers_below(replica, places, view.number, order)[::-1]
    while waiting:
        number = waiting.pop()
        if replica.kind(number) != "collection":
            others.append(number)
            continue
        parts = parts_of(replica, places, number, order)
        inner = [it for it in parts if replica.kind(it) == "collection"]
        yield "array", (node_label(term_in(number, lang)),)
        yield "NT", tuple(term_in(it, lang) for it in parts if it not in inner)
        waiting += inner[::-1]
    yield "NT", terms_in(tuple(others), lang)


def lines_of(tops: list[int], lang: str) -> list[Line]:
    """Returns the lines of a tree; a concept with several broader ones has those below it once."""
    replica, places, lines, seen = the_replica(), the_places(), list[Line](), set[int]()
    order = [lang, *tags()]
    waiting = [(0, it) for it in reversed(replica.ordered(tops, order))]
    while waiting:
        depth, number = waiting.pop()
        view = replica.view(number)
        if view is None:
            continue
        is_array, text = view.kind == "collection", term_in(number, lang)
        is_elsewhere = number in seen and bool(view.narrower)
        shown = node_label(text) if is_array else text
        notes, notations = notes_of(view, lang), notations_of(number, lang)
        lines.append(Line(depth, number, shown, notes, notations, is_elsewhere, is_array))
        if number not in seen:
            seen.add(number)
            under = (parts_of if is_array else numbers_below)(replica, places, number, order)
            waiting += [(depth + 1, it) for it in reversed(under)]
    return lines


@pages.get("/print/<int:number>")
@public
def display(number: int) -> Any:
    """Shows a display of a scheme, or of a concept and all below it; candidates only to a user who asks for them."""
    has_candidates = bool(person().name) and the_replica().hides
    with_candidates = has_candidates and ("candidates" in request.args or work_of(number).is_hidden)
    if has_candidates and not with_candidates:
        begin_transaction(is_public=True)
    replica = the_replica()
    view = replica.view(number)
    if view is None or view.kind not in ("scheme", "concept"):
        abort(404)
    form = request.args.get("form", "hierarchical")
    lang = request.args.get("in", tags()[0])
    if form not in FORMS or lang not in tags():
        abort(404)
    is_scheme = view.kind == "scheme"
    numbers = replica.numbers("concept", number, True) if is_scheme else sorted(replica.below(number))
    if is_table_asked():
        found = replica.ordered(numbers, [lang, *tags()])
        if has_candidates:
            # (what comes back says what a concept is to have, also of a candidate above it)
            begin_transaction(is_public=False)
        return sheet("display", found)
    is_alphabetical = form == "alphabetical"
    return render_template(
        "print/page.html",
        described=describe(view, lang),
        view=view,
        form=form,
        lang=lang,
        count=len(numbers),
        entries=entries_of(numbers, lang) if is_alphabetical else [],
        lines=[] if is_alphabetical else lines_of(replica.tops(number) if is_scheme else [number], lang),
        short=words_in(lang),
        has_notes="notes" in request.args,
        has_candidates=has_candidates,
        with_candidates=with_candidates,
        path=f"{path_to('print_displays.display', number=number)}?{urlencode({'form': form, 'in': lang})}",
    )
