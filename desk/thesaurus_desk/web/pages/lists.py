"""Work lists: concepts of which something lacks or is doubtful, each with what mends it; and how long the lists are."""
from __future__ import annotations

from collections.abc import Iterator
from typing import Any
from urllib.parse import urlencode

from flask import Blueprint, abort, render_template, request

from thesaurus_desk.auth.route_roles import role
from thesaurus_desk.journal.daily_counts import Counts
from thesaurus_desk.journal.rights import ACTS
from thesaurus_desk.store.quality import MOST_LEVELS, MOST_NARROWER
from thesaurus_desk.store.worklists import (
    GROUPS,
    KINDS,
    LANGUAGE,
    count_list,
    count_quality,
    count_untranslated,
    make_list,
)
from thesaurus_desk.web.context import may_act, page_number, person, say, tags, the_desk, the_replica
from thesaurus_desk.web.list_columns import columns_to_translate
from thesaurus_desk.web.list_forms import in_other_form
from thesaurus_desk.web.pages.search import number_of
from thesaurus_desk.web.pages.values import counts_without
from thesaurus_desk.web.paths import path_to
from thesaurus_desk.web.spreadsheets import is_table_asked, sheet_of_rows
from thesaurus_desk.web.work_views import list_counts, today
from thesaurus_desk.words.languages import language_name

pages = Blueprint("lists", __name__)
LIST_PAGE, GROUP_PAGE, MOST_LANGUAGES = 500, 200, 40
# Where the concept of a list is mended, and the lowest role that does it, or the act; the words are `lists.cure.NAME`.
CURES = {
    "undefined": ("concept.show", "?add=definition#at-add-definition", "editor"),
    "orphans": ("move.move", "", "editor"),
    "single_child": ("create.new_concept", "?parent={}", "editor"),
    "deep": ("move.move", "", "editor"),
    "wide": ("arrays.new_array", "?concept={}", "editor"),
    "unmapped": ("concept.show", "?open=add-match#at-add-match", "editor"),
    "busiest": ("split.split", "", "split"),
    "dead_ends": ("concept.show", "#history", "reader"),
    "lost_sources": ("concept.show", "#terms", "editor"),
}
# What the sentence about a list names.
BOUNDS = {"deep": MOST_LEVELS, "wide": MOST_NARROWER}
# How many days before today the overview shows: the last day that was counted until then.
DAYS_AGO = (1, 7, 30, 90, 365)


@pages.get("/lists")
def lists() -> Any:
    """Shows which lists there are, and how long each is."""
    replica = the_replica()
    counts = {it: count_list(replica, it) for it in KINDS if it != "untranslated"}
    shown = tags() if "languages" in request.args else tags()[:MOST_LANGUAGES]
    lacking = count_untranslated(replica, sorted(shown))
    more = len(tags()) - len(shown)
    return render_template(
        "lists.html",
        counts=counts,
        lacking=lacking,
        percent={tag: percent_of(replica.count_concepts() - n, replica.count_concepts()) for tag, n in lacking.items()},
        more=more,
        without=counts_without(),
        work=list_counts(),
        bounds=BOUNDS,
    )


def percent_of(part: int, whole: int) -> int:
    """Returns how many per cent something is, rounded down: 100 are all."""
    return 100 * part // whole if whole else 100


@pages.get("/lists/<kind>")
def work_list(kind: str) -> Any:
    """Shows one list."""
    if kind not in KINDS:
        abort(404)
    replica, asked = the_replica(), request.args.get("in", "")
    lang = asked if asked in tags() else tags()[0]
    schemes = replica.ordered(replica.numbers("scheme"), tags())
    scheme = number_of("scheme") if number_of("scheme") in schemes else None
    found = make_list(replica, kind, scheme, lang, tags())
    usual = columns_to_translate(lang) if kind == "untranslated" else None
    if (other := in_other_form(kind, lambda: found.numbers, usual=usual)) is not None:
        return other
    page = page_number()
    size = GROUP_PAGE if kind in GROUPS else LIST_PAGE
    part = slice(page * size, (page + 1) * size)
    chosen: dict[str, object] = {"in": lang} if kind == "untranslated" else {}
    if scheme:
        chosen["scheme"] = scheme
    replica.look_at(found.numbers[part])
    return render_template(
        "list.html",
        kind=kind,
        lang=lang,
        schemes=schemes,
        scheme=scheme,
        numbers=found.numbers[part],
        groups=found.groups[part],
        links=found.links[part],
        count=len(found.rows),
        size=size,
        cure=cure_of(kind),
        bound=BOUNDS.get(kind),
        counts=replica.count_records,
        path=f"{path_to('lists.work_list', kind=kind)}?{urlencode(chosen)}"
        if chosen
        else path_to("lists.work_list", kind=kind),
    )


def cure_of(kind: str) -> str:
    """Returns where the reader mends a concept of a list, with braces for its number, if there is such a page."""
    if kind not in CURES:
        return ""
    page, rest, lowest = CURES[kind]
    path = path_to(page) if "{}" in rest else path_to(page, number="{}")
    return path + rest if (may_act(lowest) if lowest in ACTS else person().may(lowest)) else ""


# --- over time ---


@pages.get("/quality")
@role("head")
def quality() -> Any:
    """Shows how long each list is, and was on earlier days."""
    daily, now = the_desk().daily_counts, count_quality(the_replica())
    if is_table_asked():
        return sheet_of_rows("quality", rows_of_days({**daily.all(), today(): now}))
    days = daily.before(today(), DAYS_AGO)
    return render_template(
        "quality.html",
        days=days,
        rows=rows_of(now, days, False),
        languages=rows_of(now, days, True),
        percent=percent_of,
    )


def rows_of(now: Counts, days: dict[str, Counts], of_languages: bool) -> list[tuple[str, list[int | None]]]:
    """Returns the counts of lists, or of languages, each of now and of days."""
    names = [it for it in now if it.startswith(LANGUAGE) == of_languages]
    return [(it, [now[it], *(its.get(it) for its in days.values())]) for it in names]


def rows_of_days(days: dict[str, Counts]) -> Iterator[tuple[object, ...]]:
    """Yields the rows of a table of all days, the headings first."""
    names = list(dict.fromkeys(name for counts in days.values() for name in counts))
    yield say("quality.day"), *map(name_of_count, names)
    for day, counts in days.items():
        yield day, *(counts.get(it, "") for it in names)


def name_of_count(name: str) -> str:
    """Returns the reader's words for what is counted."""
    if name.startswith(LANGUAGE):
        return f"{say('quality.languages')}: {language_name(name.removeprefix(LANGUAGE))}"
    return say("quality.concepts") if name == "concepts" else say(f"lists.{name}")
