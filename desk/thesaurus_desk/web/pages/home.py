"""The first page, the page of keys, and the choice of languages."""
from __future__ import annotations

import shutil
from typing import Any

from flask import Blueprint, render_template, request
from werkzeug.wrappers import Response

from thesaurus_desk.auth.route_roles import public, role
from thesaurus_desk.journal.daily_counts import Counts
from thesaurus_desk.web.context import go, own_path, person, tags, the_desk, the_replica, the_settings
from thesaurus_desk.web.help_topics import KEYS
from thesaurus_desk.web.journal_text import tell_plans
from thesaurus_desk.web.notices import warnings
from thesaurus_desk.web.pages.changes import has_take_back
from thesaurus_desk.web.work_views import list_counts, today
from thesaurus_desk.words import LANGUAGES

pages = Blueprint("home", __name__)
# How many top terms the first page shows of a scheme, and how many narrower ones of each, if the top terms are few.
MOST_TOPS, MOST_BELOW, FEW_TOPS = 60, 30, 25
MOST_RECENT = 8
# The work lists that name a flaw, of which the first page shows the longest.
FLAWS = ("undefined", "orphans", "alike", "homographs", "plurals", "redundant", "related_siblings", "mapped_twice")
MOST_FLAWS = 5
# By which name whoever runs the desk starts one, where it is installed and elsewhere.
INSTALLED, HERE = "thesaurus-desk", "tools/desk"
YEAR = 31_536_000


@pages.get("/")
@public
def home() -> str:
    """Shows a search, what waits for the reader, what is new, and the schemes with their top terms; or how a thesaurus
    begins."""
    replica, may_edit = the_replica(), person().may("editor")
    notes = {"warnings": warnings(), "cut": the_desk().batches.cut() if may_edit else []}
    numbers = replica.ordered(replica.numbers("scheme"), tags())
    if not numbers:
        command = INSTALLED if shutil.which(INSTALLED) else HERE
        return render_template("first.html", sample=f"{command} --sample", **notes)
    schemes = [(it, replica.ordered(replica.tops(it), tags())) for it in numbers]
    below = {
        top: replica.ordered(replica.branch(top), tags()) for _, tops in schemes if len(tops) < FEW_TOPS for top in tops
    }
    return render_template(
        "home.html",
        schemes=schemes,
        below=below,
        most=MOST_TOPS,
        most_below=MOST_BELOW,
        concepts=replica.count_concepts(),
        totals=replica.postings.totals(),
        **notes,
        **last_release(),
        **(own_parts() if person().name else {}),
    )


def last_release() -> dict[str, Any]:
    """Returns the last release, and whether something has changed since."""
    last = the_desk().releases.last()
    return {"release": last, "has_changes": last is not None and not the_desk().releases.is_as_released(last)}


def own_parts() -> dict[str, Any]:
    """Returns what the first page shows to who has signed in: work, changes, and the longest work lists as they were
    counted last, since counting them takes long."""
    none: Counts = {}
    day, counts = next(iter(the_desk().daily_counts.before(today(), [0]).items()), ("", none))
    found = [(it, counts[it]) for it in FLAWS if counts.get(it)]
    return {
        "recent": tell_plans(the_desk().history.changes(MOST_RECENT)),
        "has_take_back": has_take_back,
        "work": list_counts(),
        "proposed": the_desk().proposals.count_open() if person().may("editor") else 0,
        "day": day,
        "quality": sorted(found, key=lambda it: -it[1])[:MOST_FLAWS],
    }


@pages.get("/keys")
@public
def keys() -> str:
    """Shows the keys."""
    return render_template("keys.html", keys=KEYS)


@pages.get("/languages")
@public
def languages() -> str:
    """Shows the languages of terms to choose from."""
    return render_template("languages.html", there=own_path(request.args.get("next")))


@pages.get("/language")
@role("visitor")
def choose_language() -> Response:
    """Keeps the language of the pages or of the terms in a cookie, and leads back."""
    answer = go(own_path(request.args.get("next")))
    kept = {"pages": set(LANGUAGES), "terms": set(the_replica().languages())}
    for name, allowed in kept.items():
        tag = request.args.get(name, "")
        if tag in allowed:
            answer.set_cookie(
                name, tag, max_age=YEAR, samesite="Strict", httponly=True, secure=the_settings().is_secure, path="/"
            )
    return answer
