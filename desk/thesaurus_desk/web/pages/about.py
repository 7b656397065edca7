"""What is proved, tested and trusted of the desk, with its own numbers: for everybody who reads it."""
from __future__ import annotations

import shutil
from pathlib import Path
from typing import Any

from flask import Blueprint, render_template

from thesaurus_desk.auth.route_roles import public
from thesaurus_desk.store.verdict import PATH, Verdict, read_verdict
from thesaurus_desk.web.context import person, say, the_desk, the_replica
from thesaurus_desk.web.pages.state import the_health
from thesaurus_desk.web.paths import path_to

pages = Blueprint("about", __name__)
# What is proved, tested and trusted, line by line: the words are `about.GROUP.NAME`; and the page that shows it, for
# whom it is.
LINES = {
    "proved": (
        ("place", "records.record", "reader"),
        ("counts", "lists.lists", "reader"),
        ("rules", "tree.tree", "visitor"),
        ("whole", "changes.changes", "reader"),
    ),
    "tested": (
        ("pages", "help.tasks", "visitor"),
        ("journal", "changes.changes", "reader"),
        ("copy", "state.state", "head"),
    ),
    "trusted": (("prover", "", ""), ("machine", "", ""), ("people", "releases.releases", "visitor")),
}


@pages.get("/about")
@public
def about() -> Any:
    """Shows what is proved, tested and trusted, and the numbers."""
    totals = the_replica().postings.totals()
    return render_template(
        "about.html",
        groups={name: [line_of(name, *it) for it in lines] for name, lines in LINES.items()},
        health=the_health(),
        version=the_health().versions()["thesaurus"],
        verdict=verdict(),
        found=found_at_start(),
        totals=totals,
        is_balanced=totals["accepted"] == totals["standing"] + totals["withdrawn"],
    )


def line_of(group: str, name: str, page: str, lowest: str) -> tuple[str, str]:
    """Returns a line, and the page that shows it if the reader may see that."""
    is_seen = lowest == "visitor" or lowest and person().may(lowest)
    return say(f"about.{group}.{name}"), path_to(page) if is_seen else ""


def verdict() -> Verdict | None:
    """Returns what the prover said of the program that runs, if a file has it."""
    program = shutil.which(the_desk().program.path)
    return read_verdict(PATH, Path(program)) if program else None


def found_at_start() -> list[str]:
    """Returns what the desk found when it compared the store with what it knew."""
    desk, found = the_desk(), the_desk().found
    if desk.is_opening:
        return [say("about.found.opening")]
    lines = {
        "restored": found.restored is not None,
        "changed": found.is_changed and found.restored is None,
        "same": not found.is_changed and found.restored is None,
    }
    said = [say(f"about.found.{name}", n=len(found.changed)) for name, is_so in lines.items() if is_so]
    return [*said, *([say("about.found.settled", n=len(found.settled))] if found.settled else [])]
