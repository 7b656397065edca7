"""Tables that are tried or performed, and long changes that are undone, while their readers do something else: how far
each is, and where it leads."""
from __future__ import annotations

from typing import Any

from flask import Blueprint, redirect, render_template

from thesaurus_desk.auth.route_roles import role
from thesaurus_desk.web.context import person, the_desk
from thesaurus_desk.web.paths import path_to

pages = Blueprint("runs", __name__)
# After how many seconds a page without script asks again.
PACE = 5


@pages.get("/bring-in/run/<name>")
@role("indexer")
def run_page(name: str) -> Any:
    """Shows how far a run is; leads to what came of it; or says that it was cut short, or why it failed."""
    run = the_desk().runs.find(person().name, name)
    if run is None:
        return redirect(path_to("imports.bring_in"), 303)
    if run.state == "done":
        # (what undoes a change leads to a page, a table to what is kept of it)
        target = run.result if run.result.startswith("/") else path_to("imports.result", name=run.result)
        return redirect(target, 303)
    plan = the_desk().journal.plan(run.plan) if run.plan else None
    is_undo = plan is not None and plan.takes_back is not None
    cut = [it for it in the_desk().batches.cut() if it.plan == run.plan] if run.state == "cut" else []
    return render_template("bring_in/run.html", run=run, cut=cut, is_undo=is_undo, pace=PACE)
