"""How the desk is, for its head: backups, counts, disk, versions, errors; and for a monitor, whether all is well."""
from __future__ import annotations

from typing import Any, cast

from flask import Blueprint, abort, current_app, redirect, render_template, request, url_for

from thesaurus_desk.auth.route_roles import role
from thesaurus_desk.journal.schema import OfficeNeeded
from thesaurus_desk.store.copies import StoreBusy
from thesaurus_desk.store.health import Health
from thesaurus_desk.web.context import say
from thesaurus_tools.command_line import ToolError

pages = Blueprint("state", __name__)
# How many backups are listed.
SHOWN = 10


def the_health() -> Health:
    """Returns what is known of the desk's health. Raises OfficeNeeded in a process that only makes pages."""
    health = cast("Health | None", current_app.extensions["health"])
    if health is None:
        raise OfficeNeeded("health")
    return health


@pages.get("/healthz")
@role("visitor")
def healthz() -> Any:
    """Tells a monitor whether all is well: status 200 or 503."""
    problems = the_health().problems()
    return {"status": "failing" if problems else "ok", "problems": problems}, 503 if problems else 200


@pages.get("/state")
@role("head")
def state() -> Any:
    """Shows the state of the desk."""
    return state_page("")


def state_page(wrong: str, status: int = 200) -> Any:
    """Returns the page, with why there is no backup."""
    health = the_health()
    page = render_template(
        "state.html",
        health=health,
        errors=health.errors.last(),
        counts=health.counts(),
        problems=health.problems(),
        backups=health.backups.all()[:SHOWN] if health.backups else [],
        megabytes={it.folder: it.free // 1_000_000 for it in health.spaces()},
        is_made="made" in request.args,
        wrong=wrong,
    )
    return page, status


@pages.post("/state/backup")
@role("head")
def back_up() -> Any:
    """Makes a backup."""
    backups = the_health().backups
    if backups is None:
        abort(404)
    try:
        backups.make()
    except StoreBusy:
        return state_page(say("refusals.Busy.text"), 409)
    except ToolError as error:
        return state_page(say("state.no_backup", why=error), 409)
    return redirect(url_for("state.state", made=""), 303)
