"""Who may do what: settled by the head."""
from __future__ import annotations

from typing import Any

from flask import Blueprint, redirect, render_template, request

from thesaurus_desk.auth.roles import role_named
from thesaurus_desk.auth.route_roles import role
from thesaurus_desk.journal.rights import ACTS, CHOICES, Rights, write_rights
from thesaurus_desk.web.context import say, tags, the_desk, the_entry, the_replica, the_rights
from thesaurus_desk.web.forms import FormState
from thesaurus_desk.web.pages.edit import form_text
from thesaurus_desk.web.paths import path_to

pages = Blueprint("rights", __name__)
WORDS = tuple(it.word for it in CHOICES)


@pages.get("/rights")
@role("head")
def rights() -> Any:
    """Shows who may do what."""
    return render_template(
        "rights.html",
        none_sent=FormState(),
        rights=the_rights(),
        acts=ACTS,
        roles=[(it, say(f"rights.role.{it}")) for it in WORDS],
        approvers=[(it, say(f"status.approver.{it}")) for it in WORDS],
        schemes=schemes(),
        editors=editors(),
    )


def schemes() -> list[int]:
    """Returns the thesauri of which it may be settled who changes them."""
    replica = the_replica()
    return replica.ordered(replica.numbers("scheme"), tags()) if editors() else []


def editors() -> list[str]:
    """Returns the names of the editors: heads change every thesaurus."""
    accounts = the_entry().accounts
    return [it.name for it in accounts.all() if it.role == CHOICES[0].word] if accounts else []


@pages.post("/rights")
@role("head")
def settle_rights() -> Any:
    """Settles who may do what."""
    known = frozenset(editors())
    people = {it: known & {*request.form.getlist(f"people-{it}")} for it in schemes() if f"some-{it}" in request.form}
    settled = Rights(
        role_named(form_text("approver", WORDS)),
        "proposed" in request.form,
        {act: role_named(form_text(act, WORDS)) for act in ACTS},
        "records" in request.form,
        people,
        "visitors" in request.form,
    )
    write_rights(the_desk().journal, settled)
    return redirect(f"{path_to('rights.rights')}?saved", 303)
