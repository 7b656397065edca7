"""Search and replace in terms and notes: each text that would change is shown first, with a tick."""
from __future__ import annotations

from typing import Any
from urllib.parse import urlencode

from flask import Blueprint, render_template, request

from thesaurus_desk.auth.route_roles import role
from thesaurus_desk.importing.replacements import HEADING, REPLACE, Replacement
from thesaurus_desk.importing.tables import TableRun
from thesaurus_desk.web.concept_choice import is_number
from thesaurus_desk.web.context import field_words, say, tags, term, the_desk, the_fields, the_replica
from thesaurus_desk.web.form_submission import problem_in
from thesaurus_desk.web.forms import FormState
from thesaurus_desk.web.paths import path_to
from thesaurus_desk.web.table_pages import show_preview
from thesaurus_tools.fields import text_fields
from thesaurus_tools.kinds import LABEL_KINDS
from thesaurus_tools.table_plans import TableOptions

pages = Blueprint("replacement", __name__)
FORM = "replace"
# (a hidden label is often a misspelling that is meant)
AT_FIRST_NOT = "hidden"


@pages.get("/replace")
@role("editor")
def ask_replacement() -> Any:
    """Shows the form, with what an address asks for."""
    return replace_page(FormState(FORM if "places" in request.args else "", request.args), 200)


@pages.post("/replace")
@role("editor")
def preview_replacement() -> Any:
    """Shows row by row what would be replaced."""
    find, new = (request.form.get(it, "") for it in ("find", "new"))
    wanted = {name for name, _ in all_places()}.intersection(request.form.getlist("places"))
    if not find.strip():
        return replace_page(problem_in(FORM, "find", say("replace.empty")), 409)
    if not wanted:
        return replace_page(problem_in(FORM, "places", say("replace.nowhere")), 409)
    scheme, tag = (request.form.get(it, "") for it in ("scheme", "tag"))
    asked = Replacement(
        find,
        new,
        frozenset(wanted),
        tag if tag in tags() else "",
        int(scheme) if is_number(scheme) else None,
        "parts" not in request.form,
    )
    rows = asked.rows(the_desk().replica)
    if not rows:
        return replace_page(problem_in(FORM, "find", say("replace.none", text=find)), 409)
    run = TableRun(say("replace.name", old=find, new=new), list(HEADING), [], rows, options_of_form())
    fields = [(name, value) for name, value in request.form.items(multi=True) if name not in ("token", "form")]
    run.asked = {"back": f"{path_to('replacement.ask_replacement')}?{urlencode(fields)}"}
    return show_preview(run)


def options_of_form() -> TableOptions:
    """Returns how the rows are performed."""
    return TableOptions(REPLACE, forget="keep" not in request.form)


def all_places() -> list[tuple[str, str]]:
    """Returns the kinds of labels and the fields in which something can be replaced, with their words."""
    labels = [(it, say(f"kinds.label.{it}")) for it in LABEL_KINDS]
    fields = [it for it in text_fields(the_fields()).values() if not it.is_retired and it.kind in ("line", "text")]
    return labels + [(it.name, field_words(it.name)) for it in fields]


def replace_page(state: FormState, status: int) -> Any:
    """Returns the form."""
    schemes = [(it, term(it)) for it in the_replica().ordered(the_replica().numbers("scheme"), tags())]
    page = render_template(
        "replace.html",
        form=FORM,
        state=state,
        places=all_places(),
        unusual=AT_FIRST_NOT,
        find=request.args.get("find", ""),
        schemes=[("", say("lists.all_schemes")), *schemes] if len(schemes) > 1 else [],
    )
    return page, status
