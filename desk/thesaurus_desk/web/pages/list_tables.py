"""The choice of what a list has as a table: its columns, and its form."""
from __future__ import annotations

from typing import Any
from urllib.parse import parse_qsl, urlsplit

from flask import Blueprint, abort, render_template, request

from thesaurus_desk.auth.route_roles import public
from thesaurus_desk.web.context import own_path
from thesaurus_desk.web.list_columns import column_groups, heading_of, usual_columns
from thesaurus_desk.web.pages.work import WORK_COLUMNS
from thesaurus_desk.web.paths import path_to
from thesaurus_desk.web.work_views import LISTS
from thesaurus_tools.workbooks import writable_forms

pages = Blueprint("list_tables", __name__)
# What the form itself says of a table.
OWN_FIELDS = ("format", "column", "language")


@pages.get("/as-table")
@public
def choose_columns() -> Any:
    """Shows which columns and forms a list may have as a table."""
    parts = urlsplit(own_path(request.args.get("of")))
    if parts.path == "/":
        abort(404)
    more = ("members",) if parts.path == path_to("tree.collections") else ()
    is_of_work = parts.path in [path_to("work.work_list", which=it) for it in LISTS]
    usual = WORK_COLUMNS if is_of_work else usual_columns(more)
    return render_template(
        "columns.html",
        path=parts.path,
        fields=[(name, value) for name, value in parse_qsl(parts.query) if name not in OWN_FIELDS],
        groups=[(name, [(str(it), heading_of(it), it in usual) for it in its]) for name, its in column_groups() if its],
        forms=[(it, it.upper()) for it in writable_forms()],
    )
