"""Files of the thesaurus in the forms of other programs: the choice of one, and the file once it is made."""
from __future__ import annotations

import re
from dataclasses import dataclass
from typing import Any, cast

from flask import Blueprint, Response, abort, current_app, make_response, redirect, render_template, request
from werkzeug.wrappers import Response as AnyResponse

from thesaurus_desk.auth.route_roles import public
from thesaurus_desk.interfaces import Source
from thesaurus_desk.interfaces.linked_data import file_name
from thesaurus_desk.interfaces.whole_thesaurus import response_of
from thesaurus_desk.journal.releases import Release
from thesaurus_desk.store.saved_files import Busy, SavedFile, SavedFiles, FileOrder
from thesaurus_desk.web.context import tags, the_desk
from thesaurus_desk.web.paths import path_to
from thesaurus_desk.web.spreadsheets import tell_left_out
from thesaurus_tools.file_forms import FORMS, Choice

pages = Blueprint("downloads", __name__)

# How many seconds a request waits for its file, and after how many seconds a page asks again.
PATIENCE, PACE = 4.0, 3
# The forms in the groups of the page.
GROUPS = {
    "rdf": ("turtle", "rdfxml", "jsonld", "ntriples", "skosxl"),
    "thesauri": ("iso25964", "zthes"),
    "catalogues": ("marc", "marcxml", "madsrdf"),
    "tables": ("xlsx", "ods", "csv"),
    "paper": ("alphabetical", "systematic", "rotated", "page"),
    "web": ("site",),
}


def the_source() -> Source:
    """Returns what everybody sees."""
    return cast(Source, current_app.extensions["source"])


def the_files() -> SavedFiles:
    """Returns the files that were asked for."""
    return cast(SavedFiles, current_app.extensions["files"])


@dataclass(frozen=True)
class FileChoice:
    """What an address asks for: a form (or none yet), a release, the number of a scheme or a concept, a language."""

    form: str
    release: Release | None
    part: int | None
    lang: str

    def choice(self) -> Choice:
        """Returns the part and the language."""
        is_branch = self.part is not None and self.is_branch()
        return Choice(self.lang, None if is_branch else self.part, self.part if is_branch else None)

    def is_branch(self) -> bool:
        """Whether the part is a concept with all below it."""
        return self.part is not None and the_source().replica().kind(self.part) == "concept"

    def file_name(self) -> str:
        """Returns the name of the file."""
        version = f"-{self.release.name}" if self.release else ""
        form = FORMS[self.form]
        tag = f"-{self.lang}" if form.has_language else ""
        return f"{file_name(the_source(), self.part, self.lang)}{version}{tag}.{form.ending}"


def choice_of_request() -> FileChoice:
    """Returns what the address asks for. Ends with 404 for what isn't there, and 400 for an unknown form."""
    form, name, part = (request.args.get(it, "") for it in ("form", "release", "part"))
    if form and form not in FORMS:
        abort(400)
    number = int(part) if re.fullmatch("[1-9][0-9]{0,9}", part) else None
    if part and number is None or number and the_source().replica().kind(number) not in ("scheme", "concept"):
        abort(404)
    lang = request.args.get("lang", "")
    known = the_source().replica().tags
    release = (the_desk().releases.find(name) or abort(404)) if name else None
    return FileChoice(
        form, release, number, lang if lang in known else next((it for it in tags() if it in known), "en")
    )


@pages.get("/save")
@public
def start() -> str:
    """Shows the choice of what is saved, and as what."""
    it = choice_of_request()
    return render_template(
        "downloads/start.html",
        asked=it,
        groups=GROUPS,
        forms=FORMS,
        schemes=the_source().replica().numbers("scheme"),
        languages=sorted(the_source().replica().tags),
        releases=the_desk().releases.all(),
    )


@pages.get("/save/file")
@public
def make() -> Any:
    """Returns a file, or leads to where it will be."""
    it = choice_of_request()
    wish = FileOrder(it.form or abort(400), it.choice(), it.release)
    try:
        found = the_files().ask(wish, it.file_name())
    except Busy:
        return later(render_template("downloads/state.html", file=None), 503)
    return (
        file_answer(found)
        if found.is_there(PATIENCE)
        else redirect(path_to("downloads.wait", ticket=found.ticket), 303)
    )


@pages.get("/save/file/<ticket>")
@public
def wait(ticket: str) -> Any:
    """Returns a file that was asked for, or says that it is being made."""
    found = the_files().find(ticket)
    if found is None:
        return redirect(path_to("downloads.start"), 303)
    if found.is_there(PATIENCE):
        return file_answer(found)
    return later(render_template("downloads/state.html", file=found), 202, path_to("downloads.wait", ticket=ticket))


def later(page: str, status: int, path: str = "") -> Response:
    """Returns a page that asks again by itself."""
    answer = make_response(page, status)
    answer.headers["Retry-After"] = str(PACE)
    if path:
        answer.headers["Refresh"] = f"{PACE}; url={path}"
    return answer


def file_answer(it: SavedFile) -> AnyResponse:
    """Returns a file that is made, or says why there is none."""
    if it.needs or it.fault or it.too_long:
        return make_response(render_template("downloads/state.html", file=it), 409)
    if it.left_out and "anyway" not in request.args:
        return make_response(render_template("downloads/state.html", file=it, left_out=tell_left_out(it.left_out)))
    response = response_of(it.answer, FORMS[it.wish.form].media)
    response.headers["Content-Disposition"] = f'attachment; filename="{it.name}"'
    return response
