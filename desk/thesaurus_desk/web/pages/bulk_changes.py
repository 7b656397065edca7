"""What is done with many concepts at once: a list with ticks, and rows as those of a table, which *Import* shows and
performs."""
from __future__ import annotations

from collections.abc import Callable, Sequence
from dataclasses import dataclass, field
from typing import Any

from flask import Blueprint, abort, request

from thesaurus_desk.auth.route_roles import role
from thesaurus_desk.importing.tables import TableRun
from thesaurus_desk.web.concept_choice import choose, needs_choice
from thesaurus_desk.web.context import field_words, own_path, say, tags, term, the_replica
from thesaurus_desk.web.form_submission import problem_in
from thesaurus_desk.web.forms import FormState
from thesaurus_desk.web.list_forms import FORM, TERMS, fields_to_set, ticks_page
from thesaurus_desk.web.pages.edit import form_text, given_text
from thesaurus_desk.web.pages.search import number_of
from thesaurus_desk.web.pages.tree import whole_tree
from thesaurus_desk.web.spreadsheets import sheet
from thesaurus_desk.web.table_pages import show_preview
from thesaurus_desk.web.tick_lists import is_looking, most_number, numbers_of, ticks_of_concepts
from thesaurus_desk.web.work_views import APPROVED
from thesaurus_tools.fields import STATUSES, tidy
from thesaurus_tools.headings import OF_FIELD, Column
from thesaurus_tools.spreadsheets import Row
from thesaurus_tools.table_plans import TableOptions
from thesaurus_tools.values import cell_of

pages = Blueprint("bulk_changes", __name__)


@dataclass(frozen=True)
class Act:
    """What is done with each concept: a column with its cell, how the rows are taken, and what it is called; or what is
    wrong in the form. `without`: a concept with which it isn't done."""

    column: Column = Column("", "")
    cell: str = ""
    name: str = ""
    options: TableOptions = field(default_factory=TableOptions)
    without: int | None = None
    wrong: FormState | None = None


@pages.get("/bulk")
@role("editor")
def list_with_ticks() -> Any:
    """Shows what is below a concept, or in a collection, with ticks."""
    below, members = number_of("below"), number_of("members")
    view = the_replica().view(below or members or 0)
    if view is None or view.kind != ("concept" if below else "collection"):
        abort(404)
    return ticks_page(whole_tree([view.number])[1:] if below else view.members, FormState(), 200)


@pages.post("/bulk")
@role("editor")
def preview_bulk() -> Any:
    """Shows another part of the list, the table of what is ticked, or row by row what would be done with it."""
    numbers = sorted(numbers_of(request.form.get("list", ""), most_number()))
    if is_looking():
        return ticks_page(numbers, FormState(FORM, request.form), 200)
    ticked = the_replica().ordered(ticks_of_concepts(numbers).ticked, tags())
    do = form_text("act", (*ACTS, "table"))
    if not ticked:
        return ticks_page(numbers, problem_in(FORM, "", say("bulk.none_ticked")), 409)
    if do == "table":
        return sheet("concepts", ticked)
    act = ACTS[do]()
    if act.wrong is not None:
        return ticks_page(numbers, act.wrong, 409)
    run = run_of(act, [it for it in ticked if it != act.without])
    return show_preview(run)


def run_of(act: Act, numbers: Sequence[int]) -> TableRun:
    """Returns what is done with concepts as a table."""
    columns = [Column("term", "-"), Column("concept", "concept"), act.column]
    rows = [Row(line, [term(it), str(it), act.cell]) for line, it in enumerate(numbers, 1)]
    name = say("bulk.name", n=len(rows), act=act.name)
    run = TableRun(name, [it.heading for it in columns], columns, rows, act.options)
    run.asked = {"back": own_path(request.form.get("back"))}
    return run


# --- what can be done ---


def link_act(name: str, role_of: str, key: str, kind: str = "concept", deed: str = "change") -> Act:
    """Returns what names another concept, or a collection."""
    chosen = choose(request.form, name, (kind,))
    if chosen.number is None:
        return Act(wrong=needs_choice(FORM, request.form, chosen, name))
    column = Column("collection" if role_of == "member" else role_of, role_of)
    text = say(f"bulk.{key}", term=term(chosen.number))
    return Act(column, str(chosen.number), text, TableOptions(deed), chosen.number)


def deprecation_act() -> Act:
    """Returns that concepts are deprecated."""
    return Act(Column("do", "do"), "deprecate", say("bulk.deprecate"))


def with_status() -> Act:
    """Returns that concepts get a status."""
    status = form_text("status", (APPROVED, *STATUSES))
    return Act(
        Column("status", f"{OF_FIELD}status"),
        status,
        say("bulk.status", status=say(f"status.{status}")),
        TableOptions("change"),
    )


def with_term() -> Act:
    """Returns that concepts get a further term."""
    return label_act(
        form_text("kind", TERMS), form_text("term_tag").lower(), given_text("term"), "term", TableOptions("change")
    )


def with_text(is_added: bool) -> Act:
    """Returns that concepts get a note or a value of a field, beside what they have or in its place."""
    name, tag = form_text("field"), form_text("text_tag").lower()
    options = TableOptions("translate" if is_added else "change", replace=not is_added)
    if name == "scope":
        return label_act(name, tag, given_text("text"), "text", options)
    its = fields_to_set().get(name)
    if its is None:
        abort(400)
    text = tidy(request.form.get("text", ""), its.kind)
    if not text:
        return Act(wrong=problem_in(FORM, "text", say("bulk.no_text")))
    tag = tag if its.tag == "language" else ""
    column = Column(f"{name}@{tag}" if tag else name, f"{OF_FIELD}{name}", tag)
    return Act(column, cell_of(its, [text]), say("bulk.text", field=field_words(name), text=text), options)


def label_act(kind: str, tag: str, text: str, name: str, options: TableOptions) -> Act:
    """Returns that concepts get a term or a note of a kind, typed in a field of the form."""
    if not text or not tag:
        return Act(wrong=problem_in(FORM, name, say("bulk.no_text")))
    words = say("bulk.text", field=say(f"kinds.label.{kind}"), text=text)
    return Act(Column(f"{kind}@{tag}", kind, tag), text, words, options)


ACTS: dict[str, Callable[[], Act]] = {
    "move": lambda: link_act("above", "broader", "move", deed="move"),
    "merge": lambda: link_act("into", "into", "merge", deed="merge"),
    "collect": lambda: link_act("collection", "member", "collect", "collection"),
    "deprecate": deprecation_act,
    "status": with_status,
    "term": with_term,
    "add": lambda: with_text(True),
    "set": lambda: with_text(False),
}
