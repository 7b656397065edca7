"""The pages of tables: what each row would do, in parts of a long table with their ticks, or what came of the rows."""
from __future__ import annotations

from collections.abc import Collection, Sequence
from typing import Any, cast

from flask import current_app, redirect, render_template, request
from markupsafe import Markup
from werkzeug.wrappers import Response

from thesaurus_desk.importing.posting_files import PostingImport
from thesaurus_desk.importing.skos_reports import Reader, by_rules
from thesaurus_desk.importing.table_runs import run_table
from thesaurus_desk.importing.tables import Importer, TableRun, preview_rows
from thesaurus_desk.importing.uploads import Uploads
from thesaurus_desk.importing.vocabularies import SkosRun
from thesaurus_desk.journal.entries import Answer, Request
from thesaurus_desk.store.run_threads import Report
from thesaurus_desk.web.background import in_background
from thesaurus_desk.web.context import field_words, link, person, tags, the_desk, the_replica, the_rights, words
from thesaurus_desk.web.journal_text import PageLinks, tell_outcome
from thesaurus_desk.web.paths import path_to
from thesaurus_desk.web.request_text import sentence_of
from thesaurus_desk.web.table_columns import MOST_CHOICES, choices_of, column_words, role_groups
from thesaurus_desk.web.tick_lists import numbers_of, page_of, ranges_of, ticked_numbers
from thesaurus_tools.row_runner import RowPlan

# How many rows a page shows.
SHOWN = 500


def the_uploads() -> Uploads:
    """Returns what is kept for users until they go on."""
    return cast(Uploads, current_app.extensions["uploads"])


def keep(what: TableRun | SkosRun | PostingImport) -> str:
    """Keeps something for the reader, and returns its name."""
    rows = len(what.requests) + len(what.report) if isinstance(what, SkosRun) else len(what.rows)
    return the_uploads().keep(person().name, what, rows)


def the_reader() -> Reader:
    """Returns in whose words findings are."""
    return Reader(words(), field_words)


def the_importer() -> Importer:
    """Returns the reader as one who brings a table in."""
    return Importer(person().name, person().role, the_rights(), words(), tell_outcome)


def show_preview(run: TableRun) -> Any:
    """Tries the rows of a table, and returns its preview; or leads to where it will be. Raises NewConceptsError and
    NoTrial."""
    desk, bringer = the_desk(), the_importer()

    def do(report: Report) -> TableRun:
        preview_rows(desk, run, bringer, report)
        return run

    found = in_background(run.name, True, len(run.rows), do, keep)
    return table_page(run, found[0], 200) if isinstance(found, tuple) else found


def show_performance(run: TableRun) -> Response:
    """Performs the rows of a table that was shown, and leads to what comes of them."""
    desk, bringer = the_desk(), the_importer()

    def do(report: Report) -> TableRun:
        run_table(desk, run, bringer, report)
        return run

    found = in_background(run.name, False, len(run.rows), do, keep)
    return redirect(path_to("imports.result", name=found[0]), 303) if isinstance(found, tuple) else found


def lines_left(run: TableRun) -> set[int]:
    """Returns the lines of the rows that the form of a preview leaves out, on this page and on others."""
    last = max((it.line for it in run.rows), default=0)
    left, offered = (numbers_of(request.form.get(it, ""), last) for it in ("left", "offered"))
    return (left - offered) | (offered - ticked_numbers("row"))


def table_page(run: TableRun, name: str, status: int, left: Collection[int] = ()) -> Any:
    """Returns the preview of a table, in which some lines are left out, or what came of it: a part of a long one."""
    telling = sorted((it for it in run.plans if it.reason or it.changes), key=lambda it: not it.reason)
    part = page_of(request.values.get("go", request.values.get("page", "")), len(telling), SHOWN)
    shown = telling[part * SHOWN : (part + 1) * SHOWN]
    # (those of a vocabulary or an export are compared anew)
    has_ticks = not (run.is_done or run.vocabulary or run.exported)
    offered = [it.line for it in shown if not it.reason] if has_ticks else []
    unclear, others = choices_of(run.columns, run.rows)
    page = render_template(
        "bring_in/table.html",
        run=run,
        report=by_rules(run.report, the_reader()),
        unclear=unclear[:MOST_CHOICES],
        others=others[:MOST_CHOICES],
        groups=role_groups(run.columns),
        before=None if run.is_done or run.batch else the_desk().batches.same(run.digest),
        column_words=column_words,
        rows=shown,
        lines=sentences_of(run, shown),
        moving=moving_records(run),
        has_ticks=has_ticks,
        offered=ranges_of(offered),
        left=left,
        left_elsewhere=ranges_of(set(left).difference(offered)),
        part=part,
        size=SHOWN,
        telling=len(telling),
        meant={it.line: meant_by(it) for it in shown if it.error},
        changing=sum(it.does_something and not it.reason for it in run.plans),
        failed=sum(bool(it.reason) for it in run.plans),
        name=name,
        count=len(run.plans),
        outside=count_outside(run),
        room=the_desk().room(),
    )
    return page, status


def sentences_of(run: TableRun, rows: Sequence[RowPlan]) -> dict[int, list[Markup]]:
    """Returns what rows do, by their lines."""
    links = PageLinks(run.made)
    return {
        it.line: [sentence_of(one, answer_to(run, one), the_replica(), words(), links) for one in it.changes]
        for it in rows
        if not it.reason
    }


def count_outside(run: TableRun) -> int:
    """Returns how many concepts elsewhere the rows of a table make that the store doesn't have."""
    return sum(it["do"] == "outside" for plan in run.plans if not plan.reason for it in plan.requests)


def moving_records(run: TableRun) -> dict[int, int]:
    """Returns how many records the merges of rows move, by their lines."""
    merges = {
        it.line: [one["source"] for one in it.changes if one["do"] == "merge"] for it in run.plans if not it.reason
    }
    count = the_replica().postings.count_records_at
    return {line: sum(map(count, sources)) for line, sources in merges.items() if sources and not run.is_done}


def answer_to(run: TableRun, request: Request) -> Answer:
    """Returns the number of what a request of a table has made, as an answer; nothing if it has made nothing."""
    number = run.numbers.get(str(request.get("as", "")))
    return {"ok": number} if number else {}


def meant_by(row: RowPlan) -> Markup:
    """Returns a link to the concept that a row may mean whose term nothing has, or nothing."""
    if row.error is None or row.error.key != "not_called":
        return Markup()
    kind, text = (str(row.error.values[it]) for it in ("kind", "text"))
    hits = the_replica().search(text, kinds=(kind,), live=True, prefer=tags()[0], most=1)
    return link(hits[0].number) if hits else Markup()


def leave_out(run: TableRun, lines: set[int]) -> None:
    """Leaves out the rows of some lines."""
    run.rows = [it for it in run.rows if it.line not in lines]
    run.plans = [it for it in run.plans if it.line not in lines]
