"""Bringing in: posting files, tables of changes with a preview, and whole vocabularies in SKOS."""
from __future__ import annotations

from dataclasses import replace
from typing import Any

from flask import Blueprint, Response, abort, redirect, render_template, request
from markupsafe import Markup

from thesaurus_desk.auth.route_roles import role
from thesaurus_desk.importing.export_rows import read_export_rows
from thesaurus_desk.importing.posting_files import MOST_BYTES, PostingImport, Row
from thesaurus_desk.importing.row_trial import NoTrial
from thesaurus_desk.importing.skos_reports import Findings, by_rules, report_table
from thesaurus_desk.importing.tables import (
    TableRun,
    plain,
    read_sent_table,
    refused_rows,
    table_error_in_words,
    table_of,
)
from thesaurus_desk.importing.vocabularies import (
    ENDS,
    SkosError,
    SkosOptions,
    SkosRun,
    convert_skos,
    perform_script,
    read_skos,
    update_of,
    vocabulary_of,
)
from thesaurus_desk.journal.entries import Batch
from thesaurus_desk.store.copies import StoreBusy
from thesaurus_desk.store.undo_run import TAKE_BACK, rest_of_undo
from thesaurus_desk.web.context import (
    go,
    may_act,
    person,
    say,
    tags,
    tell_place,
    the_desk,
    the_fields,
    the_replica,
    the_rights,
    words,
)
from thesaurus_desk.web.forms import FormState, Problem
from thesaurus_desk.web.journal_text import LINKS, PageLinks, tell_outcome
from thesaurus_desk.web.paths import concept_path, path_to
from thesaurus_desk.web.refusals import explain
from thesaurus_desk.web.request_text import sentence_of
from thesaurus_desk.web.spreadsheets import sheet_of_rows
from thesaurus_desk.web.table_columns import chosen_columns
from thesaurus_desk.web.table_pages import (
    SHOWN,
    keep,
    leave_out,
    lines_left,
    show_performance,
    show_preview,
    table_page,
    the_reader,
    the_uploads,
)
from thesaurus_desk.web.undo_pages import show_undo
from thesaurus_tools.fields import table_fields
from thesaurus_tools.files import TableError
from thesaurus_tools.headings import ColumnsError
from thesaurus_tools.table_plans import KINDS, NewConceptsError, TableOptions

pages = Blueprint("imports", __name__)
# A form with a file: the file, and some room for the rest.
LARGEST = MOST_BYTES + (1 << 16)
# The encodings of CSV that a form may name, beside those that a file shows itself.
ENCODINGS = ("cp1252",)
# The fields of a form that are sent again with its typed rows.
KEPT_FIELDS = ("kind", "tag", "scheme", "columns", "forget", "cells")
# What the cells of a table say, as a form names it: by default the file says it by its marks.
EXACT = {"": None, "exact": True, "add": False}


@pages.app_errorhandler(NoTrial)
def not_tried(error: NoTrial) -> Any:
    """Returns the forms with why the program can't say now what rows would do."""
    return refusal_answer("table", say(f"refusals.{error.fault}.text"), "")


def has_two() -> bool:
    """Whether a form has a file and typed rows: nobody knows which of them is meant."""
    sent = request.files.get("file")
    return bool(sent and sent.filename and request.form.get("typed", "").strip())


def file_of_form() -> tuple[str, bytes]:
    """Returns the name and the bytes of the file that a form has, or of the text typed in its place."""
    sent = request.files.get("file")
    if sent and sent.filename:
        return sent.filename[:200], sent.read()
    return say("bring_in.typed"), request.form.get("typed", "").replace("\r\n", "\n").encode()


@pages.get("/bring-in")
@role("indexer")
def bring_in() -> Any:
    """Shows what can be brought in."""
    return start_page(FormState(), 200)


def start_page(state: FormState, status: int) -> Any:
    """Returns the page with the forms for files."""
    schemes = [(it, LINKS.term(it)) for it in the_replica().ordered(the_replica().numbers("scheme"), tags())]
    kinds = [("", say("bring_in.kind.guess"))] + [(it, say(f"bring_in.kind.{it}")) for it in KINDS]
    encodings = [("", say("bring_in.encoding_guess")), (ENCODINGS[0], say("bring_in.encoding_windows"))]
    most = MOST_BYTES >> 20
    page = render_template(
        "bring_in/start.html",
        state=state,
        runs=the_desk().runs.of(person().name),
        schemes=schemes,
        kinds=kinds,
        encodings=encodings,
        meanings=[(it, say(f"bring_in.cells_say.{it or 'guess'}")) for it in EXACT],
        most=most,
        skos_ends=",".join(ENDS),
        onto=[("", say("bring_in.onto_new"))] + [(it, say("bring_in.onto_scheme", term=term)) for it, term in schemes],
    )
    return page, status


def refusal_answer(form: str, text: str, field: str | None = None) -> Any:
    """Returns the forms with what is wrong with a file, or with the text typed in its place."""
    if field is None:
        sent = request.files.get("file")
        is_typed = not (sent and sent.filename) and request.form.get("typed", "").strip()
        field = "typed" if is_typed else "file"
    return start_page(FormState(form, request.form, [Problem(field, text)]), 409)


# --- posting files ---


@pages.post("/bring-in/postings")
@role("indexer", LARGEST)
def bring_postings() -> Any:
    """Imports a posting file, and shows what came of its rows."""
    if has_two():
        return refusal_answer("postings", say("bring_in.two"), "typed")
    name, data = file_of_form()
    data = data.removeprefix(b"\xef\xbb\xbf")
    heading = data.partition(b"\n")[0].strip().replace(b'"', b"")
    if heading != b"key,record,concept":
        return refusal_answer("postings", say("bring_in.heading"))
    brought = the_desk().bring_in(person().name, data, name)
    if brought.state in ("lost", "unknown"):
        return refusal_answer("postings", say(f"bring_in.state.{brought.state}"))
    if brought.state == "refused" or brought.answer and not brought.rows:
        return refusal_answer(
            "postings", explain(brought.answer or {}, {"do": "import"}, the_replica(), words(), LINKS)
        )
    brought.name = name
    return redirect(path_to("imports.result", name=keep(brought)), 303)


def postings_page(brought: PostingImport, kept: str) -> Any:
    """Returns what came of a posting file."""
    failed = kept if brought.failed else ""
    rows = [(it, why_refused(it)) for it in brought.failed[:SHOWN]]
    return render_template("bring_in/postings.html", brought=brought, rows=rows, failed=failed, name=brought.name)


def why_refused(row: Row) -> Any:
    """Returns why a row of a posting file was refused."""
    key, record, concept = (*row.cells, "", "", "")[:3]
    number = int(concept) if concept.isascii() and concept.isdigit() and len(concept) < 11 else 0
    asked = {"do": "post", "key": key, "record": record, "concept": number}
    answer = {"bad" if row.outcome.startswith("Bad") else "no": row.outcome}
    return explain(answer, asked, the_replica(), words(), LINKS)


@pages.get("/bring-in/failed/<name>.csv")
@role("indexer")
def failed_rows(name: str) -> Response:
    """Returns the rows that were refused as a table again, with a column of reasons."""
    uploads, user = the_uploads(), person().name
    what = uploads.find(user, name, PostingImport) or uploads.find(user, name, TableRun)
    if what is None:
        abort(404)
    if isinstance(what, PostingImport):
        rows = [("key", "record", "concept", "reason"), *((*it.cells, plain(why_refused(it))) for it in what.failed)]
        return sheet_of_rows("refused", rows)
    return sheet_of_rows("refused", map(tuple, refused_rows(what)))


# --- tables ---


@pages.post("/bring-in/table")
@role("editor", LARGEST)
def preview_table() -> Any:
    """Shows row by row what a table would do."""
    if has_two():
        return refusal_answer("table", say("bring_in.two"), "typed")
    name, data = file_of_form()
    if not the_replica().numbers("scheme"):
        return refusal_answer("table", say("bring_in.no_scheme"))
    scheme = request.form.get("scheme", "")
    kind = request.form.get("kind", "")
    options = TableOptions(
        KINDS[kind][0] if kind in KINDS else "",
        request.form.get("tag", "").strip().lower(),
        int(scheme) if scheme.isascii() and scheme.isdigit() and len(scheme) < 11 else None,
        forget="forget" in request.form,
        exact=EXACT.get(request.form.get("cells", "")),
    )
    encoding = request.form.get("encoding", "")
    try:
        run = read_sent_table(
            name,
            data,
            request.form.get("columns", ""),
            options,
            # (rows are about concepts: a column Title is none of a thesaurus's title)
            {it: field for it, field in table_fields(the_fields()).items() if "concept" in field.owners},
            encoding if encoding in ENCODINGS else "",
        )
        run.asked = {it: request.form[it] for it in KEPT_FIELDS if it in request.form}
        run.typed = "" if (sent := request.files.get("file")) and sent.filename else request.form.get("typed", "")
        return show_preview(run)
    except ColumnsError as error:
        key = "columns_wrong" if error.roles else "columns_unknown"
        return refusal_answer("table", say(f"bring_in.{key}", roles=error.roles, names=error.names), "columns")
    except TableError as error:
        return refusal_answer("table", table_error_in_words(error, name, words()))
    except NewConceptsError:
        return refusal_answer("table", say("bring_in.new_concepts"), "tag")


@pages.post("/bring-in/table/columns")
@role("editor")
def choose_columns() -> Any:
    """Shows what a table would do if its columns held what its reader has chosen."""
    run = the_uploads().find(person().name, request.form.get("name", ""), TableRun)
    if run is None or run.is_done:
        return refusal_answer("table", say("bring_in.not_kept"), "")
    run = replace(run, columns=chosen_columns(run.columns, request.form), plans=[])
    try:
        return show_preview(run)
    except NewConceptsError:
        return refusal_answer("table", say("bring_in.new_concepts"), "tag")


@pages.post("/bring-in/table/perform")
@role("editor")
def perform_table() -> Any:
    """Performs a table that was looked at, once: each row is done whole or not at all. Leads to what came of it. Or
    shows another part of a long table, with the ticks."""
    name = request.form.get("name", "")
    if "go" in request.form and (shown := the_uploads().find(person().name, name, TableRun)):
        return table_page(shown, name, 200, lines_left(shown))
    if the_desk().threads.is_full:
        raise NoTrial("Busy")
    run = the_uploads().take(person().name, name, TableRun)
    if run is None:
        return refusal_answer("table", say("bring_in.not_kept"), "")
    leave_out(run, lines_left(run))
    return show_performance(run)


@pages.get("/bring-in/result/<name>")
@role("indexer")
def result(name: str) -> Any:
    """Shows what came of a file."""
    run = the_uploads().find(person().name, name, TableRun)
    brought = the_uploads().find(person().name, name, PostingImport)
    if brought is not None:
        return postings_page(brought, name)
    return table_page(run, name, 200) if run is not None else go(path_to("changes.changes"))


# --- SKOS ---


@pages.post("/bring-in/skos")
@role("editor", LARGEST, act="import")
def preview_skos() -> Any:
    """Converts a vocabulary, tries it on a copy of the store, and shows what is lost."""
    name, data = file_of_form()
    if "values" in request.form:
        return preview_export_rows(name, data)
    options = SkosOptions(
        lang=request.form.get("tag", "").strip().lower(),
        scheme=request.form.get("title", "").strip(),
        has_old_addresses="addresses" in request.form,
        adopts="adopt" in request.form,
        trims="trim" in request.form,
        qualifies="qualify" in request.form,
        keeps_second="second" in request.form,
    )
    onto = request.form.get("onto", "")
    scheme = int(onto) if onto.isascii() and onto.isdigit() and len(onto) < 11 else 0
    if scheme and the_replica().kind(scheme) != "scheme":
        abort(404)
    try:
        if scheme:
            return preview_update(name, data, options, scheme)
        run = read_skos(the_desk(), name, data, options)
    except StoreBusy:
        return refusal_answer("skos", say("refusals.Busy.text"), "")
    except SkosError as error:
        return refused_skos(error)
    run.refused = refused_sentences(run)
    return skos_page(run, 200)


def refused_skos(error: SkosError) -> Any:
    """Returns the forms with why a file isn't read as a vocabulary."""
    where = f" {tell_place(error.place)}" if error.place.line else ""
    # (what the converter says is in English, as the errors of parsers are)
    said = Markup(' <span lang="en" dir="ltr">{}</span>').format(error.said) if error.said else ""
    found = [line for it in by_rules(error.report, the_reader()) for line in it.lines]
    lines = Markup("").join(Markup("<br>{}").format(it) for it in found)
    text = say(f"bring_in.skos_error.{error.key}", **error.values)
    return refusal_answer("skos", Markup("{}{}{}{}").format(text, where, said, lines))


def preview_export_rows(name: str, data: bytes) -> Any:
    """Shows which values of fields an export of this thesaurus has that are lacking, as a table."""
    try:
        run = read_export_rows(name, data, the_replica().base, the_fields())
    except SkosError as error:
        return refused_skos(error)
    return show_preview(run)


def preview_update(name: str, data: bytes, options: SkosOptions, scheme: int) -> Any:
    """Shows row by row how a vocabulary would bring a thesaurus up to date. Raises SkosError."""
    tag, term = the_replica().term(scheme, tags())
    options = replace(options, lang=options.lang or tag, scheme=options.scheme or term, has_old_addresses=False)
    run = update_of(convert_skos(the_desk(), name, data, options), scheme, "gone" in request.form)
    return show_preview(run)


def skos_page(run: SkosRun, status: int) -> Any:
    """Returns the preview of a vocabulary; it says if the same file was brought in before."""
    before, outside = the_desk().batches.same(run.digest), sum(it["do"] == "outside" for it in run.requests)
    page = render_template(
        "bring_in/skos.html",
        run=run,
        report=by_rules(run.report, the_reader()),
        name=keep(run),
        before=before,
        outside=outside,
        room=the_desk().room(),
    )
    return page, status


@pages.get("/bring-in/skos/report/<name>.csv")
@role("editor", act="import")
def skos_report(name: str) -> Response:
    """Returns all that is left out of a vocabulary as a table."""
    uploads, user = the_uploads(), person().name
    run = uploads.find(user, name, SkosRun) or uploads.find(user, name, TableRun)
    if run is None:
        abort(404)
    headers = {"Content-Disposition": 'attachment; filename="left-out.csv"'}
    table = report_table(run.report, the_reader())
    return Response(table, content_type="text/csv; charset=utf-8", headers=headers)


def refused_sentences(run: SkosRun) -> list[Findings]:
    """Returns what a copy of the store refused, with a sentence in place of each line of the script."""
    links = PageLinks({f"${it['as']}": it.get("text") or it["iri"] for it in run.requests if "as" in it})

    def sentence(line: str) -> str:
        number = line.partition(":")[0]
        if not (number.isdecimal() and 1 <= int(number) <= len(run.requests)):
            return line
        return sentence_of(run.requests[int(number) - 1], None, the_replica(), words(), links)

    return [Findings(it.rule, [sentence(line) for line in it.lines], it.more) for it in run.refused]


@pages.post("/bring-in/skos/perform")
@role("editor", act="import")
def perform_skos() -> Any:
    """Brings in a vocabulary that was looked at, once."""
    run = the_uploads().take(person().name, request.form.get("name", ""), SkosRun)
    if run is None:
        return refusal_answer("skos", say("bring_in.not_kept"), "")
    if the_desk().batches.same(run.digest) and "again" not in request.form:
        return skos_page(run, 409)
    return bring_vocabulary(run)


def bring_vocabulary(run: SkosRun) -> Any:
    """Brings in a vocabulary, or the rest of one, and leads to its scheme; or shows that it was cut by a refusal."""
    if why := the_rights().refusal(run.requests, person().role):
        return refusal_answer("skos", say(why), "")
    outcome = perform_script(the_desk(), person().name, run)
    if outcome.is_done:
        return go(concept_path(run.scheme) if run.scheme else "/", run.batch.plan if run.batch else outcome.plan)
    run.is_cut = True
    report = by_rules(run.report, the_reader())
    return render_template("bring_in/skos.html", run=run, report=report, name="", outcome=outcome, before=None), 409


# --- files that were cut short ---


@pages.post("/bring-in/go-on/<int:plan>")
@role("editor")
def go_on(plan: int) -> Any:
    """Brings in the rest of a vocabulary that was cut short, or takes back the rest of what was to be taken back; of a
    table, shows first what is left to be done."""
    batches = the_desk().batches
    batch = next((it for it in batches.cut() if it.plan == plan), None)
    rest = batches.rest(batch) if batch else None
    if batch is None or rest is None:
        return refusal_answer("table", say("bring_in.no_rest"), "")
    if batch.action != "table" and not may_act("import"):
        abort(403)
    if batch.action == TAKE_BACK:
        return go_on_taking_back(batch, rest)
    if batch.action != "table":
        return bring_vocabulary(vocabulary_of(rest, batch))
    run = table_of(rest, batch)
    leave_out(run, batches.rows_done(batch))
    return show_preview(run)


def go_on_taking_back(batch: Batch, kept: Any) -> Any:
    """Takes the rest of a long change back, and leads to the changes; or shows why that isn't done."""
    run = rest_of_undo(the_desk(), person().name, batch, kept)
    return show_undo(run, path_to("changes.changes"), lambda it: refusal_answer("table", tell_outcome(it), ""))
