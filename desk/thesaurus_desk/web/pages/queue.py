"""The records that are to be indexed: brought in from a file, and opened one after another."""
from __future__ import annotations

from typing import Any

from flask import Blueprint, redirect, render_template, request
from werkzeug.wrappers import Response

from thesaurus_desk.auth.route_roles import role
from thesaurus_desk.importing.posting_files import MOST_BYTES
from thesaurus_desk.importing.record_files import read_record_file
from thesaurus_desk.importing.tables import table_error_in_words
from thesaurus_desk.journal.queue import KEY, IndexingSettings, read_indexing, write_indexing
from thesaurus_desk.journal.record_texts import ADDRESS, RecordText
from thesaurus_desk.store.suggestion_quality import measure
from thesaurus_desk.web.concept_choice import is_number
from thesaurus_desk.web.context import person, say, the_desk, the_replica, words
from thesaurus_desk.web.form_submission import problem_in
from thesaurus_desk.web.forms import FormState
from thesaurus_desk.web.open_records import the_open_records
from thesaurus_desk.web.pages.edit import form_text
from thesaurus_desk.web.paths import path_to
from thesaurus_desk.web.record_forms import page_to_index
from thesaurus_tools.command_line import ToolError
from thesaurus_tools.files import TableError

pages = Blueprint("queue", __name__)

# How many records of each state the page lists.
MOST_SHOWN = 50
LARGEST = MOST_BYTES + (1 << 16)


def queue_page(state: FormState, status: int) -> Any:
    """Returns the page of the queue."""
    queue = the_desk().queue
    page = render_template(
        "record/queue.html",
        state=state,
        counts=queue.counts(),
        waiting=queue.in_state("waiting", MOST_SHOWN),
        skipped=queue.in_state("skipped", MOST_SHOWN),
        indexing=read_indexing(the_desk().journal),
        page_to_index=page_to_index,
        most=MOST_BYTES >> 20,
        key=KEY,
        brought=import_counts(),
    )
    return page, status


def import_counts() -> dict[str, int] | None:
    """Returns how many records a file had that was brought in just now, if the address says so."""
    found = {it: request.args.get(it, "") for it in ("read", "new", "left")}
    return {it: int(text) for it, text in found.items()} if all(map(is_number, found.values())) else None


@pages.post("/index/next")
@role("indexer")
def open_next() -> Response:
    """Opens the next record that nobody else has open."""
    return redirect(path_of_next(), 303)


def path_of_next() -> str:
    """Returns the path of the next record of the queue that nobody else has open; that of the queue if there is
    none."""
    opened = the_open_records().of_others(person().name)
    # (more than others may open in the meantime)
    waiting = the_desk().queue.in_state("waiting", MOST_SHOWN, opened)
    found = the_open_records().take(waiting, person().name)
    return page_to_index(found) if found else path_to("indexing.open_record")


@pages.get("/index/quality")
@role("indexer")
def show_quality() -> Any:
    """Shows how good suggestions are for records that are indexed."""
    found = measure(the_desk().suggester)
    shares = {name: round(100 * getattr(found, name)) for name in ("suggested", "commonest")}
    return render_template("record/quality.html", n=found.records, **shares)


@pages.post("/index/records")
@role("indexer", LARGEST)
def bring_records() -> Any:
    """Brings a file of records into the queue, and what it says of them."""
    sent = request.files.get("file")
    if sent is None or not sent.filename:
        return queue_page(problem_in("records", "file", say("indexing.no_file")), 409)
    name = sent.filename[:200]
    try:
        texts, left = read_record_file(name, sent.read(), form_text("encoding", ("", "cp1252")))
    except TableError as error:
        return queue_page(problem_in("records", "file", table_error_in_words(error, name, words())), 409)
    except ToolError as error:
        return queue_page(problem_in("records", "file", str(error)), 409)
    new = keep(texts)
    return redirect(f"{path_to('indexing.open_record')}?read={len(texts)}&new={new}&left={left}", 303)


def keep(texts: list[RecordText]) -> int:
    """Keeps what is known of records, and puts them into the queue; returns how many weren't in it."""
    names = [it.record for it in texts]
    done = the_replica().postings.indexed_of(names)
    the_desk().record_texts.keep(texts)
    return the_desk().queue.add(person().name, names, done)


@pages.post("/index/settings")
@role("head")
def settle_indexing() -> Any:
    """Settles where a record is in the catalogue, and which service suggests concepts."""
    catalogue, annif = form_text("catalogue"), form_text("annif")
    if catalogue and (not ADDRESS.fullmatch(catalogue) or KEY not in catalogue):
        return queue_page(problem_in("settings", "catalogue", say("indexing.wrong_template", key=KEY)), 409)
    if annif and not ADDRESS.fullmatch(annif):
        return queue_page(problem_in("settings", "annif", say("indexing.wrong_service")), 409)
    write_indexing(the_desk().journal, IndexingSettings(catalogue, annif))
    return redirect(f"{path_to('indexing.open_record')}#settings", 303)
