"""Makes the application: its pages, what templates may use, and the pages of errors."""
from __future__ import annotations

import logging
import sqlite3
from importlib import import_module
from typing import Any

from flask import Flask, current_app, g, request
from werkzeug.exceptions import HTTPException

from thesaurus_desk.auth.authentication import Entry
from thesaurus_desk.auth.passwords import TooManyHashes
from thesaurus_desk.auth.request_checks import install_checks, refusal, send_again
from thesaurus_desk.auth.roles import role_named
from thesaurus_desk.auth.route_roles import READING, DeskApp
from thesaurus_desk.clock import distance_now, time_element
from thesaurus_desk.importing.uploads import Uploads
from thesaurus_desk.interfaces import Changes, Source, interfaces_of
from thesaurus_desk.interfaces.whole_thesaurus import WholeAnswers
from thesaurus_desk.journal.rights import ACTS
from thesaurus_desk.journal.schema import FileReplaced
from thesaurus_desk.mapping.loads import Loads
from thesaurus_desk.settings import Settings
from thesaurus_desk.store.health import Health
from thesaurus_desk.store.plan_execution import Desk
from thesaurus_desk.store.program import NoAnswer
from thesaurus_desk.store.saved_files import SavedFiles
from thesaurus_desk.web.context import (
    acts_on,
    begin_transaction,
    end_transaction,
    field_words,
    label_link,
    link,
    may_act,
    page_number,
    person,
    record_name,
    record_title,
    say,
    status_mark,
    tags,
    term,
    the_desk,
    the_replica,
    the_settings,
    visitor_may_propose,
    watched_kinds,
)
from thesaurus_desk.web.form_keys import install_once, token_field
from thesaurus_desk.web.help_topics import topic_of
from thesaurus_desk.web.notices import notice_of_plan
from thesaurus_desk.web.open_records import OpenRecords
from thesaurus_desk.web.page_context import PageContext
from thesaurus_desk.web.paths import concept_path, install_paths, path_to
from thesaurus_desk.web.posting_keys import posting_name
from thesaurus_desk.web.static_files import install_static_files
from thesaurus_desk.words import LANGUAGES
from thesaurus_desk.words.languages import install_languages, language_name

# The modules with pages: each has a blueprint `pages`.
PAGES = (
    *("home", "search", "tree", "lists", "print_displays", "account", "users", "rights", "for_me", "visitors"),
    *("concept", "edit", "values", "work", "own_fields", "create", "arrays", "move", "merge", "split"),
    *("records", "reindex", "indexing", "queue", "list_tables", "mapping"),
    *("changes", "past", "releases", "downloads", "proposals", "imports", "runs"),
    *("replacement", "bulk_changes", "state"),
    *("about", "help", "api"),
)
# The pages in the navigation: route, key of its words, the lowest role that sees it, or the act that it is for.
NAVIGATION = (
    ("tree.tree", "shell.tree", "visitor"),
    ("search.az", "shell.az", "visitor"),
    ("tree.collections", "shell.collections", "visitor"),
    ("releases.releases", "shell.releases", "visitor"),
    ("downloads.start", "files.title", "visitor"),
    ("records.record", "shell.records", "reader"),
    ("indexing.open_record", "shell.index", "indexer"),
    ("lists.lists", "shell.lists", "reader"),
    ("imports.bring_in", "shell.bring_in", "indexer"),
    ("mapping.mapping", "shell.mapping", "editor"),
    ("proposals.proposals", "shell.proposals", "reader"),
    ("for_me.for_me", "shell.for_me", "reader"),
    ("changes.changes", "shell.changes", "reader"),
    ("create.new_concept", "shell.new", "editor"),
    ("own_fields.fields", "shell.fields", "fields"),
    ("users.users", "shell.users", "head"),
    ("rights.rights", "shell.rights", "head"),
    ("lists.quality", "shell.quality", "head"),
    ("state.state", "shell.state", "head"),
)
# The blueprints whose answers are for programs.
FOR_PROGRAMS = ("interfaces", "api")
KNOWN_ERRORS = (400, 403, 404, 405, 413, 415, 429)
LOG = logging.getLogger("thesaurus_desk")


def create_app(desk: Desk, entry: Entry, settings: Settings, health: Health | None = None) -> Flask:
    """Returns the application over a desk; only the office knows its health. Raises ValueError for a route that changes
    something and has no role."""
    app = DeskApp("thesaurus_desk.web")
    entry.keep_in(desk.journal)
    app.extensions.update(
        desk=desk, entry=entry, settings=settings, uploads=Uploads(desk.journal), openings=OpenRecords()
    )
    app.extensions["health"] = health
    app.extensions.update(loads=Loads(desk.db, desk.decisions))
    app.jinja_env.trim_blocks = app.jinja_env.lstrip_blocks = True
    app.jinja_env.context_class = PageContext
    app.json.ensure_ascii = False  # type: ignore[attr-defined]
    install_checks(app)
    install_transactions(app)
    install_once(app)
    install_languages(app)
    install_words(app)
    install_static_files(app)
    install_errors(app)
    for name in PAGES:
        app.register_blueprint(import_module(f"thesaurus_desk.web.pages.{name}").pages)
    source = source_of(desk, settings)
    app.extensions.update(source=source, releases=WholeAnswers(source), files=SavedFiles(desk, source))
    app.register_blueprint(interfaces_of(source))
    install_paths(app)
    return app


def install_transactions(app: Flask) -> None:
    """Has each page see one moment of the store, visitors and other programs as the public sees it; a plan that it
    performs begins another one."""

    @app.before_request
    def begin() -> None:
        begin_transaction(not person().name or request.blueprint in FOR_PROGRAMS)

    @app.teardown_request
    def end(error: BaseException | None) -> None:
        end_transaction()


def source_of(desk: Desk, settings: Settings) -> Source:
    """Returns what the interfaces for other programs read of a desk."""

    def dates(number: int) -> tuple[str | None, str | None]:
        found, before = desk.history.dates(number), desk.values.stated_dates(number).get(number, {})
        return before.get("created", found.created), before.get("modified", found.modified)

    return Source(
        desk.public_view,
        dates,
        Changes(desk.history.changed_since, desk.history.changed_after, desk.history.last_settled),
        desk.values.public,
        lambda: desk.arrays.now(desk.public_view()),
        desk.releases.edition,
        desk.values.public_fields,
        page=concept_path,
        title=settings.title,
    )


def install_words(app: Flask) -> None:
    """Gives templates what they may use."""
    app.jinja_env.globals.update(
        _=say, term=term, link=link, time=time_element, language_name=language_name, notice_of_plan=notice_of_plan
    )
    app.jinja_env.globals.update(token_field=token_field, posting_name=posting_name, distance_now=distance_now)
    app.jinja_env.globals.update(field_words=field_words, label_link=label_link, status_mark=status_mark)
    app.jinja_env.globals.update(term_languages=tags, may_act=may_act, acts_on=acts_on, watched_kinds=watched_kinds)
    app.jinja_env.globals.update(visitor_may_propose=visitor_may_propose)
    app.jinja_env.globals.update(record_name=record_name, record_title=record_title)

    @app.context_processor
    def context() -> dict[str, Any]:
        hidden = "" if app.extensions["entry"].accounts else "users.users"
        seen = [(path_to(page), key) for page, key, low in NAVIGATION if page != hidden and may_see(low)]
        return {
            "_": g.words,
            "person": person(),
            "site": site_name(),
            "tags": tags(),
            "navigation": seen,
            "unread": the_desk().proposals.count_unread(person().name) if person().name else 0,
            "pages_language": g.words.language,
            "pages_languages": LANGUAGES,
            "desk": the_desk(),
            "entry_kind": app.extensions["entry"].kind,
            "page": page_number(),
            "settings": the_settings(),
            "here": path_of_page(),
            "help_topic": topic_of(request.endpoint or ""),
        }


def path_of_page() -> str:
    """Returns the path of the page that is shown; of a form that is shown again, that of the page above it."""
    if request.method == "GET":
        return request.full_path.rstrip("?")
    # (an address that nothing has may be long, and anyone may send it)
    if request.url_rule is None:
        return "/"
    path, routes = request.path, current_app.create_url_adapter(request)
    while routes and path and not routes.test(path, "GET"):
        path = path.rpartition("/")[0]
    return path or "/"


def may_see(lowest: str) -> bool:
    """Whether the reader sees a page in the navigation."""
    if lowest in ACTS:
        return may_act(lowest)
    return person().role >= role_named(lowest) and (person().name != "" or the_settings().is_public)


def site_name() -> str:
    """Returns the name on top of each page: the one given, or the names of the schemes."""
    if the_settings().title:
        return the_settings().title
    if not person().name and not the_settings().is_public:
        return say("shell.site")
    return " · ".join(term(it) for it in the_replica().numbers("scheme")[:3]) or say("shell.site")


def install_errors(app: Flask) -> None:
    """Has each error shown as a page, or as JSON to a program."""

    @app.errorhandler(HTTPException)
    def known(error: HTTPException) -> Any:
        code = error.code if error.code in KNOWN_ERRORS else 400
        answer = app.make_response(failure(str(code), error.code or 500))
        for name, value in error.get_headers():
            if name in ("Allow", "Retry-After"):
                answer.headers[name] = value
        return answer

    @app.errorhandler(NoAnswer)
    def no_answer(error: NoAnswer) -> Any:
        LOG.warning("the program doesn't answer: %s", error)
        answer = app.make_response(failure("503", 503))
        answer.headers["Retry-After"] = "5"
        return answer

    @app.errorhandler(sqlite3.Error)
    def no_journal(error: sqlite3.Error) -> Any:
        LOG.error("%s: the journal can't be written: %s", the_desk().journal.path, error)
        if request.method in READING:
            return failure("500", 500)
        return send_again("replaced" if isinstance(error, FileReplaced) else "journal", 503)

    @app.errorhandler(TooManyHashes)
    def gate_full(error: TooManyHashes) -> Any:
        answer = app.make_response(failure("429", 429))
        answer.headers["Retry-After"] = "1"
        return answer

    @app.errorhandler(Exception)
    def unknown(error: Exception) -> Any:
        LOG.error("%s %s", request.method, request.path, exc_info=error)
        return failure("500", 500)


def failure(key: str, status: int) -> Any:
    """Returns what is shown for an error."""
    if request.blueprint in FOR_PROGRAMS:
        return {"error": say(f"errors.{key}.title")}, status
    try:
        return refusal(key, status)
    except Exception:  # what failed may be what each page needs
        LOG.exception("the page of an error failed")
        text = f"{say(f'errors.{key}.title')}\n"
        return app_text(text, status)


def app_text(text: str, status: int) -> Any:
    """Returns a plain text."""
    return text, status, {"Content-Type": "text/plain; charset=utf-8"}
