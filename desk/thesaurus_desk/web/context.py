"""What a page sees of its request: the desk, the person, the words of the pages, and terms as text or as a link."""
from __future__ import annotations

import contextlib
import re
from collections.abc import Iterator
from typing import TYPE_CHECKING, cast
from urllib.parse import urlencode

from flask import current_app, g, has_request_context, redirect, request
from markupsafe import Markup, escape
from werkzeug.wrappers import Response

from thesaurus_desk.auth.authentication import Entry
from thesaurus_desk.auth.roles import VISITOR, Person
from thesaurus_desk.auth.sessions import Session
from thesaurus_desk.journal.past_replica import PastReplica
from thesaurus_desk.settings import Settings
from thesaurus_desk.store.model import best_of
from thesaurus_desk.web.paths import concept_path
from thesaurus_desk.words import Words
from thesaurus_desk.words.field_words import field_name
from thesaurus_tools.arrays import Places, node_label
from thesaurus_tools.fields import Field
from thesaurus_tools.parse_places import ParsePlace

if TYPE_CHECKING:
    from thesaurus_desk.journal.history import Ending
    from thesaurus_desk.journal.rights import Rights
    from thesaurus_desk.store.plan_execution import Desk
    from thesaurus_desk.store.replica import Replica

NOTHING = Markup()
# A path of this desk: neither //host nor /\host.
OWN_PATH = re.compile(r"/(?![/\\])[^\\\x00-\x20]*")


def the_desk() -> Desk:
    """Returns the desk: the program, the replica and the journal."""
    return cast("Desk", current_app.extensions["desk"])


def the_replica() -> Replica:
    """Returns the replica of the store: all of it, or what the public sees."""
    # (a page asks hundreds of times)
    if replica := g.get("replica"):
        return cast("Replica", replica)
    return the_desk().replica if person().name else the_desk().public_view()


def begin_transaction(is_public: bool) -> None:
    """Has the request see one moment of the store: as the public sees it, or all of it."""
    end_transaction()
    enter_transaction(the_desk().replica)
    if is_public and the_replica().hides:
        end_transaction()
        enter_transaction(the_desk().public)


def enter_transaction(replica: Replica) -> None:
    """Begins a moment of a replica."""
    g.replica, g.transaction = replica, replica.reading()
    g.transaction.__enter__()


def end_transaction() -> None:
    """Ends the moment of the request, if it has one."""
    g.pop("replica", None)
    if transaction := g.pop("transaction", None):
        transaction.__exit__(None, None, None)


def the_rights() -> Rights:
    """Returns what the head has settled of who may do what, for the reader; it is asked for once for a page."""
    if "rights" not in g:
        g.rights = the_desk().rights(person().name)
    return cast("Rights", g.rights)


def may_act(act: str) -> bool:
    """Whether the reader's role is one that does something of which the head settles who does."""
    return the_rights().may(person().role, act)


def acts_on(number: int) -> set[str]:
    """Returns which of merging, splitting and deprecating a concept the reader may do."""
    rights, postings = the_rights(), [0] if the_replica().has_records(number) else []
    asked: dict[str, dict[str, object]] = {
        "merge": {"source": number},
        "split": {"source": number, "postings": postings},
        "deprecate": {"concept": number},
    }

    def may(do: str) -> bool:
        requests = rights.completed([{"do": do, **asked[do]}], person().role)
        return person().role >= rights.lowest_role(requests)

    return set(filter(may, asked))


def visitor_may_propose() -> bool:
    """Whether the reader is a visitor who proposes something here."""
    return not person().name and the_settings().is_public and the_rights().visitors_propose


def watched_kinds(number: int) -> set[str]:
    """Returns as what the reader watches a number: a concept, a branch, a proposal."""
    return {it.kind for it in the_desk().watches.of(person().name) if it.number == number}


@contextlib.contextmanager
def shown_as(replica: Replica) -> Iterator[None]:
    """Has pages see what another replica has, as that of a day."""
    kept = the_replica()
    g.replica = replica
    g.pop("statuses", None)
    try:
        with replica.reading():
            yield
    finally:
        g.replica = kept
        g.pop("statuses", None)


def the_entry() -> Entry:
    """Returns the way in."""
    return cast(Entry, current_app.extensions["entry"])


def the_settings() -> Settings:
    """Returns what the desk was started with."""
    return cast(Settings, current_app.extensions["settings"])


def person() -> Person:
    """Returns who asks."""
    return cast(Person, g.get("person", VISITOR))


def session() -> Session | None:
    """Returns the session of the request."""
    return cast("Session | None", g.get("session"))


def words() -> Words:
    """Returns the words of the pages in the reader's language."""
    return cast(Words, g.get("words") or Words("en"))


def say(key: str, /, **values: object) -> str:
    """Returns the text of a key in the reader's language."""
    return words()(key, **values)


def tags() -> list[str]:
    """Returns the languages of terms, the reader's first."""
    return cast("list[str]", g.get("tags") or ["en"])


def term(number: int) -> str:
    """Returns the best term of a resource for the reader; its IRI or its number in brackets if it has none."""
    return the_replica().term(number, tags())[1]


def link(number: int) -> Markup:
    """Returns a link to the page of a resource, with its best term."""
    replica, langs = the_replica(), tags()
    tag, text = replica.term(number, langs)
    is_other = bool(tag) and tag != langs[0]
    lang = f' lang="{escape(tag)}"' if is_other else ""
    gone = "" if replica.is_live(number) else ' class="gone"'
    small = f" <small>{escape(tag)}</small>" if is_other else ""
    # (joined by hand: a page has many, and Markup.format takes long)
    return Markup(
        f'<a href="{concept_path(number)}"{lang}{gone} dir="auto">{escape(text)}</a>{small}{status_mark(number)}'
    )


def link_elsewhere(number: int, iri: str) -> Markup:
    """Returns a link to a concept elsewhere, by what it is called there, if that is known, and its IRI."""
    tag, text = the_replica().term(number, tags())
    return elsewhere_markup(iri, "" if text == iri else text, tag)


def elsewhere_markup(iri: str, text: str, tag: str, is_link: bool = True) -> Markup:
    """Returns an IRI, behind the name of the concept if it is known; as a link, if a browser can open it."""
    shown = Markup('<span dir="ltr">{}</span>').format(iri)
    if is_link and iri.startswith(("http://", "https://")):
        shown = Markup('<a href="{0}" rel="noopener noreferrer" dir="ltr">{0}</a>').format(iri)
    if not text:
        return shown
    lang = Markup(' lang="{}"').format(tag) if tag else Markup()
    return Markup('<span{} dir="auto">{}</span> <small>{}</small>').format(lang, text, shown)


def name_elsewhere(iri: str) -> Markup:
    """Returns the IRI of a concept elsewhere, which may be new, behind its name there, if that is known."""
    tag, text = best_of(the_desk().decisions.names(iri), tags()) or ("", "")
    return elsewhere_markup(iri, text, tag, is_link=False)


def record_title(record: str) -> str:
    """Returns the title of a record, as the catalogue has it; nothing if it isn't known, or to a visitor."""
    if not has_request_context() or not person().name:
        return ""
    known: dict[str, str] = g.setdefault("titles", {})
    if record not in known:
        known[record] = the_desk().record_texts.title(record)
    return known[record]


def record_name(record: str) -> Markup:
    """Returns what a page calls a record: its title with its key, or the key alone."""
    if not (title := record_title(record)):
        return escape(record)
    return Markup('<bdi>{}</bdi> <small dir="auto">{}</small>').format(title, record)


def status_words(number: int) -> str:
    """Returns the status of a concept that isn't approved, in the reader's words; nothing to a visitor."""
    if (statuses := g.get("statuses")) is None:
        statuses = g.statuses = the_replica().statuses() if person().name else {}
    status = cast("dict[int, str]", statuses).get(number)
    return say(f"status.{status}") if status else ""


def status_mark(number: int) -> Markup:
    """Returns what follows the term of a concept that isn't approved."""
    status = status_words(number)
    return Markup(f' <small class="status">{escape(status)}</small>') if status else NOTHING


def label_link(number: int) -> Markup:
    """Returns a link to the page of an array, with its name as a node label."""
    tag, text = the_replica().term(number, tags())
    return Markup('<a href="{}" lang="{}" dir="auto">{}</a>').format(concept_path(number), tag, node_label(text))


def the_places() -> Places[int]:
    """Returns where collections are in the hierarchy, as the reader sees it."""
    replica = the_replica()
    return replica.places if isinstance(replica, PastReplica) else the_desk().arrays.now(replica)


def the_fields() -> dict[str, Field]:
    """Returns the fields of values by their names; they are asked for once for a page."""
    if (fields := g.get("fields")) is None:
        fields = g.fields = the_desk().values.fields()
    return cast("dict[str, Field]", fields)


def field_words(name: str) -> str:
    """Returns the name of a field in the reader's language."""
    return field_name(the_fields().get(name) or Field(name), words())


def ending_of(number: int) -> Ending | None:
    """Returns how a concept ended, as far as the journal knows; it is asked once for a page."""
    known: dict[int, Ending | None] = g.setdefault("endings", {})
    if number not in known:
        known[number] = the_desk().history.ending(number)
    return known[number]


def returned_as(number: int) -> int | None:
    """Returns the live concept as which one has come back, when its end was taken back."""
    ending = ending_of(number)
    return the_replica().final(ending.returned) if ending and ending.returned else None


def own_path(path: str | None) -> str:
    """Returns a path if it leads to a page of this desk, and the first page's otherwise."""
    return path if path and OWN_PATH.fullmatch(path) else "/"


def go(path: str, done: int | None = None) -> Response:
    """Returns a redirection to a page after a change; it first says what the plan `done` did."""
    return redirect(path_that_tells(path, done), 303)


def path_that_tells(path: str, done: int | None) -> str:
    """Returns the address of a page that first says what a plan did."""
    if done is None:
        return path
    head, hash_mark, part = path.partition("#")
    # (a page may have said what an earlier plan did)
    before, _, query = head.partition("?")
    fields = [it for it in query.split("&") if it and not it.startswith("done=")]
    return f"{before}?{'&'.join([*fields, urlencode({'done': done})])}{hash_mark}{part}"


def tell_place(place: ParsePlace) -> str:
    """Returns where a parser has stopped in a file."""
    return say("parsers.column" if place.column else "parsers.line", line=place.line, column=place.column)


def page_number() -> int:
    """Returns the page that is asked for, from 0 on."""
    text = request.args.get("page", "0")
    return int(text) if re.fullmatch("[0-9]{1,7}", text) else 0
