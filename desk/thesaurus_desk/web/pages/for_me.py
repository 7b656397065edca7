"""What has happened to what the reader watches, and feeds of it and of everything public."""
from __future__ import annotations

from collections import Counter
from dataclasses import dataclass
from datetime import UTC, datetime, timedelta
from typing import Any

from flask import Blueprint, abort, g, redirect, render_template, request
from markupsafe import Markup

from thesaurus_desk.auth.route_roles import public, role
from thesaurus_desk.journal.schema import now, time_text
from thesaurus_desk.journal.watches import KINDS, News, Watch, Watcher
from thesaurus_desk.web.context import go, own_path, person, say, the_desk, the_entry, the_replica, words
from thesaurus_desk.web.journal_text import tell_plans
from thesaurus_desk.web.pages.edit import form_text, given_number
from thesaurus_desk.web.paths import concept_path, path_to
from thesaurus_desk.words import Words
from thesaurus_tools.xml_texts import closing_comment, xml_characters

pages = Blueprint("for_me", __name__)
# How far back feeds go, and how many entries they have.
FEED_SINCE, MOST_ENTRIES = timedelta(days=30), 100


@dataclass(frozen=True)
class Entry:
    """An entry of a feed: its path at the desk, when it was, its title, and what is said of it, as HTML."""

    path: str
    at: str
    title: str
    text: Markup = Markup()


@pages.get("/for-me")
@role("reader")
def for_me() -> Any:
    """Shows what others have done since the reader has looked, and what the reader watches."""
    watches, user = the_desk().watches, person().name
    watcher, at = watches.watcher(user), now()
    news = watches.news(user, watcher.seen, the_replica(), at) if watcher else None
    return render_template(
        "for_me.html",
        watcher=watcher,
        news=news,
        changes=[(it, tell_plans(plans)) for it, plans in news.changes.items()] if news else [],
        watched=watches.of(user),
        feed=feed_address(watcher) if watcher else "",
        at=at,
    )


def feed_address(watcher: Watcher) -> str:
    """Returns the secret address of someone's feed."""
    return f"{request.url_root}feed/{watcher.secret}.xml"


@pages.post("/watch")
@role("reader")
def watch() -> Any:
    """Has the reader watch something, or no more."""
    watches, user = the_desk().watches, person().name
    chosen = Watch(form_text("kind", KINDS), given_number("number"))
    there = the_desk().proposals.get(chosen.number) if chosen.kind == "proposal" else the_replica().get(chosen.number)
    if there is None:
        abort(404)
    if form_text("do", ("watch", "leave")) == "watch":
        watches.watch(user, chosen, words().language)
    else:
        watches.leave(user, chosen)
    return redirect(own_path(request.form.get("next")), 303)


@pages.post("/for-me/read")
@role("reader")
def note_read() -> Any:
    """Notes until when the reader has read what has happened: until the page was made."""
    watches = the_desk().watches
    watcher, at = watches.watcher(person().name), form_text("at")
    if watcher is not None and watcher.seen < at <= now():
        watches.note_seen(watcher.user, at)
    return go(path_to("for_me.for_me"))


@pages.post("/for-me/address")
@role("reader")
def renew_address() -> Any:
    """Gives the reader's feed another address."""
    watches = the_desk().watches
    if watcher := watches.watcher(person().name):
        watches.renew_secret(watcher.user)
    return go(path_to("for_me.for_me"))


# --- feeds ---


@pages.get("/feed.xml")
@public
def public_feed() -> Any:
    """Returns what has changed of what everybody sees."""
    since = time_text(datetime.now(UTC) - FEED_SINCE)
    replica = the_desk().public_view()
    shown = [(it, at) for it, at in the_desk().history.changed_since(since) if replica.get(it)][:MOST_ENTRIES]
    return feed([Entry(concept_path(it), at, replica.term(it, [words().language])[1]) for it, at in shown], "feed.xml")


@pages.get("/feed/<secret>.xml")
@role("visitor")
def own_feed(secret: str) -> Any:
    """Returns what has happened to what someone watches, to who knows the address."""
    watcher, accounts = the_desk().watches.by_secret(secret), the_entry().accounts
    if watcher is None or accounts is not None and accounts.find(watcher.user) is None:
        abort(404)
    g.words = Words(watcher.language)
    since = time_text(datetime.now(UTC) - FEED_SINCE)
    news = the_desk().watches.news(watcher.user, since, the_desk().replica)
    return feed(entries_of(news)[:MOST_ENTRIES], f"feed/{secret}.xml")


def entries_of(news: News) -> list[Entry]:
    """Returns what has happened as entries, the last first."""
    store = the_desk().replica
    name = {it: store.term(it, [words().language])[1] for it in (*news.changes, *(it.number for it in news.comments))}
    found = [
        Entry(concept_path(it), plan.at, name[it], Markup("{}").format(plan.user))
        for it, plans in news.changes.items()
        for plan in plans
    ]
    found += [
        Entry(
            path_to("proposals.show_proposal", number=it.id),
            it.decided_at or "",
            f"{say('for_me.proposal', n=it.id)} {say(f'proposals.state.{it.state}')}",
        )
        for it in news.proposals
    ]
    found += [
        Entry(concept_path(it.number), it.at, name[it.number], Markup("{}: {}").format(it.user, it.text))
        for it in news.comments
    ]
    return sorted(found, key=lambda it: it.at, reverse=True)


def feed(entries: list[Entry], path: str) -> Any:
    """Returns a feed (Atom), which says at its end which characters it leaves out."""
    lost: Counter[str] = Counter()
    text = render_template("feed.xml", entries=entries, root=request.url_root.rstrip("/"), path=path, at=now())
    text = f"{xml_characters(text, lost)}\n{closing_comment(lost)}"
    return text, 200, {"Content-Type": "application/atom+xml; charset=utf-8"}
