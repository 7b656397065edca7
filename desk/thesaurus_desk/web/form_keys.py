"""A form that is sent twice acts once: each carries a key, and a second sending is led to where the first one led.

The journal keeps the forms that have changed something, each written with its first change. So a form that is sent
again after the desk was killed is known, too."""
from __future__ import annotations

import hashlib
import logging
import secrets
import sqlite3
import threading
from dataclasses import dataclass, field
from typing import Any, cast

from flask import Flask, Response, g, redirect, request
from markupsafe import Markup

from thesaurus_desk.auth.request_checks import form_token, send_again
from thesaurus_desk.auth.route_roles import READING
from thesaurus_desk.journal.schema import now, sent_form
from thesaurus_desk.web.context import person, the_desk
from thesaurus_desk.web.paths import path_to

# How many seconds a second sending waits for the first one.
PATIENCE = 10.0
# Where a sending is led, if the first one led nowhere: it may have been cut short.
OTHERWISE = "changes.changes"
log = logging.getLogger("desk")


@dataclass
class FormsUnderWay:
    """The forms that are being answered. Safe for several threads."""

    under_way: set[str] = field(default_factory=set)
    ended: threading.Condition = field(default_factory=threading.Condition)

    def begin(self, form: str) -> bool:
        """Begins with a form once no other sending of it is under way; returns False if that takes too long."""
        with self.ended:
            is_free = self.ended.wait_for(lambda: form not in self.under_way, PATIENCE)
            if is_free:
                self.under_way.add(form)
            return is_free

    def end(self, form: str) -> None:
        """Ends the sending of a form."""
        with self.ended:
            self.under_way.discard(form)
            self.ended.notify_all()


def install_once(app: Flask) -> None:
    """Has each form that was sent before led to what came of it; installed after the checks of who may send it."""
    sendings = FormsUnderWay()

    @app.before_request
    def lead_second() -> Any:
        form = form_of_request()
        if not form:
            return None
        if not sendings.begin(form):
            return send_again("busy", 503)
        g.sending = form
        if path := led_to(form):
            return redirect(path, 303)
        sent_form.set(form)
        return None

    @app.after_request
    def note_first(answer: Response) -> Response:
        if form := sent_form.get():
            sent_form.set("")
            try:
                note_result(form, answer)
            except sqlite3.Error as error:
                log.warning("it isn't noted what came of a form: %s", error)
        return answer

    @app.teardown_request
    def let_go(error: BaseException | None) -> None:
        sent_form.set("")
        if form := g.pop("sending", ""):
            sendings.end(form)


def token_field() -> Markup:
    """Returns the fields that each form of a page carries: the token of the session, and the key of the page."""
    kept = g.get("form_fields")
    # (a page has them in each of its forms)
    if kept is None or kept[0] is not g.session:
        if "form_key" not in g:
            g.form_key = secrets.token_urlsafe(9)
        names = (("token", form_token()), ("once", g.form_key))
        fields = Markup("".join(f'<input type="hidden" name="{name}" value="{value}">' for name, value in names))
        kept = g.form_fields = g.session, fields
    return cast(Markup, kept[1])


def form_of_request() -> str:
    """Returns what a form that somebody has sent is known by: its key and all that is in it, since a page has several
    forms, and who returns to a page may send another text; nothing for what is no form of a page."""
    key = request.form.get("once", "") if request.method not in READING and person().name else ""
    if not key:
        return ""
    content = hashlib.sha256()
    fields = [pair for pair in request.form.items(multi=True) if pair[0] != "token"]
    for text in (person().name, request.path, *(it for pair in fields for it in pair)):
        content.update(text.encode("utf-8", "surrogatepass") + b"\0")
    for file in request.files.values():
        content.update(hashlib.sha256(file.read()).digest())
        file.seek(0)
    return content.hexdigest()


def led_to(form: str) -> str:
    """Returns where the first sending of a form has led; nothing if it has changed nothing."""
    journal = the_desk().journal
    found = journal.one("SELECT path, state FROM sent LEFT JOIN plan ON plan.id = sent.plan WHERE key = ?", form)
    if found is None or found["path"] is None and found["state"] in ("refused", "fault", "lost"):
        return ""
    return str(found["path"] or path_to(OTHERWISE))


def note_result(form: str, answer: Response) -> None:
    """Notes where a form has led, if it has changed something; one that was refused may be sent again."""
    where = answer.headers.get("Location") if answer.status_code in (302, 303) else None
    with the_desk().journal.writing() as rows:
        if where:
            rows.execute(
                "INSERT INTO sent (key, at, path) VALUES (?1, ?2, ?3) ON CONFLICT (key) DO UPDATE SET path = ?3",
                (form, now(), where),
            )
        elif 400 <= answer.status_code < 500 or answer.status_code == 503:
            rows.execute("DELETE FROM sent WHERE key = ?", (form,))
