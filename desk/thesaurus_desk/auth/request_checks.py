"""Checks each request before its page is asked, and gives each answer its headers."""
from __future__ import annotations

import time
from typing import Any, cast
from urllib.parse import urlencode

from flask import Flask, Response, abort, current_app, g, make_response, redirect, render_template, request
from markupsafe import Markup
from werkzeug.wrappers import Response as BaseResponse

from thesaurus_desk.auth.roles import VISITOR, Role
from thesaurus_desk.auth.route_roles import READING, DeskRequest, lowest_role
from thesaurus_desk.auth.sessions import RENEWAL, Session
from thesaurus_desk.web.context import the_entry, the_rights, the_settings
from thesaurus_desk.web.paths import path_to
from thesaurus_desk.words import LANGUAGES, Words, best_language

POLICY = (
    "default-src 'none'; style-src 'self'; script-src 'self'; img-src 'self'; connect-src 'self'; form-action 'self'; "
    "base-uri 'none'; frame-ancestors 'none'"
)
# Chromium sends `Origin: null` with a page's own forms under no-referrer, so the policy is same-origin.
HEADERS = {
    "Content-Security-Policy": POLICY,
    "Referrer-Policy": "same-origin",
    "X-Content-Type-Options": "nosniff",
    "Cross-Origin-Opener-Policy": "same-origin",
    "Cross-Origin-Resource-Policy": "same-origin",
    "X-Frame-Options": "DENY",
    "Cache-Control": "private, no-cache",
}
# The blueprints whose forms have passwords, and their fields, which no page sends back.
OF_PASSWORDS, PASSWORDS = ("account", "users"), ("password", "old", "new", "again")
BEARER = {"WWW-Authenticate": "Bearer"}
PLAIN = {"Content-Type": "text/plain; charset=utf-8"}
RELOAD = (
    '<!DOCTYPE html><html lang="en"><meta charset="utf-8"><meta http-equiv="refresh" content="0;url={}">'
    "<title>…</title></html>"
)


def install_checks(app: Flask) -> None:
    """Has each request checked and each answer completed."""
    app.before_request(check_request)
    app.after_request(complete_answer)


def check_request() -> Any:
    """Returns the refusal of a request, or nothing if its page may be asked."""
    g.words = Words(chosen_language())
    g.person, g.session = VISITOR, None
    if not the_entry().is_admitted(request) or request.host not in the_settings().hosts:
        return make_response("This desk isn’t reached by this address.\n", 421, PLAIN)
    if request.endpoint is None or request.endpoint == "static":
        return None
    view = current_app.view_functions[request.endpoint]
    if getattr(view, "takes_token", False):
        return check_token(lowest_role(view, False))
    g.session = the_entry().sessions.read(request.cookies.get(the_settings().cookie))
    g.person = the_entry().person(request, g.session)
    is_interface = getattr(view, "is_interface", False)
    if request.method not in READING and cast(DeskRequest, request).has_too_many_fields:
        abort(413)
    if request.method not in READING and not is_interface:
        refused = check_change()
        if refused:
            return refused
    lowest = lowest_role(view, the_settings().is_public)
    act = getattr(view, "act", "")
    return check_role(max(lowest, the_rights().lowest[act]) if act else lowest, is_interface)


def check_token(lowest: Role) -> Any:
    """Has a program be the user whose token it sends. Returns the refusal if there is none, or if its role isn't high
    enough."""
    g.person = the_entry().person_of_token(request)
    if g.person.role >= lowest:
        return None
    if g.person.role > Role.VISITOR:
        return {"error": f"the token’s user is no {lowest.word}"}, 403
    return {"error": "Authorization: Bearer TOKEN is needed, with the token of a user"}, 401, BEARER


def chosen_language() -> str:
    """Returns the language of the pages: the one chosen, or the best that the browser accepts."""
    chosen = request.cookies.get("pages", "")
    return chosen if chosen in LANGUAGES else best_language([tag for tag, _ in request.accept_languages])


def is_own_form() -> bool:
    """Whether a form comes from a page of the desk, as far as the browser says."""
    origin = request.headers.get("Origin")
    if origin is not None:
        return origin in the_settings().origins
    return request.headers.get("Sec-Fetch-Site", "same-origin") in ("same-origin", "none")


def check_change() -> Any:
    """Returns the refusal of a form of another site, or of another session."""
    if not is_own_form():
        return refusal("foreign", 403)
    token = request.form.get("token", "")
    session = g.session
    if session is None or session.user != g.person.name or not the_entry().sessions.is_token(session, token):
        return ask_again()
    return None


def ask_again() -> Any:
    """Shows a form of another session again, so that nothing but passwords is lost; a visitor first comes in."""
    return send_again("again", 403)


def send_again(reason: str, status: int) -> Any:
    """Shows a form that wasn't performed, for a reason among the words of errors, so that it can be sent again."""
    has_passwords = request.blueprint in OF_PASSWORDS
    left_out = {"token", "once", *(PASSWORDS if has_passwords else ())}
    page = render_template(
        "again.html",
        reason=reason,
        fields=[(name, it) for name, it in request.form.items(multi=True) if name not in left_out],
        path=request.full_path.rstrip("?"),
        is_login=request.endpoint == "account.log_in",
        has_file=any(it.filename for it in request.files.values()),
    )
    return page, status


def check_role(lowest: Role, is_interface: bool) -> Any:
    """Returns the refusal of a person whose role isn't high enough."""
    if g.person.role >= lowest:
        return None
    if is_interface and not is_browser():
        return {"error": "this desk isn’t open to the public"}, 401
    if g.person.role > Role.VISITOR:
        return refusal("not_allowed", 403, role=g.words(f"people.role.{lowest.word}"))
    if request.method not in READING:
        return ask_again()
    return let_in()


def is_browser() -> bool:
    """Whether a page is asked for by name, as a browser does that follows the address of a concept."""
    return request.method in READING and "text/html" in request.accept_mimetypes.values()


def let_in() -> Any:
    """Sends a visitor to the page on which one comes in.

    A cookie that is SameSite=Strict doesn't come with a click on a link of another site: the page loads itself again.
    """
    if request.headers.get("Sec-Fetch-Site") == "cross-site" and "again" not in request.args:
        there = f"{request.path}?{urlencode([*request.args.items(multi=True), ('again', '1')])}"
        return make_response(Markup(RELOAD).format(there))
    return redirect(f"{path_to('account.login')}?{urlencode({'next': request.full_path.rstrip('?')})}", 303)


def refusal(key: str, status: int, **values: object) -> Any:
    """Returns a page that says why something is refused."""
    title, text = g.words(f"errors.{key}.title", **values), g.words(f"errors.{key}.text", **values)
    return render_template("message.html", title=title, text=text), status


def complete_answer(answer: Response) -> Response:
    """Gives an answer its headers, and its session a new age."""
    for name, value in HEADERS.items():
        answer.headers.setdefault(name, value)
    if the_settings().is_secure:
        answer.headers["Strict-Transport-Security"] = "max-age=31536000"
    if request.endpoint == "static":
        answer.headers["Cache-Control"] = "max-age=600"
        return answer
    answer.headers.add("Vary", "Cookie, Accept-Language")
    session = g.get("session")
    if session and (g.get("is_new_session") or time.time() - session.last > RENEWAL and session.user == g.person.name):
        write_cookie(answer, session)
    return answer


def write_cookie(answer: BaseResponse, session: Session) -> None:
    """Has the browser keep a session until it is closed; the session's own age is in the cookie."""
    keep_cookie(answer, the_settings().cookie, the_entry().sessions.write(session))


def keep_cookie(answer: BaseResponse, name: str, value: str, age: int | None = None) -> None:
    """Has the browser keep a cookie that no script and no other site gets."""
    secure = the_settings().is_secure
    answer.set_cookie(name, value, max_age=age, httponly=True, samesite="Strict", secure=secure, path="/")


def form_token() -> str:
    """Returns the token of the session's forms; a session begins if there is none."""
    if g.session is None or g.session.user != g.person.name:
        start_session(g.person.name, "")
    # (a page has it in each of its forms)
    if g.get("token_of") is not g.session:
        g.token, g.token_of = the_entry().sessions.token(g.session), g.session
    return str(g.token)


def start_session(user: str, mark: str) -> None:
    """Begins a session, whose cookie goes with the answer."""
    g.session = the_entry().sessions.begin(user, mark)
    g.is_new_session = True
