"""Coming in, leaving, and one's own account."""
from __future__ import annotations

from typing import Any

from flask import Blueprint, abort, g, make_response, redirect, render_template, request
from markupsafe import Markup

from thesaurus_desk.auth.accounts import Account, Accounts
from thesaurus_desk.auth.authentication import SingleUserEntry
from thesaurus_desk.auth.devices import KNOWN
from thesaurus_desk.auth.passwords import LONGEST, TooManyHashes, fault_of
from thesaurus_desk.auth.request_checks import RELOAD, keep_cookie, start_session
from thesaurus_desk.auth.route_roles import role
from thesaurus_desk.web.context import go, own_path, person, say, session, the_entry, the_settings
from thesaurus_desk.web.forms import FormState, Problem
from thesaurus_desk.web.paths import path_to

pages = Blueprint("account", __name__)
ONWARDS = Markup(RELOAD).format("/")
# The seconds after which one tries again when too many passwords are compared at once.
MOMENT = 1


def accounts_here() -> Accounts:
    """Returns the users' file. Ends with 404 where there is none."""
    accounts = the_entry().accounts
    if accounts is None:
        abort(404)
    return accounts


@pages.get("/login")
@role("visitor")
def login() -> Any:
    """Asks for the name and the password, or says how else one comes in."""
    kind = the_entry().kind
    if kind != "password":
        title = say("people.proxy_title" if kind == "proxy" else "people.alone_title")
        return render_template("message.html", title=title, text=say(f"people.{kind}")), 403
    return render_template("login.html", state=FormState(), next=own_path(request.args.get("next")))


@pages.get("/enter")
@role("visitor")
def enter() -> Any:
    """Lets the one person in who has the key of the address, once."""
    entry, key = the_entry(), request.args.get("key", "")
    if not isinstance(entry, SingleUserEntry):
        abort(404)
    if not entry.use_key(key):
        # (who is in already may have loaded the page again)
        return redirect("/" if person().name else path_to("account.login"), 303) if key in entry.used else abort(404)
    start_session(entry.name, "")
    # (a redirection after a click on another page wouldn't send the new cookie, which is SameSite=Strict)
    return make_response(ONWARDS)


@pages.post("/login")
@role("visitor")
def log_in() -> Any:
    """Checks a name and a password, and begins a session."""
    entry = the_entry()
    if entry.kind != "password":
        abort(404)
    name = request.form.get("name", "").strip()[:LONGEST]
    place = entry.devices.find(request.cookies.get(device_cookie()), name) or entry.address(request)
    account, wait = compare_password(name, request.form.get("password", ""), place)
    if account is None:
        return not_in(name, wait)
    note_entry(account.name, entry.address(request), "in")
    start_session(account.name, account.mark)
    answer = redirect(own_path(request.form.get("next")), 303)
    keep_cookie(answer, device_cookie(), entry.devices.write(account.name), KNOWN)
    return answer


def compare_password(name: str, password: str, place: str) -> tuple[Account | None, int]:
    """Returns the account whose name and password these are, or the seconds to wait before one may be tried."""
    limits = the_entry().limits
    wait = limits.try_one(place, name)
    if wait:
        return None, wait
    try:
        account = accounts_here().check(name, password)
    except TooManyHashes:
        limits.take_back(place, name)
        return None, MOMENT
    if account is not None:
        limits.forgive(place, name)
    return account, 0


def device_cookie() -> str:
    """Returns the name of the cookie by which a browser is known."""
    return f"{the_settings().cookie}-known"


def not_in(name: str, wait: int) -> Any:
    """Says that a password is wrong, or that one must wait."""
    note_entry(name, the_entry().address(request), "wait" if wait else "wrong")
    if wait:
        state = FormState("login", request.form, [Problem("", say("people.wait", n=wait))])
    else:
        state = FormState("login", request.form, [Problem("password", say("people.wrong"))])
    answer = make_response(render_template("login.html", state=state, next=own_path(request.form.get("next"))))
    answer.status_code = 429 if wait else 403
    if wait:
        answer.headers["Retry-After"] = str(wait)
    return answer


def note_entry(name: str, address: str, what: str) -> None:
    """Notes in the list of those who came in that somebody came in, left, or didn't come in."""
    the_entry().log.note(name, address, what)


@pages.post("/logout")
@role("visitor")
def log_out() -> Any:
    """Ends the session."""
    entry, left = the_entry(), session()
    # (anyone can have a session without a user)
    if left is not None and left.user:
        ended = entry.sessions.end(left)
        if entry.accounts is not None and entry.kind == "password":
            entry.accounts.note_ended(ended)
        note_entry(person().name, entry.address(request), "out")
    answer = redirect(path_to("account.login"), 303)
    answer.delete_cookie(
        the_settings().cookie, path="/", secure=the_settings().is_secure, httponly=True, samesite="Strict"
    )
    answer.headers["Clear-Site-Data"] = '"cache"'
    g.session = None
    return answer


@pages.get("/me")
def me() -> Any:
    """Shows one's own account."""
    return my_page(FormState())


def my_page(state: FormState, status: int = 200) -> Any:
    """Shows one's own account, with what is wrong in the form."""
    return render_template("me.html", state=state, kind=the_entry().kind, is_changed="changed" in request.args), status


@pages.post("/me/password")
@role("reader")
def change_password() -> Any:
    """Changes one's own password; all other sessions end."""
    entry, name = the_entry(), person().name
    if entry.kind != "password":
        abort(404)
    problems = problems_of_password(name, entry.address(request))
    if problems:
        return my_page(FormState("password", request.form, problems), 422)
    accounts_here().set_password(name, request.form["new"])
    account = accounts_here().find(name)
    assert isinstance(account, Account)
    start_session(name, account.mark)
    return go(f"{path_to('account.me')}?changed=1")


def problems_of_password(name: str, address: str) -> list[Problem]:
    """Returns what is wrong with the form of a new password."""
    form = request.form
    fault = fault_of(form.get("new", ""), name)
    if fault:
        return [Problem("new", say(fault))]
    if form.get("new") != form.get("again"):
        return [Problem("again", say("people.password_differs"))]
    account, wait = compare_password(name, form.get("old", ""), address)
    if wait:
        return [Problem("", say("people.wait", n=wait))]
    return [] if account is not None else [Problem("old", say("people.password_wrong"))]
