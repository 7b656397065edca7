"""The users, kept by the head: add, roles, passwords, ends of sessions; and who came in lately."""
from __future__ import annotations

from collections.abc import Callable
from typing import Any
from urllib.parse import urlencode

from flask import Blueprint, abort, render_template, request

from thesaurus_desk.auth.accounts import AccountError, Accounts
from thesaurus_desk.auth.passwords import fault_of
from thesaurus_desk.auth.roles import Role, role_named
from thesaurus_desk.auth.route_roles import role
from thesaurus_desk.web.context import go, say, the_desk, the_entry, words
from thesaurus_desk.web.forms import FormState, Problem
from thesaurus_desk.web.pages.account import accounts_here
from thesaurus_desk.web.paths import path_to
from thesaurus_desk.web.watch_mail import ADDRESS

pages = Blueprint("users", __name__)
ROLES = tuple(it.word for it in Role if it > Role.VISITOR)
# What can be done with a user: the name of the form, and the words that say that it was done.
DONE = {
    "add": "added",
    "role": "role_given",
    "password": "password_set",
    "sessions": "sessions_ended",
    "mail": "mail_set",
    "remove": "removed",
}


@pages.get("/users")
@role("head")
def users() -> Any:
    """Shows the users."""
    return users_page(FormState())


def users_page(state: FormState, status: int = 200) -> Any:
    """Shows the users, with what is wrong in a form."""
    done, name = request.args.get("was", ""), request.args.get("name", "")
    account = accounts_here().find(name)
    role_word = say(f"people.role.{account.role}") if account else ""
    # (whatever an address says: it is so, or isn't said)
    is_so = done in DONE and (account is None) == (done == "remove")
    what_was_done = say(f"people.{DONE[done]}", name=name, role=role_word) if is_so else ""
    return (
        render_template(
            "users.html",
            state=state,
            accounts=accounts_here().all(),
            roles=[(it, say(f"people.role.{it}")) for it in ROLES],
            has_passwords=the_entry().kind == "password",
            entries=the_entry().log.last(),
            what_was_done=what_was_done,
            mails={it.user: it.mail for it in the_desk().watches.with_mail()},
        ),
        status,
    )


def password_of_form(name: str) -> str:
    """Returns the new password in the form. Raises AccountError if it isn't good enough."""
    password = request.form.get("password", "")
    fault = fault_of(password, name)
    if fault:
        raise AccountError(fault)
    return password


def role_of_form() -> Role:
    """Returns the role in the form."""
    word = request.form.get("role", "")
    if word not in ROLES:
        abort(400)
    return role_named(word)


def add(accounts: Accounts, name: str) -> None:
    """Adds a user."""
    accounts.add(name, role_of_form(), password_of_form(name) if the_entry().kind == "password" else None)


def set_password(accounts: Accounts, name: str) -> None:
    """Sets a user's password."""
    if the_entry().kind != "password":
        abort(404)
    accounts.set_password(name, password_of_form(name))


def set_role(accounts: Accounts, name: str) -> None:
    """Gives a user a role."""
    accounts.set_role(name, role_of_form())


def end_sessions(accounts: Accounts, name: str) -> None:
    """Ends a user's sessions."""
    accounts.end_sessions(name)


def remove(accounts: Accounts, name: str) -> None:
    """Removes a user, who watches nothing any more."""
    accounts.remove(name)
    the_desk().watches.forget(name)


def set_mail(accounts: Accounts, name: str) -> None:
    """Says to which address it is sent what happens to what a user watches. Raises AccountError for one that is
    none."""
    address = request.form.get("mail", "").strip()
    if accounts.find(name) is None:
        raise AccountError("people.name_unknown", name=name)
    if address and not ADDRESS.fullmatch(address):
        raise AccountError("people.mail_wrong", address=address)
    the_desk().watches.set_mail(name, address, words().language)


ACTIONS: dict[str, Callable[[Accounts, str], None]] = {
    "add": add,
    "role": set_role,
    "password": set_password,
    "sessions": end_sessions,
    "mail": set_mail,
    "remove": remove,
}


@pages.post("/users")
@role("head")
def change_users() -> Any:
    """Does with a user what the form says."""
    action, name = request.form.get("do", ""), request.form.get("name", "")
    if action not in ACTIONS:
        abort(400)
    name = name.strip() if action == "add" else name
    try:
        ACTIONS[action](accounts_here(), name)
    except AccountError as error:
        form = "add" if action == "add" else f"user-{name}"
        field = "password" if "password" in error.key else "name" if action == "add" else ""
        return users_page(FormState(form, request.form, [Problem(field, say(error.key, **error.values))]), 422)
    return go(f"{path_to('users.users')}?{urlencode({'was': action, 'name': name})}")
