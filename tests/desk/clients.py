"""People at a desk, over Flask's client: a desk with four users, and what each sends and gets."""
from __future__ import annotations

import html
import re
from collections.abc import Callable, Iterable
from contextlib import nullcontext
from dataclasses import dataclass, field
from pathlib import Path
from typing import Any, TypeVar

import pytest
from flask import Flask
from thesaurus_desk.auth.accounts import Accounts
from thesaurus_desk.auth.authentication import PasswordEntry, Entry
from thesaurus_desk.auth.roles import Role, role_named
from thesaurus_desk.importing.uploads import unpack
from thesaurus_desk.settings import Settings
from thesaurus_desk.store.changes import Change
from thesaurus_desk.store.health import Health
from thesaurus_desk.store.plan_execution import Desk
from thesaurus_desk.web.app import create_app
from werkzeug.test import TestResponse

T = TypeVar("T")
HOST = "localhost"
ORIGIN = f"http://{HOST}"
PASSWORD = "correct horse battery"
# A user for each role, highest first.
USERS = {"anna": "head", "ben": "editor", "ina": "indexer", "rita": "reader"}
# What is said of a form without a token; its text is on no other page.
AGAIN = "Please send it again"


def last_upload(site: Site, kind: type[T]) -> T:
    """Returns what somebody has sent last, and looks at before it is performed."""
    row = site.desk.journal.one("SELECT data FROM upload ORDER BY rowid DESC LIMIT 1")
    found = unpack(row["data"]) if row else None
    assert isinstance(found, kind), found
    return found


@dataclass
class Client:
    """One browser."""

    site: Site
    name: str = ""
    http: Any = None

    def __post_init__(self) -> None:
        self.http = self.site.app.test_client()
        if self.name:
            self.keep(self.site.cookie_of(self.name))

    def keep(self, cookie: str) -> None:
        """Keeps a cookie of the session."""
        self.http.set_cookie(HOST, self.site.settings.cookie, cookie)

    def get(self, path: str, **fields: str) -> TestResponse:
        """Asks for a page."""
        return self.ask("GET", path, None, fields)

    def post(
        self, path: str, values: dict[str, Any] | None = None, token: str | None = None, **fields: str
    ) -> TestResponse:
        """Sends a form, as a page of the desk does: with its token unless another is given."""
        sent = {"token": self.token() if token is None else token, **(values or {})}
        return self.ask("POST", path, sent, {"Origin": ORIGIN, **fields})

    def ask(self, method: str, path: str, values: dict[str, Any] | None, fields: dict[str, str]) -> TestResponse:
        """Sends a request; underscores in names of fields stand for hyphens."""
        named = {it.replace("_", "-"): value for it, value in fields.items()}
        return self.http.open(path, method=method, data=values, headers=named, base_url=f"{ORIGIN}/")

    def token(self) -> str:
        """Returns the token of this browser's forms, as a page has it."""
        found = re.search(r'name="token" value="([0-9a-f]+)"', self.get("/me" if self.name else "/login").text)
        return found[1] if found else ""


@dataclass
class Site:
    """A desk with its pages and its users."""

    desk: Desk
    entry: Entry
    settings: Settings = field(default_factory=lambda: Settings(frozenset({HOST})))

    def __post_init__(self) -> None:
        self.app: Flask = create_app(self.desk, self.entry, self.settings, Health(self.desk, None))

    def client(self, name: str = "") -> Client:
        """Returns the browser of a user who has come in, or of a visitor."""
        return Client(self, name)

    def cookie_of(self, name: str) -> str:
        """Returns the cookie of a new session of a user."""
        account = self.entry.accounts.find(name) if self.entry.accounts else None
        session = self.entry.sessions.begin(name, account.mark if account else "")
        return self.entry.sessions.write(session)


def write_users(path: Path) -> Path:
    """Writes a users' file with a user for each role."""
    accounts = Accounts(path)
    for name, role in USERS.items():
        accounts.add(name, role_named(role), PASSWORD)
    return path


def users_below(lowest: Role) -> list[str]:
    """Returns the users whose role is below one."""
    return [name for name, role in USERS.items() if role_named(role) < lowest]


def site_of(desk: Desk, users: Path, **settings: Any) -> Site:
    """Returns the site of a desk to which people come by passwords."""
    return Site(desk, PasswordEntry(Accounts(users)), Settings(frozenset({HOST}), **settings))


def text_of(answer: TestResponse) -> str:
    """Returns the text of a page without its markup."""
    return html.unescape(re.sub(r"<[^>]*>", " ", answer.text))


def hold_up_once(desk: Desk, monkeypatch: pytest.MonkeyPatch) -> None:
    """Has the first who waits for a desk's lock find that it isn't free in time, as during an import."""
    late, alone = iter([nullcontext(False)]), desk.alone
    monkeypatch.setattr(desk, "alone", lambda: next(late, None) or alone())


def show_rows(desk: Desk, changes: Iterable[Change]) -> None:
    """Has pages see changes of rows that the store doesn't have."""
    with desk.journal.writing() as rows:
        desk.upkeep.perform(rows, list(changes))


SiteMaker = Callable[..., Site]
