"""A server in front of the desk: its secret, the names and addresses that it sends, and who sends them without it."""
from __future__ import annotations

from pathlib import Path

import pytest
from flask import Request
from clients import PASSWORD, Client, Site
from thesaurus_desk.auth.accounts import Accounts
from thesaurus_desk.auth.authentication import PasswordEntry, ProxyEntry, Proxy
from thesaurus_desk.auth.roles import Role
from thesaurus_desk.store.plan_execution import Desk

SECRET = "a secret of the server in front"


class Sender:
    """A browser behind the server in front."""

    def __init__(self, site: Site, name: str = "", secret: str = SECRET):
        self.client, self.fields = Client(site), {"X-Desk-Proxy": secret, "X-Real-IP": "203.0.113.9"}
        self.client.http.environ_base["REMOTE_ADDR"] = "127.0.0.1"
        if name:
            self.fields["X-Remote-User"] = name

    def get(self, path: str, **more: str) -> tuple[int, str]:
        """Returns the status and the text of a page."""
        answer = self.client.get(path, **self.fields, **more)
        return answer.status_code, answer.text

    def post(self, path: str, values: dict[str, str], **more: str) -> int:
        """Sends a form with the token that the page of users has."""
        page = self.get("/users")[1]
        token = page.partition('name="token" value="')[2][:32]
        return self.client.post(path, values, token=token, **self.fields, **more).status_code


@pytest.fixture
def named(desk: Desk, users: Path) -> Site:
    """A desk to which a server in front sends names."""
    return Site(desk, ProxyEntry(Accounts(users), Proxy(SECRET)))


@pytest.mark.parametrize("secret", ["", "x", SECRET[:-1], f"{SECRET}x", "é"])
def test_without_the_secret(named: Site, secret: str) -> None:
    for path in ("/", "/az", "/login", "/static/desk.css", "/users", "/nothing"):
        assert Sender(named, "anna", secret).get(path)[0] == 421, path
    assert Sender(named, "anna", secret).post("/users", {"do": "remove", "name": "ben"}) == 421


def test_groups(desk: Desk, users: Path) -> None:
    """They count for those alone whom the users' file doesn't have, and the highest one does."""
    site = Site(desk, ProxyEntry(Accounts(users), Proxy(SECRET), {"Redaktion": Role.EDITOR, "all": Role.READER}))
    cases = {
        ("zoe", "all, Redaktion"): ("zoe", Role.EDITOR),
        ("zoe", "all,other"): ("zoe", Role.READER),
        ("rita", "Redaktion"): ("rita", Role.READER),
        ("zoe", "other,redaktion,all2"): ("", Role.VISITOR),
        ("", "all"): ("", Role.VISITOR),
        ("#1", "all"): ("", Role.VISITOR),
    }
    for (name, groups), wanted in cases.items():
        fields = {"X-Remote-User": name, "X-Remote-Groups": groups}
        environment = {f"HTTP_{it.upper().replace('-', '_')}": value for it, value in fields.items()}
        found = site.entry.person(Request(environment), None)
        assert (found.name, found.role) == wanted, (name, groups)
    assert Sender(site, "zoe").get("/me", X_Remote_Groups="all")[0] == 200
    assert Sender(site, "zoe", "x").get("/me", X_Remote_Groups="all")[0] == 421


def test_groups_mean_nothing_otherwise(named: Site) -> None:
    assert Sender(named, "zoe").get("/me", X_Remote_Groups="all")[0] == 303


def test_names_and_roles(named: Site) -> None:
    assert Sender(named, "anna").get("/users")[0] == 200
    assert Sender(named, "ben").get("/users")[0] == 403
    assert "ben" in Sender(named, "ben").get("/me")[1]
    for name in ("", "nobody", "Anna", "anna ", "anna,ben"):
        status, text = Sender(named, name).get("/me")
        assert status == 303 or "nobody" in text, name
    status, text = Sender(named, "nobody").get("/login")
    assert status == 403 and "a name that the desk knows" in text


def test_names_in_other_letters(named: Site) -> None:
    assert named.entry.accounts
    named.entry.accounts.add("zoë", Role.READER, None)
    assert "zoë" in Sender(named, "zoë".encode().decode("latin-1")).get("/me")[1]


def test_changes_need_the_token(named: Site) -> None:
    sender = Sender(named, "anna")
    assert sender.post("/users", {"do": "add", "name": "new", "role": "reader"}) == 303
    assert named.entry.accounts and named.entry.accounts.find("new")
    answer = sender.client.post("/users", {"do": "remove", "name": "new"}, token="", **sender.fields)
    assert answer.status_code == 403
    stranger = Sender(named, "ben")
    stranger.client = sender.client
    answer = stranger.client.post("/me/password", {}, token=sender.client.token(), **stranger.fields)
    assert answer.status_code == 403, "a token is that of one person"


def test_no_passwords_here(named: Site) -> None:
    sender = Sender(named, "anna")
    assert 'type="password"' not in sender.get("/users")[1] + sender.get("/me")[1]
    for path, values in (
        ("/me/password", {"old": PASSWORD, "new": "a new one, long", "again": "a new one, long"}),
        ("/users", {"do": "password", "name": "ben", "password": "a new one, long"}),
    ):
        assert sender.post(path, values) == 404
    assert 'action="/logout"' not in sender.get("/me")[1]


def test_addresses_by_the_server_in_front(desk: Desk, users: Path) -> None:
    site = Site(desk, PasswordEntry(Accounts(users), Proxy(SECRET)))
    for _ in range(9):
        sender = Sender(site)
        token = sender.get("/login")[1].partition('name="token" value="')[2][:32]
        sender.client.post("/login", {"name": "ben", "password": "x"}, token=token, **sender.fields)
    assert site.entry.limits.try_one("203.0.113.9", "ben") > 0
    assert site.entry.limits.try_one("127.0.0.1", "ben") == 0


def test_nobody_sends_an_address_or_a_name_without_it(site: Site) -> None:
    for number in range(9):
        fields = {"X-Real-IP": f"203.0.113.{number}", "X-Forwarded-For": f"203.0.113.{number}"}
        site.client().post("/login", {"name": "ben", "password": "x"}, **fields)
    assert site.entry.limits.try_one("127.0.0.1", "ben") > 0
    assert site.client().get("/me", X_Remote_User="anna").status_code == 303
