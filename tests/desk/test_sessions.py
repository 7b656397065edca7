"""Sessions: the cookie, its age and its end, forms of an earlier session, and clicks from other sites."""
from __future__ import annotations

import re
import time
from collections.abc import Callable
from pathlib import Path

import pytest
from clients import AGAIN, HOST, PASSWORD, Client, Site, site_of
from thesaurus_desk.auth.accounts import Account, Accounts
from thesaurus_desk.auth.authentication import SingleUserEntry
from thesaurus_desk.auth.roles import Role
from thesaurus_desk.auth.sessions import IDLE, RENEWAL, WHOLE, Sessions
from thesaurus_desk.settings import Settings
from thesaurus_desk.store.plan_execution import Desk


def is_in(client: Client) -> bool:
    """Whether a browser's session is one."""
    return client.get("/me").status_code == 200


def accounts_of(site: Site) -> Accounts:
    """Returns the users' file of a site."""
    assert site.entry.accounts is not None
    return site.entry.accounts


def cookie_field(site: Site, name: str = "ben") -> str:
    """Returns the field that sets the cookie of somebody who comes in."""
    answer = site.client().post("/login", {"name": name, "password": PASSWORD})
    assert answer.status_code == 303
    return str(answer.headers["Set-Cookie"])


def test_the_cookie(site: Site, users: Path) -> None:
    plain = cookie_field(site)
    assert "; HttpOnly" in plain and "; SameSite=Strict" in plain and "; Path=/" in plain
    assert "Domain" not in plain and "; Secure" not in plain
    secure = site_of(site.desk, users, is_secure=True, cookie="__Host-desk")
    client = secure.client()
    page = client.http.get("/login", base_url=f"https://{HOST}/")
    assert "; Secure" in page.headers["Set-Cookie"] and page.headers["Set-Cookie"].startswith("__Host-desk=")
    assert "max-age=31536000" in page.headers["Strict-Transport-Security"]


def test_coming_in_and_leaving(site: Site) -> None:
    client = site.client()
    assert not is_in(client)
    assert client.post("/login", {"name": "ben", "password": PASSWORD, "next": "/az"}).headers["Location"] == "/az"
    client.name = "ben"
    assert is_in(client) and "ben" in client.get("/me").text
    kept = cookie_of(client)
    assert client.post("/logout").headers["Location"] == "/login"
    assert not is_in(client)
    client.keep(kept)
    assert not is_in(client), "a cookie was kept from before"


def cookie_of(client: Client) -> str:
    """Returns the cookie of a browser."""
    return next(it.value for it in client.http.cookie_jar if it.name == "desk")


def test_a_new_session_for_who_comes_in(site: Site) -> None:
    client = site.client()
    before = client.token()
    client.post("/login", {"name": "ben", "password": PASSWORD})
    client.name = "ben"
    assert client.token() != before


def add_again(accounts: Accounts) -> None:
    """Removes a user, and adds one with the same name, role and password."""
    accounts.remove("ben")
    accounts.add("ben", Role.EDITOR, PASSWORD)


ENDS: dict[str, Callable[[Accounts], None]] = {
    "removed": lambda it: it.remove("ben"),
    "another password": lambda it: it.set_password("ben", "another long one"),
    "ended by the head": lambda it: it.end_sessions("ben"),
    "added again": add_again,
}


@pytest.mark.parametrize("how", ENDS)
def test_sessions_end(site: Site, how: str) -> None:
    client, other = site.client("ben"), site.client("ina")
    token = client.token()
    assert is_in(client)
    ENDS[how](accounts_of(site))
    assert not is_in(client) and is_in(other)
    assert client.post("/me/password", {"old": PASSWORD}, token=token).status_code == 403


def test_a_lower_role_holds_at_once(site: Site) -> None:
    accounts_of(site).set_role("ina", Role.HEAD)
    client = site.client("ina")
    assert client.get("/users").status_code == 200
    accounts_of(site).set_role("ina", Role.READER)
    assert client.get("/users").status_code == 403
    assert client.post("/users", {"do": "remove", "name": "ben"}).status_code == 403


def test_age(site: Site, monkeypatch: pytest.MonkeyPatch) -> None:
    client, began = site.client("ben"), time.time()
    monkeypatch.setattr(time, "time", lambda: began + IDLE - 60)
    answer = client.get("/me")
    assert answer.status_code == 200 and "desk=" in answer.headers["Set-Cookie"], "a session in use is renewed"
    monkeypatch.setattr(time, "time", lambda: began + 2 * IDLE - 120)
    assert is_in(client)
    monkeypatch.setattr(time, "time", lambda: began + 4 * IDLE)
    assert not is_in(client), "a session not in use ends"


def test_the_whole_age(site: Site, monkeypatch: pytest.MonkeyPatch) -> None:
    client, began = site.client("ben"), time.time()
    for at in range(0, WHOLE, IDLE - 60):
        monkeypatch.setattr(time, "time", lambda at=at: began + at)
        assert is_in(client)
    monkeypatch.setattr(time, "time", lambda: began + WHOLE + 1)
    assert not is_in(client)


def test_a_cookie_is_not_written_each_time(site: Site) -> None:
    assert "Set-Cookie" not in site.client("ben").get("/az").headers
    assert RENEWAL < IDLE


def test_forged_cookies(site: Site) -> None:
    good = site.cookie_of("ben")
    mark = Account("ben", "editor").mark
    other = Sessions(b"another key")
    for cookie in (
        good[:-1],
        good[1:],
        f"{good}x",
        "",
        "a.b.c",
        "e30.x",
        other.write(other.begin("ben", mark)),
        "é",
        "x" * 4000,
    ):
        client = site.client()
        client.keep(cookie)
        assert not is_in(client), cookie
    client = site.client()
    client.keep(good)
    assert is_in(client)


def test_sessions_outlive_the_desk(site: Site, users: Path) -> None:
    cookie = site.cookie_of("ben")
    left = site.client("ina")
    ended = cookie_of(left)
    left.post("/logout")
    again = site_of(site.desk, users)
    for kept, is_one in ((cookie, True), (ended, False)):
        client = again.client()
        client.keep(kept)
        assert is_in(client) == is_one


def test_a_form_of_an_earlier_session_keeps_what_was_written(site: Site) -> None:
    client = site.client("anna")
    sent = {"do": "add", "name": '<new> & "old"', "role": "reader", "password": "a secret that is long"}
    answer = client.post("/users", sent, token="0" * 32)
    assert answer.status_code == 403 and AGAIN in answer.text
    assert "a secret that is long" not in answer.text
    assert 'value="&lt;new&gt; &amp; &#34;old&#34;"' in answer.text
    fields = dict(re.findall(r'<input type="hidden" name="(\w+)" value="([^"]*)"', answer.text.split("<main")[1]))
    assert fields["token"] == client.token() and fields["role"] == "reader"
    assert 'action="/users"' in answer.text


def test_a_form_after_the_end_of_the_session(site: Site) -> None:
    client = site.client("ben")
    token = client.token()
    accounts_of(site).end_sessions("ben")
    secret = {"old": "an old secret", "new": "a new secret", "again": "a new secret"}
    answer = client.post("/me/password", {**secret, "comment": "kept"}, token=token)
    assert answer.status_code == 403 and 'value="kept"' in answer.text and 'href="/login"' in answer.text
    assert "secret" not in answer.text


@pytest.mark.parametrize(
    "path",
    [
        "//evil.example",
        "https://evil.example/",
        "/\\evil.example",
        "\\/evil.example",
        "/a\r\nX: y",
        "javascript:1",
        "",
        "/\t/x",
    ],
)
def test_only_own_pages_follow(site: Site, path: str) -> None:
    assert site.client().post("/login", {"name": "ben", "password": PASSWORD, "next": path}).headers["Location"] == "/"
    assert site.client("ben").get(f"/language?pages=de&next={path}").headers["Location"] == "/"
    assert 'name="next" value="/"' in site.client().get(f"/login?next={path}").text


def test_a_click_on_another_site_keeps_the_session(site: Site) -> None:
    answer = site.client().get("/az?letter=v", Sec_Fetch_Site="cross-site")
    assert answer.status_code == 200 and 'content="0;url=/az?letter=v&amp;again=1"' in answer.text
    assert site.client().get("/az?letter=v&again=1", Sec_Fetch_Site="cross-site").status_code == 303
    hostile = site.client().get("/az?letter=%22%3E%3Cscript%3E", Sec_Fetch_Site="cross-site")
    assert "<script" not in hostile.text


def test_alone(desk: Desk) -> None:
    site = Site(desk, SingleUserEntry("anna"), Settings(frozenset({HOST})))
    client = site.client()
    assert "key" in client.get("/login").text and client.get("/").status_code == 303
    for key in ("", "x", "é", "\ud800"):
        assert client.http.get("/enter", query_string={"key": key.encode("utf-8", "replace")}).status_code == 404
    assert isinstance(site.entry, SingleUserEntry)
    entered = client.get(f"/enter?key={site.entry.key}")
    assert entered.status_code == 200 and "url=/" in entered.text and "SameSite=Strict" in entered.headers["Set-Cookie"]
    assert "anna" in client.get("/me").text
    assert client.get("/users").status_code == 404
    assert 'href="/users"' not in client.get("/me").text
    client.name = "anna"
    assert client.post("/logout").status_code == 303
    assert not is_in(client)
