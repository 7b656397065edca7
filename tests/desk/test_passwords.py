"""Passwords and the users' file: wrong ones are slowed down, nobody locks a colleague out, the file is private."""
from __future__ import annotations

import hashlib
import json
import re
import threading
from pathlib import Path
from typing import Any

import pytest
from clients import PASSWORD, USERS, Client, Site, text_of
from thesaurus_desk.auth import limits, passwords
from thesaurus_desk.auth.accounts import AccountError, Accounts, fault_of_name
from thesaurus_desk.auth.passwords import fault_of, hash_password, is_right
from thesaurus_desk.auth.roles import Role
from thesaurus_tools.command_line import ToolError

# What a password costs, as it is without the tests' own fixture.
COST = passwords.ROUNDS, passwords.BLOCK, passwords.LANES
# The seconds after which something that should come never came, also on a machine that has other things to do.
PATIENCE = 60.0


class Clock:
    """A clock that stands still until a test moves it, so that waits don't end on a busy machine."""

    now = 1000.0

    def time(self) -> float:
        return self.now


@pytest.fixture(autouse=True)
def clock(monkeypatch: pytest.MonkeyPatch) -> Clock:
    """The clock by which waits are counted."""
    still = Clock()
    monkeypatch.setattr(limits, "time", still)
    return still


def try_password(client: Client, name: str, password: str = "wrong", address: str = "") -> int:
    """Returns the status of an attempt to come in from an address."""
    client.http.environ_base["REMOTE_ADDR"] = address or "192.0.2.1"
    return client.post("/login", {"name": name, "password": password}).status_code


def test_hashes() -> None:
    assert COST == (32768, 8, 3), "as OWASP's cheat sheet on password storage has it"
    hashed = hash_password("a long one")
    assert (
        hashed.startswith(f"scrypt${passwords.ROUNDS}$3$")
        and hashed != hash_password("a long one")
        and "a long one" not in hashed
    )
    assert is_right("a long one", hashed) and not is_right("a long one ", hashed) and not is_right("", hashed)
    for broken in ("", "x", "scrypt$1$2$3", "scrypt$32768$zz$00", "$$$"):
        assert not is_right("a long one", broken)


def test_hashes_of_an_earlier_version() -> None:
    """They have one lane, and no number of lanes."""
    salt = b"s" * 16
    old = f"scrypt$16${salt.hex()}${hashlib.scrypt(b'a long one', salt=salt, n=16, r=8, p=1, dklen=32).hex()}"
    assert is_right("a long one", old) and not is_right("another one", old)


@pytest.mark.parametrize("password", ["short", "x" * 1025, "aaaaaaaaaaaaa", "somebody here"])
def test_bad_passwords(password: str) -> None:
    assert fault_of(password, "Somebody Here")


def test_wrong_passwords_are_slowed_down(site: Site, clock: Clock) -> None:
    client = site.client()
    assert [try_password(client, "ben") for _ in range(limits.FREE_FOR_NAME)] == [403] * limits.FREE_FOR_NAME
    assert try_password(client, "ben") == 429 and try_password(client, "ben", PASSWORD) == 429
    waiting = client.post("/login", {"name": "ben", "password": PASSWORD})
    assert waiting.headers["Retry-After"] == "1" and "Try again in 1 second." in text_of(waiting)
    clock.now += 1.1
    assert try_password(client, "ben") == 403
    waits = []
    for _ in range(12):
        waits.append(site.entry.limits.try_one("192.0.2.1", "x"))
        if waits[-1]:
            clock.now += waits[-1]
            assert site.entry.limits.try_one("192.0.2.1", "x") == 0
    assert waits == [0, 0, 0, 0, 1, 2, 4, 8, 16, 32, 60, 60]
    clock.now += limits.MEMORY + 1
    assert site.entry.limits.try_one("192.0.2.1", "x") == 0


def test_guesses_at_once_are_slowed_down(site: Site, monkeypatch: pytest.MonkeyPatch) -> None:
    """Each is counted before it is compared, so it doesn't matter that none has an answer yet."""
    may_end, answered = threading.Event(), threading.Semaphore(0)

    def compare(name: str, password: str) -> None:
        may_end.wait(PATIENCE)

    monkeypatch.setattr(site.entry.accounts, "check", compare)
    statuses: list[int] = []

    def guess(client: Client, token: str) -> None:
        client.http.environ_base["REMOTE_ADDR"] = "192.0.2.1"
        statuses.append(client.post("/login", {"name": "ben", "password": "wrong"}, token=token).status_code)
        answered.release()

    clients = [site.client() for _ in range(limits.FREE_FOR_NAME + 3)]
    threads = [threading.Thread(target=guess, args=(it, it.token())) for it in clients]
    for it in threads:
        it.start()
    refused = [answered.acquire(timeout=PATIENCE / 10) for _ in range(3)]
    may_end.set()
    for it in threads:
        it.join()
    assert all(refused) and sorted(statuses) == [403] * limits.FREE_FOR_NAME + [429] * 3


def test_guesses_from_one_network_of_ipv6(site: Site) -> None:
    """Who has an address of IPv6 usually has all that begin so."""
    found = [try_password(site.client(), "ben", address=f"2001:db8:1:2::{n:x}") for n in range(1, 7)]
    assert found == [403] * limits.FREE_FOR_NAME + [429] * 2
    assert try_password(site.client(), "ben", address="2001:db8:1:3::1") == 403
    mapped = [try_password(site.client(), "ina", address=it) for it in ("::ffff:192.0.2.7", "192.0.2.7")]
    assert mapped == [403, 403] and site.entry.limits.failures[("192.0.2.7", "ina")].count == 2


def test_a_full_gate_holds_up_nobody(site: Site, monkeypatch: pytest.MonkeyPatch) -> None:
    """As many passwords are hashed as may be at once: the next are refused at once, and not counted as wrong."""
    monkeypatch.setattr(passwords, "GATE", threading.Semaphore(0))
    client, ben, anna = site.client(), site.client("ben"), site.client("anna")
    new = {"old": PASSWORD, "new": "another one, long", "again": "another one, long"}
    answers: list[Any] = []

    def send() -> None:
        for _ in range(limits.FREE_FOR_NAME + 2):
            answers.append(client.post("/login", {"name": "ben", "password": PASSWORD}))
        answers.append(anna.post("/users", {"do": "password", "name": "ina", "password": "another one, long"}))

    thread = threading.Thread(target=send, daemon=True)
    thread.start()
    thread.join(PATIENCE)
    assert not thread.is_alive(), "it waits"
    assert {(it.status_code, it.headers.get("Retry-After")) for it in answers} == {(429, "1")}
    assert ben.post("/me/password", new).status_code == 422
    monkeypatch.undo()
    assert try_password(client, "ben", PASSWORD) == 303


def test_the_lock_of_the_users_file_is_no_link(users: Path) -> None:
    """Root, who adds a user, would make and open what it leads to."""
    elsewhere = users.parent / "elsewhere"
    users.with_name(f"{users.name}.lock").unlink(missing_ok=True)
    users.with_name(f"{users.name}.lock").symlink_to(elsewhere)
    with pytest.raises(ToolError, match="symbolic link"):
        Accounts(users).end_sessions("ben")
    assert not elsewhere.exists()


def test_nobody_locks_a_colleague_out(site: Site) -> None:
    for _ in range(20):
        try_password(site.client(), "ben", address="192.0.2.66")
    assert try_password(site.client(), "ben", PASSWORD, address="192.0.2.66") == 429
    assert try_password(site.client(), "ben", PASSWORD, address="192.0.2.1") == 303
    assert try_password(site.client(), "ina", PASSWORD, address="192.0.2.66") == 303


def test_nobody_locks_out_a_browser_that_is_known(site: Site) -> None:
    known, other = site.client(), site.client()
    assert try_password(known, "ben", PASSWORD) == 303
    for _ in range(limits.FREE_FOR_NAME + 2):
        try_password(other, "ben")
    assert try_password(other, "ben", PASSWORD) == 429 == try_password(site.client(), "ben", PASSWORD)
    assert try_password(known, "ben", PASSWORD) == 303, "the same address, and another browser"
    assert [try_password(known, "ben") for _ in range(limits.FREE_FOR_NAME + 1)][-1] == 429


def test_forged_cookies_of_known_browsers(site: Site) -> None:
    devices = site.entry.devices
    good = devices.write("ben")
    assert devices.find(good, "ben") and not devices.find(good, "ina")
    for cookie in (None, "", good[:-1], f"{good}x", site.cookie_of("ben"), "e30.x", "é"):
        assert devices.find(cookie, "ben") == ""
    named, device = devices.serializer.loads(good)
    # (the random part may have any letters)
    assert "ben" not in named and re.fullmatch(r"[\w-]{16}", device)


def test_many_names_from_one_address(site: Site) -> None:
    found = [try_password(site.client(), f"name{n}") for n in range(limits.FREE_FOR_ADDRESS + 3)]
    assert found[: limits.FREE_FOR_ADDRESS] == [403] * limits.FREE_FOR_ADDRESS and found[-1] == 429


def test_a_right_password_forgives(site: Site) -> None:
    client = site.client()
    for _ in range(limits.FREE_FOR_NAME - 1):
        try_password(client, "ben")
    assert try_password(site.client(), "ben", PASSWORD) == 303
    assert try_password(client, "ben") == 403 and try_password(client, "ben") == 403


def test_failures_take_bounded_memory(monkeypatch: pytest.MonkeyPatch) -> None:
    monkeypatch.setattr(limits, "MOST_KEPT", 50)
    kept = limits.Limits()
    for number in range(500):
        kept.try_one(f"address {number}", "name")
    assert len(kept.failures) <= 52


def test_an_unknown_name_is_refused_like_a_known_one(site: Site) -> None:
    known, unknown = (site.client().post("/login", {"name": name, "password": "wrong"}) for name in ("ben", "nobody"))
    assert known.status_code == unknown.status_code == 403
    assert text_of(known).replace("ben", "") == text_of(unknown).replace("nobody", "")
    for name, password in (("", ""), ("ben", ""), ("ben", "x" * 5000), ("x" * 5000, "y"), ("\x00", "\x00")):
        assert site.client().post("/login", {"name": name, "password": password}).status_code == 403


def test_the_head_sees_who_came_in(site: Site) -> None:
    try_password(site.client(), "<b>nobody</b>")
    try_password(site.client(), "ben", PASSWORD)
    page = site.client("anna").get("/users")
    assert "&lt;b&gt;nobody" in page.text and "wrong password" in page.text and "signed in" in page.text


# --- the file ---


def test_the_file_is_private(users: Path) -> None:
    Accounts(users).end_sessions("ben")
    assert users.stat().st_mode & 0o777 == 0o600
    assert Path(f"{users}.lock").stat().st_mode & 0o777 == 0o600
    assert PASSWORD not in users.read_text(encoding="utf-8")
    assert [it.name for it in users.parent.iterdir() if it.name.endswith(".new")] == []


def test_a_broken_write_leaves_the_old_file(users: Path, monkeypatch: pytest.MonkeyPatch) -> None:
    before = users.read_bytes()

    def full(descriptor: int) -> None:
        raise OSError(28, "No space left on device")

    monkeypatch.setattr("os.fsync", full)
    with pytest.raises(OSError):
        Accounts(users).end_sessions("ben")
    assert users.read_bytes() == before
    monkeypatch.undo()
    Accounts(users).end_sessions("ben")


def test_changes_at_the_same_time(users: Path) -> None:
    threads = [threading.Thread(target=Accounts(users).end_sessions, args=("ben",)) for _ in range(16)]
    for it in threads:
        it.start()
    for it in threads:
        it.join()
    account = Accounts(users).find("ben")
    assert account and account.sessions == 16


def test_another_process_changes_the_file(site: Site, users: Path) -> None:
    client = site.client("ben")
    assert client.get("/me").status_code == 200
    Accounts(users).remove("ben")
    assert client.get("/me").status_code == 303


@pytest.mark.parametrize(
    "data",
    [
        "",
        "{",
        "[]",
        '{"key":"00","users":{"a":{"role":"king"}},"ended":{}}',
        '{"key":"00","users":{"a":1},"ended":{}}',
        '{"users":{}}',
    ],
)
def test_another_file(tmp_path: Path, data: str) -> None:
    path = tmp_path / "users.json"
    path.write_text(data, encoding="utf-8")
    with pytest.raises(ToolError, match="not a users' file"):
        Accounts(path).read()


def test_what_can_not_be_done(users: Path) -> None:
    accounts = Accounts(users)
    with pytest.raises(AccountError, match="name_taken"):
        accounts.add("ben", Role.READER, PASSWORD)
    with pytest.raises(AccountError, match="name_unknown"):
        accounts.remove("nobody")
    with pytest.raises(AccountError, match="last_head"):
        accounts.remove("anna")
    with pytest.raises(AccountError, match="last_head"):
        accounts.set_role("anna", Role.EDITOR)
    for name in ("", " ", "a ", " a", "x" * 65, "a\nb", "a\u202eb", "a\x00", "e\u0301"):
        assert fault_of_name(name), repr(name)
        with pytest.raises(AccountError, match="name_wrong"):
            accounts.add(name, Role.READER, PASSWORD)
    assert [it.name for it in accounts.all()] == sorted(USERS)
    assert json.loads(users.read_text(encoding="utf-8"))["users"]["ben"]["role"] == "editor"


# --- the pages ---


def test_the_page_of_users(site: Site) -> None:
    anna = site.client("anna")
    new = {"do": "add", "name": "zoë o'neil", "role": "indexer", "password": "a secret that is long"}
    answer = anna.post("/users", new)
    assert answer.status_code == 303
    assert "zoë o'neil may sign in now, as: indexer." in text_of(anna.get(answer.headers["Location"]))
    assert site.client().post("/login", {"name": "zoë o'neil", "password": new["password"]}).status_code == 303
    zoe = site.client("zoë o'neil")
    for sent, said in (
        ({"do": "role", "role": "editor"}, "has the role: editor"),
        ({"do": "password", "password": "another secret, long"}, "has a new password"),
        ({"do": "sessions"}, "sessions of zoë o'neil have ended"),
        ({"do": "remove"}, "is removed"),
    ):
        answer = anna.post("/users", {**sent, "name": "zoë o'neil"})
        assert said in text_of(anna.get(answer.headers["Location"])), sent
    assert zoe.get("/me").status_code == 303


def test_refusals_on_the_page_of_users(site: Site) -> None:
    anna = site.client("anna")
    for sent, said in (
        ({"do": "add", "name": "ben", "role": "reader", "password": PASSWORD}, "There is already a user ben."),
        ({"do": "add", "name": "new", "role": "reader", "password": "short"}, "at least 10 characters"),
        ({"do": "remove", "name": "anna"}, "No administrator would be left"),
        ({"do": "role", "name": "anna", "role": "reader"}, "No administrator would be left"),
    ):
        answer = anna.post("/users", sent)
        assert answer.status_code == 422 and said in text_of(answer), sent
        assert "short" not in answer.text.split("<main")[1]
    for wrong in ({"do": "add", "name": "new", "role": "king", "password": PASSWORD}, {"do": "dance"}, {"do": ""}):
        assert anna.post("/users", wrong).status_code == 400


def test_the_own_password(site: Site) -> None:
    ben, other = site.client("ben"), site.client("ben")
    for sent, said in (
        ({"old": PASSWORD, "new": "short", "again": "short"}, "at least 10 characters"),
        ({"old": PASSWORD, "new": "a new one, long", "again": "a new one"}, "differ"),
        ({"old": "wrong", "new": "a new one, long", "again": "a new one, long"}, "This isn’t your password"),
    ):
        answer = ben.post("/me/password", sent)
        assert answer.status_code == 422 and said in text_of(answer)
    answer = ben.post("/me/password", {"old": PASSWORD, "new": "a new one, long", "again": "a new one, long"})
    assert answer.status_code == 303 and ben.get(answer.headers["Location"]).status_code == 200
    assert other.get("/me").status_code == 303
    assert (
        try_password(site.client(), "ben", "a new one, long") == 303
        and try_password(site.client(), "ben", PASSWORD) == 403
    )
