"""An office that writes, and processes that make pages: what each sees, and what happens when one dies."""
from __future__ import annotations

import contextlib
import os
import re
import signal
import threading
import time
from collections.abc import Callable, Iterator
from dataclasses import dataclass
from pathlib import Path
from typing import Any, cast
from urllib.parse import urlencode

import pytest
from clients import HOST, PASSWORD, site_of
from processes import Running, run_desk, running
from thesaurus_desk.journal.schema import OfficeNeeded
from thesaurus_desk.store.desk_reader import ReadDesk
from thesaurus_desk.store.plan_execution import Desk
from thesaurus_desk.web.app import create_app

# Seconds after which what should have come never came, also on a machine that has other things to do.
PATIENCE = 120.0
ROUNDS, PEOPLE = 6, 10


@dataclass
class Person:
    """A browser at a desk, whose connections are new ones each time: any process may take them."""

    desk: Running
    cookie: str = ""

    def get(self, path: str) -> tuple[int, str]:
        """Returns the status and the text of a page."""
        status, text, fields = self.desk.ask("GET", path, Cookie=self.cookie)
        self.keep(fields)
        return status, text

    def post(self, path: str, values: dict[str, str], at: str = "/me", **fields: str) -> tuple[int, dict[str, str]]:
        """Sends a form of a page, and returns the status and the fields of the answer."""
        found = re.search(r'name="token" value="([0-9a-f]+)"', self.get(at)[1])
        assert found
        sent = urlencode({"token": found[1], **values})
        form = {"Origin": f"http://127.0.0.1:{self.desk.port}", "Content-Type": "application/x-www-form-urlencoded"}
        status, _, got = self.desk.ask("POST", path, sent, Cookie=self.cookie, **form, **fields)
        self.keep(got)
        return status, got

    def keep(self, fields: dict[str, str]) -> None:
        """Keeps the cookie of the session."""
        if found := re.search(rf"desk-{self.desk.port}=[^;]+", fields.get("Set-Cookie", "")):
            self.cookie = found[0]


def come_in(desk: Running, name: str = "ben") -> Person:
    """Returns someone who has come in."""
    found = Person(desk)
    assert found.post("/login", {"name": name, "password": PASSWORD}, at="/login")[0] == 303
    return found


def children(pid: int) -> list[int]:
    """Returns the processes that make pages."""
    found = Path(f"/proc/{pid}/task").glob("*/children")
    each = {int(it) for path in found for it in path.read_text().split()}
    return sorted(it for it in each if b"page_process" in Path(f"/proc/{it}/cmdline").read_bytes())


def wait_until(what: str, holds: object) -> None:
    """Waits until something holds."""
    assert callable(holds)
    end = time.monotonic() + PATIENCE
    while not holds():
        assert time.monotonic() < end, what
        time.sleep(0.05)


def has_ended(pid: int) -> bool:
    """Whether a process runs no more."""
    try:
        return Path(f"/proc/{pid}/stat").read_text().rpartition(")")[2].split()[0] == "Z"
    except OSError:
        return True


@contextlib.contextmanager
def only(desk: Running, pid: int) -> Iterator[None]:
    """Has one process make all pages: the others stand still."""
    others = [it for it in children(desk.process.pid) if it != pid]
    for it in others:
        os.kill(it, signal.SIGSTOP)
    try:
        yield
    finally:
        for it in others:
            os.kill(it, signal.SIGCONT)


@pytest.fixture
def desk(program: str, store: Path, users: Path) -> Iterator[Running]:
    """A desk with an office and two processes that make pages."""
    with running("--db", store, "--users", users, "--program", program, "--workers", "2") as found:
        assert len(children(found.process.pid)) == 2
        yield found


def add_term(person: Person, text: str, concept: int = 5) -> int:
    """Adds a term on the page of a concept, and returns the status."""
    form = {"form": "term", "kind": "alt", "tag": "en", "text": text}
    return person.post(f"/c/{concept}/terms/add", form, at=f"/c/{concept}")[0]


def test_all_see_what_was_written(desk: Running) -> None:
    ben = come_in(desk)
    for n, pid in enumerate(children(desk.process.pid) * 2):
        with only(desk, pid):
            assert add_term(ben, f"Fiddles of {n}") == 303
            assert all(f"Fiddles of {it}" in ben.get("/c/5")[1] for it in range(n + 1))


def test_a_session_that_is_left_is_left_everywhere(desk: Running) -> None:
    ben = come_in(desk)
    kept = ben.cookie
    first, second = children(desk.process.pid)
    with only(desk, first):
        assert ben.post("/logout", {})[0] == 303
    for pid in (second, first):
        with only(desk, pid):
            assert Person(desk, kept).get("/me")[0] == 303


def test_what_only_the_office_has(desk: Running) -> None:
    """Its health, a display that the program makes, and a merge or an import that is looked at."""
    anna = come_in(desk, "anna")
    assert anna.get("/healthz")[1] == '{"problems":[],"status":"ok"}\n'
    assert "SQLite" in anna.get("/state")[1]
    assert anna.get("/print/alphabetical")[0] in (200, 404)
    assert "becomes a non-preferred term" in anna.get("/c/31/merge?other_number=5")[1]
    assert anna.post("/bring-in/table", {"typed": "term,new term\nViolins,Fine violins\n", "tag": "en"})[0] == 200


def test_who_sends_a_form(desk: Running) -> None:
    """The address is that of the browser, whatever it says; another than that of the socket between the processes."""
    visitor = Person(desk)
    visitor.post("/login", {"name": "ben", "password": "wrong"}, at="/login", X_Desk_Client="192.0.2.66")
    page = come_in(desk, "anna").get("/users")[1]
    assert "127.0.0.1" in page and "192.0.2.66" not in page


def test_ten_people_at_once(desk: Running) -> None:
    people = [come_in(desk, name) for name in ("ben", "anna") * (PEOPLE // 2)]
    failed: list[object] = []

    def work(n: int, person: Person) -> None:
        for at in range(ROUNDS):
            found = [
                person.get(it)[0] for it in ("/c/5", "/tree?at=5", "/suggest?q=vi", f"/az?letter={'abcv'[at % 4]}")
            ]
            found.append(add_term(person, f"Term {n} {at}"))
            failed.extend(it for it in found if it not in (200, 303))

    threads = [threading.Thread(target=work, args=it) for it in enumerate(people)]
    for it in threads:
        it.start()
    for it in threads:
        it.join()
    assert failed == []
    page = people[0].get("/c/5")[1]
    assert all(f"Term {n} {at}" in page for n in range(PEOPLE) for at in range(ROUNDS))


def test_a_process_that_dies_is_started_anew(desk: Running) -> None:
    ben = come_in(desk)
    before = children(desk.process.pid)
    os.kill(before[0], signal.SIGKILL)
    assert all(ben.get("/c/5")[0] == 200 for _ in range(20)), "the other one makes pages"
    wait_until("none is started", lambda: len(set(children(desk.process.pid)) - set(before)) == 1)
    (new,) = set(children(desk.process.pid)) - set(before)
    with only(desk, new):
        assert add_term(ben, "Fiddles of old") == 303 and "Fiddles of old" in ben.get("/c/5")[1]
    anna = come_in(desk, "anna")
    wait_until(
        "the office doesn't say it", lambda: "ended with status -9, and is started anew" in anna.get("/state")[1]
    )


def test_they_end_with_the_office(program: str, store: Path, users: Path) -> None:
    """Also where it is killed in the midst of changes: the next one finds a journal and a store that agree."""
    words = ("--db", store, "--users", users, "--program", program, "--workers", "2")
    with running(*words) as desk:
        ben, of_office = come_in(desk), children(desk.process.pid)

        def write() -> None:
            with contextlib.suppress(OSError, AssertionError):
                for n in range(1000):
                    add_term(ben, f"Fiddles of {n}")

        writing = threading.Thread(target=write)
        writing.start()
        wait_until("nothing is written", lambda: "Fiddles of 3" in come_in(desk, "anna").get("/c/5")[1])
        desk.process.kill()
        wait_until("they outlive the office", lambda: all(map(has_ended, of_office)))
        writing.join()
    with running(*words, "--port", desk.port) as again:
        assert "Fiddles of 3" in come_in(again).get("/c/5")[1]
        its = children(again.process.pid)
        again.process.send_signal(signal.SIGTERM)
        assert again.process.wait(PATIENCE) == 0 and all(map(has_ended, its))
    assert run_desk("check", "--db", store).stdout.startswith("the journal and the store agree\n")


def test_one_process_does_all(program: str, store: Path, users: Path) -> None:
    with running("--db", store, "--users", users, "--program", program, "--workers", "0") as desk:
        assert children(desk.process.pid) == [] and come_in(desk).get("/c/5")[0] == 200
    ran = run_desk("--db", store, "--alone", "anna", "--workers", "2")
    assert ran.returncode == 2 and "--alone and --sample are served by one process" in ran.stderr


# The addresses, but for changes, that a process that makes pages passes on. ARCHITECTURE names them.
PASSED = {"/", "/about", "/healthz", "/state", "/mapping", "/c/<int:number>/records-below"}


def test_which_pages_are_passed_on(store: Path, users: Path, open_desk: Callable[[Path], Desk]) -> None:
    site = site_of(open_desk(store), users)
    reading = ReadDesk(site.desk.db)
    app = create_app(cast(Any, reading), site.entry, site.settings, None)
    rules = [it for it in app.url_map.iter_rules() if "GET" in (it.methods or ()) and it.endpoint != "static"]
    assert len(rules) > 60
    client, passed = app.test_client(), set()
    client.set_cookie(HOST, site.settings.cookie, site.cookie_of("anna"))
    with contextlib.closing(reading):
        for rule in rules:
            path = re.sub("<[^>]*>", "x", rule.rule.replace("<int:number>", "5").replace("<int:concept>", "5"))
            try:
                assert client.get(path, base_url=f"http://{HOST}/").status_code != 500, path
            except OfficeNeeded:
                passed.add(rule.rule)
    assert passed == PASSED
