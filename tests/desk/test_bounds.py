"""What anyone may send is bounded: bodies, fields, sessions, keys, numbers and names that no form has."""
from __future__ import annotations

import io
import re
import threading
import time
from pathlib import Path

import pytest
from clients import AGAIN, HOST, Site, show_rows, site_of
from processes import running
from thesaurus_desk.auth.authentication import SingleUserEntry
from thesaurus_desk.auth.route_roles import MOST_FIELDS, MOST_OF_VISITORS
from thesaurus_desk.importing.tables import safe_ending
from thesaurus_desk.settings import Settings
from thesaurus_desk.store import worklists
from thesaurus_desk.store.changes import Change
from thesaurus_desk.store.open_store import MOST_WAITING, WAIT_FOR_LONG
from thesaurus_desk.store.plan_execution import Desk
from thesaurus_desk.store.replica import Replica

# The seconds after which something that should come never came, also on a machine that has other things to do.
PATIENCE = 60.0

# --- visitors ---


def test_the_form_of_a_visitor_is_bounded(site: Site) -> None:
    """A form without a session is shown again, field by field."""
    visitor = site.client()
    few = {f"field{n}": "x" for n in range(MOST_FIELDS - 5)}
    assert AGAIN in visitor.post("/propose", few, token="0").text
    many = {f"field{n}": "x" for n in range(MOST_FIELDS + 5)}
    long = {"comment": "x" * MOST_OF_VISITORS}
    for sent in (many, long):
        answer = visitor.post("/propose", sent, token="0")
        assert answer.status_code == 413 and len(answer.data) < MOST_OF_VISITORS
    assert AGAIN in site.client("ben").post("/propose", {**many, **long}, token="0").text, "nothing of it is lost"


def test_visitors_may_ask_the_interfaces_as_much(desk: Desk, users: Path) -> None:
    visitor = site_of(desk, users, is_public=True).client()
    for data, status in (({"queries": "{}"}, 200), ({"queries": " " * MOST_OF_VISITORS}, 413)):
        assert visitor.http.post("/reconcile", data=data, base_url=f"http://{HOST}/").status_code == status


def test_only_sessions_with_a_user_are_kept_as_ended(site: Site) -> None:
    for _ in range(3):
        assert site.client().post("/logout").status_code == 303
    assert site.entry.sessions.ended == {} and site.entry.log.last() == []
    client = site.client("ben")
    client.post("/logout")
    assert len(site.entry.sessions.ended) == 1 and site.entry.log.last()[0].name == "ben"


# --- alone ---


def test_a_key_is_good_once(desk: Desk) -> None:
    entry = SingleUserEntry("anna")
    new: list[str] = []
    entry.announce = new.append
    site = Site(desk, entry, Settings(frozenset({HOST})))
    key, first, second = entry.key, site.client(), site.client()
    assert first.get(f"/enter?key={key}").status_code == 200 and "anna" in first.get("/me").text
    assert second.get(f"/enter?key={key}").headers["Location"] == "/login"
    assert "the last address that it printed" in second.get("/login").text
    assert second.get("/me").status_code == 303, "the key was good once"
    assert first.get(f"/enter?key={key}").headers["Location"] == "/", "who is in may load the page again"
    assert len(new) == 1 and second.get(f"/enter?key={new[0]}").status_code == 200
    assert "anna" in second.get("/me").text


def test_the_next_key_is_printed(program: str, store: Path) -> None:
    with running("--db", store, "--alone", "anna", "--program", program) as desk:
        assert desk.ask("GET", desk.entrance)[0] == 200
        assert desk.process.stdout
        line = desk.process.stdout.readline()
        address = line.partition("the next time: ")[2].strip()
        assert desk.ask("GET", desk.entrance)[0] == 303
        status, _, fields = desk.ask("GET", address.partition(f":{desk.port}")[2])
        assert status == 200
        cookie = fields["Set-Cookie"].partition(";")[0]
        # (a page of another site, and one that has the address of this machine by a name of its own)
        form = {"Cookie": cookie, "Content_Type": "application/x-www-form-urlencoded"}
        assert desk.ask("POST", "/new", "token=x", Origin="https://evil.example", **form)[0] == 403
        assert desk.ask("GET", "/reconcile", Host=f"evil.example:{desk.port}", Cookie=cookie)[0] == 421


# --- what no form has ---


MARKS = {
    "no parts": "9" * 5000,
    "plan": f"1.labels.x.{'9' * 5000}",
    "number": f"{'9' * 5000}.labels.x.1",
    "sign": "²",
    "digit": "1.all.x.٣",
}


@pytest.mark.parametrize("mark", MARKS.values(), ids=MARKS)
def test_marks_that_no_form_has(site: Site, mark: str) -> None:
    number = site.desk.replica.numbers("concept")[0]
    sent = {"form": "term-add", "kind": "alt", "tag": "en", "text": "new", "seen": mark}
    assert site.client("ben").post(f"/c/{number}/terms/add", sent).status_code == 409


def test_names_of_files_that_no_path_has(site: Site) -> None:
    for name in ("table.\0csv", "table.c\0", "table." + "x" * 300, "table./x", "table.csv"):
        file = (io.BytesIO(b"Term,Scope note\nViolins,x\n"), name)
        answer = site.client("ben").post("/bring-in/table", {"form": "table", "file": file})
        assert answer.status_code in (200, 409), (name, answer.status_code)
    assert [safe_ending(it) for it in ("a.CSV", "a.tar.gz", "a.\0", "a.c/v", "a")] == [".csv", ".gz", "", "", ""]


# --- what takes long holds up nobody ---


def test_who_waits_for_the_writer_holds_few_threads(desk: Desk) -> None:
    """While an import runs, or the program stands still, two others wait; the rest is told at once to try again."""
    is_held, may_end, answered = threading.Event(), threading.Event(), threading.Semaphore(0)

    def hold() -> None:
        with desk.alone() as is_free:
            assert is_free
            is_held.set()
            may_end.wait(PATIENCE)

    def change(text: str) -> None:
        outcome = desk.perform("ben", "test", [{"do": "concept", "scheme": 1, "tag": "en", "text": text}])
        assert outcome.is_done or outcome.answer == {"fault": "Busy"}
        answered.release()

    threads = [threading.Thread(target=hold), *(threading.Thread(target=change, args=(f"New {n}",)) for n in range(8))]
    threads[0].start()
    assert is_held.wait(PATIENCE)
    start = time.monotonic()
    for it in threads[1:]:
        it.start()
    told = [answered.acquire(timeout=PATIENCE) for _ in range(8 - MOST_WAITING)]
    took = time.monotonic() - start
    may_end.set()
    for it in threads:
        it.join()
    assert all(told) and took < WAIT_FOR_LONG


def test_lists_hold_up_no_reader(desk: Desk, monkeypatch: pytest.MonkeyPatch) -> None:
    """A page of another reader is made while a list is."""
    store, waits = desk.replica, []

    def look() -> None:
        reader = threading.Thread(target=store.view, args=(5,), daemon=True)
        reader.start()
        reader.join(PATIENCE / 10)
        waits.append(reader.is_alive())

    def slow(store: Replica, scheme: int | None, lang: str) -> list[int]:
        look()
        return [5]

    monkeypatch.setitem(worklists.LISTS, "orphans", slow)
    assert worklists.count_list(store, "orphans") == 1 and waits == [False]
    assert worklists.make_list(store, "orphans", None, "en", ["en"]).numbers == [5] and len(waits) == 1, "it is kept"


def test_lists_with_many_languages(site: Site, desk: Desk) -> None:
    """As many languages as concepts: each label is looked at once."""
    show_rows(desk, (["insert", "label", 5, 1, f"x{n}-a", f"term {n}"] for n in range(3000)))
    start = time.process_time()
    found = worklists.count_untranslated(desk.replica, desk.replica.languages())
    assert time.process_time() - start < 5
    live = len(desk.replica.numbers("concept", None, True))
    assert (found["x7-a"], len(found)) == (live - 1, len(desk.replica.languages()))
    ben = site.client("ben")
    assert len(ben.get("/lists").data) < 100_000 < len(ben.get("/lists?languages=all").data)


# --- deep trees, and many languages ---


def test_a_deep_tree(site: Site, desk: Desk) -> None:
    """It is as deep as it is: nothing calls itself for each of its levels."""
    above, changes = 5, list[Change]()
    first = 1 + desk.replica.counts()["resources"]
    for number in range(first, first + 1200):
        changes.append(["insert", "resource", number, 2, 1, 1, None])
        changes.append(["insert", "label", number, 1, "en", f"Level {number}"])
        changes.append(["insert", "hier", number, above, 0])
        above = number
    show_rows(desk, changes)
    page = site.client("ben").get(f"/tree?at={above}")
    assert page.status_code == 200 and page.text.count(f"Level {above}<") == 1
    for name in ("ul", "li", "details"):
        assert len(re.findall(rf"<{name}\b", page.text)) == page.text.count(f"</{name}>"), name


def test_the_page_of_a_concept_in_many_languages(site: Site, desk: Desk) -> None:
    terms = ((kind, n, text) for n in range(5000) for kind, text in ((2, f"term {n}"), (1, f"preferred {n}")))
    show_rows(desk, (["insert", "label", 5, kind, f"x{n:04}", text] for kind, n, text in terms))
    page = site.client("ben").get("/c/5")
    assert page.status_code == 200 and len(page.data) < 500_000
    assert "more languages: show all" in page.text and 'href="/c/5?terms=all#terms"' in page.text
    assert "preferred 4999" not in page.text and "preferred 4999" in site.client("rita").get("/c/5?terms=all").text
