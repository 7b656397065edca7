"""A form that is sent twice acts once, whoever sends it how often, at once or after the desk was killed."""
from __future__ import annotations

import re
import sqlite3
import threading
from collections.abc import Callable
from concurrent.futures import ThreadPoolExecutor
from pathlib import Path
from typing import Any

import pytest
from clients import Client, Site, hold_up_once, site_of, text_of
from reader import read_page
from test_changes import label, number, perform
from test_proposals import propose
from thesaurus_desk.store.plan_execution import Desk

PAGES = (
    *("/c/5", "/c/1", "/new", "/new/collection", "/c/5/move", "/c/5/merge?other_number=6", "/record?name=x"),
    *("/bring-in", "/propose?concept=5", "/users", "/me", "/changes", "/c/5/records"),
)


def once(client: Client, path: str) -> str:
    """Returns the key that the forms of a page carry."""
    found = re.search(r'name="once" value="([^"]+)"', client.get(path).text)
    assert found
    return found[1]


def send_twice(client: Client, path: str, form: dict[str, str]) -> set[str]:
    """Sends a form twice at the same time, and returns where it led."""
    gate, token = threading.Barrier(2), client.token()

    def send(_: int) -> str:
        gate.wait()
        answer = client.site.client(client.name)
        answer.http = client.site.app.test_client()
        answer.keep(client.site.cookie_of(client.name))
        sent = answer.post(path, form, token=answer.token())
        assert sent.status_code == 303, text_of(sent)
        return str(sent.headers["Location"])

    assert token
    with ThreadPoolExecutor(2) as pool:
        return set(pool.map(send, range(2)))


def test_each_form_carries_a_key(site: Site) -> None:
    """A new one for each page."""
    anna = site.client("anna")
    made = propose(site.client("rita"), concept=str(number(site, "Harps")), kind="alt", text="Harps and more")
    keys = set()
    for path in (*PAGES, f"/proposals/{made}"):
        forms = [it for it in read_page(anna.get(path).text).forms if it.method == "post"]
        its = {it.value("once") for it in forms}
        assert forms and len(its) == 1 and None not in its, path
        keys |= its
    assert len(keys) == len(PAGES) + 1


@pytest.mark.parametrize(
    ("page", "path", "form", "count"),
    [
        ("/new/collection", "/new/collection", {"scheme": "1", "text": "Room 9", "sure": "1"}, "collection"),
        ("/new/scheme", "/new/scheme", {"text": "Places", "sure": "1"}, "scheme"),
        ("/record?name=Harp", "/record/add", {"record": "Harp", "other": "Harps", "key": "h-1"}, ""),
        ("/c/5", "/c/5/comments", {"text": "Are they old?"}, ""),
        ("/propose", "/propose", {"kind": "words", "reason": "More lutes."}, ""),
    ],
)
def test_a_form_that_is_sent_twice_at_once(site: Site, page: str, path: str, form: dict[str, str], count: str) -> None:
    """It acts once, and both are led to the same page."""
    anna, desk = site.client("anna"), site.desk
    before = len(desk.replica.numbers(count)) if count else 0
    places = send_twice(anna, path, {"form": "new", "tag": "en", **form, "once": once(anna, page)})
    assert len(places) == 1, places
    if count:
        assert len(desk.replica.numbers(count)) == before + 1
    assert len(desk.replica.postings.of_record("Harp")) == (path == "/record/add")
    assert len(desk.proposals.comments(5)) == (path == "/c/5/comments")
    assert desk.proposals.count_open() == (path == "/propose")


def test_the_same_page_with_another_text(site: Site) -> None:
    """Whoever returns to a page and writes something else is heard; so is the author of a form that was refused."""
    anna = site.client("anna")
    key = once(anna, "/c/5")
    for text in ("Fine fiddles", "Fine fiddles", "Old fiddles"):
        form = {"form": "add-term", "kind": "alt", "tag": "en", "text": text, "once": key}
        assert anna.post("/c/5/terms/add", form).status_code == 303
    view = site.desk.replica.view(5)
    assert view and {("en", "Fine fiddles"), ("en", "Old fiddles")} <= set(view.alt)
    assert len(site.desk.history.recent()) == 2
    form = {"form": "add-term", "kind": "alt", "tag": "en", "text": "Last fiddles", "once": key}
    hold = pytest.MonkeyPatch()
    hold_up_once(site.desk, hold)
    assert anna.post("/c/5/terms/add", form).status_code == 409
    hold.undo()
    assert anna.post("/c/5/terms/add", form).status_code == 303
    assert ("en", "Last fiddles") in site.desk.replica.view(5).alt  # type: ignore[union-attr]


def test_another_person_sends_the_same(site: Site) -> None:
    """A key is its page's, and nobody is led to what another one has sent."""
    key = once(site.client("anna"), "/c/5")
    for name in ("anna", "ben"):
        assert site.client(name).post("/c/5/comments", {"text": "Old?", "once": key}).status_code == 303
    assert [it.user for it in site.desk.proposals.comments(5)] == ["anna", "ben"]


def test_a_form_that_is_sent_again_to_another_desk(
    site: Site, open_desk: Callable[[Path], Desk], users: Path, monkeypatch: pytest.MonkeyPatch
) -> None:
    """The one before was killed after it had performed the form, and before it said so."""
    anna, desk = site.client("anna"), site.desk
    forms = [
        ("/c/5/terms/add", {"form": "add-term", "kind": "alt", "tag": "en", "text": "X", "once": once(anna, "/c/5")}),
        ("/c/5/comments", {"text": "Are they old?", "once": once(anna, "/c/5")}),
    ]
    monkeypatch.setattr("thesaurus_desk.web.form_keys.note_result", lambda form, answer: None)
    for path, form in forms:
        assert anna.post(path, form).status_code == 303
    monkeypatch.undo()
    desk.stop()
    again = site_of(open_desk(desk.db), users)
    for path, form in forms:
        assert again.client("anna").post(path, form).headers["Location"] == "/changes"
    assert len(again.desk.history.recent()) == 1 and len(again.desk.proposals.comments(5)) == 1


def test_two_people_index_a_record_at_once(site: Site, monkeypatch: pytest.MonkeyPatch) -> None:
    """The second is told that it is indexed already."""
    gate, ask = threading.Barrier(2), site.desk.alone

    def wait_for_both() -> Any:
        gate.wait(5)
        monkeypatch.setattr(site.desk, "alone", ask)
        return ask()

    monkeypatch.setattr(site.desk, "alone", wait_for_both)
    clients = [site.client(it) for it in ("ina", "ben")]
    tokens = [it.token() for it in clients]

    def add(place: int) -> int:
        form = {"form": "add", "record": "Harp", "other": "Harps", "key": f"h-{place}"}
        return clients[place].post("/record/add", form, token=tokens[place]).status_code

    with ThreadPoolExecutor(2) as pool:
        assert sorted(pool.map(add, range(2))) == [303, 409]
    assert len(site.desk.replica.postings.of_record("Harp")) == 1


def test_what_a_full_disk_says(site: Site, monkeypatch: pytest.MonkeyPatch) -> None:
    """Of comments, of proposals and of what closes a plan: what was written isn't lost, and can be sent again."""

    def fail(*given: Any) -> Any:
        raise sqlite3.OperationalError("database or disk is full")

    anna = site.client("anna")
    made = propose(site.client("rita"), kind="words", text="")
    forms: list[tuple[str, dict[str, str]]] = [
        ("/c/5/comments", {"text": "Are they old?"}),
        ("/propose", {"form": "propose", "kind": "words", "reason": "More lutes.", "tag": "en"}),
        (f"/proposals/{made}/accept", {"form": "accept", "word": "Yes."}),
        (f"/proposals/{made}/decline", {"form": "decline", "word": "No."}),
        (f"/changes/{perform(site, label(site, 'Fine violins'))}/close", {}),
    ]
    monkeypatch.setattr(site.desk.journal, "writing", fail)
    for path, form in forms:
        answer = anna.post(path, {**form, "once": "k"})
        page = text_of(answer)
        assert answer.status_code == 503 and "whether the disk is full" in page and "nothing was changed" in page, path
        kept = {name: value for it in read_page(answer.text).forms if it.action == path for name, value in it.fields}
        assert form.items() <= kept.items() and kept["once"] != "k", path
    monkeypatch.undo()
    for path, form in (forms[0], forms[3]):
        assert anna.post(path, form).status_code == 303
