"""Tests long tables, which are tried and performed while their readers do something else: how far each is, that it can
be left and come back to, that others work meanwhile, and what a kill leaves of it."""
from __future__ import annotations

import re
import shutil
import threading
import time
from collections.abc import Callable, Iterator
from pathlib import Path
from typing import Any

import pytest
from clients import Client, Site, site_of, text_of
from test_bring_in import perform, send
from test_changes import number
from thesaurus_desk.importing.request_series import RequestSeries
from thesaurus_desk.store import open_store, run_threads
from thesaurus_desk.store.plan_execution import Desk, Outcome
from thesaurus_desk.store.undo_run import size_of_part
from thesaurus_desk.web import background, table_pages

OpenDesk = Callable[[Path], Desk]
COUNT, BEFORE, WAIT = 30, 4, 60.0
ROWS = "Term,Note\n" + "".join(f"Zither {it:02},Note {it}\n" for it in range(COUNT))


@pytest.fixture
def anna(site: Site) -> Client:
    return site.client("anna")


class Held:
    """Rows of tables, which wait before one of them until the test lets them go on."""

    def __init__(self, row: int) -> None:
        self.row, self.count = row, 0
        self.is_there, self.may_go = threading.Event(), threading.Event()

    def wait(self) -> None:
        """Waits before the one row."""
        self.count += 1
        if self.count == self.row:
            self.is_there.set()
            assert self.may_go.wait(WAIT)


def hold_where_others_may(held: Held, monkeypatch: pytest.MonkeyPatch) -> None:
    """Has a desk wait there without the lock, as where another thread comes first."""
    let_others = Desk.let_others

    def hold(desk: Desk) -> None:
        let_others(desk)
        held.wait()

    monkeypatch.setattr(Desk, "let_others", hold)


@pytest.fixture
def held(monkeypatch: pytest.MonkeyPatch) -> Iterator[Held]:
    """A desk whose tables wait behind some rows."""
    found = Held(BEFORE + 1)
    monkeypatch.setattr(background, "PATIENCE", 0.0)
    monkeypatch.setattr(run_threads, "PACE", 0.0)
    hold_where_others_may(found, monkeypatch)
    yield found
    found.may_go.set()


def led(client: Client, answer: Any) -> str:
    """Returns the address to which an answer leads that shows how far a table is."""
    path = str(answer.headers.get("Location"))
    assert answer.status_code == 303 and path.startswith("/bring-in/run/"), text_of(answer)
    return path


def ended(site: Site, client: Client, path: str) -> Any:
    """Waits until a table is dealt with, and returns what its page leads to."""
    for it in [*site.desk.threads.under_way]:
        it.join(WAIT)
    page = client.get(path)
    return client.get(page.headers["Location"]) if page.status_code == 303 else page


def begin(site: Site, client: Client, rows: str = ROWS, **values: str) -> str:
    """Begins to perform a table, and returns the address of how far it is."""
    page = send(client, "/bring-in/table", rows.encode(), "zithers.csv", **{"kind": "new", "tag": "en", **values})
    shown = ended(site, client, led(client, page))
    return led(client, perform(client, shown, "/bring-in/table/perform", **all_rows(shown)))


def all_rows(page: Any) -> dict[str, Any]:
    """Returns the ticks of all rows of a preview."""
    return {"row": re.findall(r'name="row" value="([0-9]+)"', page.text), "offered": hidden(page, "offered")}


def hidden(page: Any, name: str) -> str:
    """Returns the value of a hidden field of a preview's form."""
    found = re.search(rf'name="{name}" value="([^"]*)"', page.text)
    assert found, text_of(page)
    return found[1]


def entries(client: Client) -> str:
    """Returns the text of the last changes."""
    return " ".join(text_of(client.get("/changes")).split())


def test_how_far_a_table_is_can_be_seen_and_left(site: Site, anna: Client, held: Held) -> None:
    path = begin(site, anna)
    assert held.is_there.wait(WAIT)
    page = anna.get(path)
    assert f"Rows done: {BEFORE + 1} of {COUNT}" in text_of(page), text_of(page)
    assert f'max="{COUNT}" value="{BEFORE + 1}"' in page.text and '<meta http-equiv="refresh"' in page.text
    listed = anna.get("/bring-in")
    assert f'href="{path}"' in listed.text and f"under way: {BEFORE + 1} of {COUNT}" in text_of(listed)
    assert "It is under way." in entries(anna) and "cut short" not in entries(anna)
    # (it is nobody else's)
    assert (
        site.client("ben").get(path).headers["Location"] == "/bring-in"
        and path not in site.client("ben").get("/bring-in").text
    )
    # (others change something meanwhile)
    label = {"do": "addLabel", "owner": number(site, "Harps"), "kind": "alt", "tag": "en", "text": "Meanwhile"}
    assert site.desk.perform("ben", "add_term", [label]).is_done
    held.may_go.set()
    page = ended(site, anna, path)
    assert f"{COUNT} rows were done." in text_of(page) and "ended" in text_of(anna.get("/bring-in"))
    assert entries(anna).count("Table “zithers.csv”") == 1 and "under way" not in entries(anna)
    assert site.desk.replica.count_concepts() == sum(1 for _ in site.desk.replica.numbers("concept", None, True))


def test_what_others_change_meanwhile_stays(site: Site, anna: Client, held: Held) -> None:
    """Of a row that isn't done yet; the others are done."""
    terms = ("Harps", "Violins", "Drums", "Lutes", "Cellos", "Violas", "Zithers", "Bows")
    them = [it for it in terms if site.desk.replica.named(it, live=True)]
    rows = "concept,broader\n" + "".join(f"{it},Keyboard instruments\n" for it in them)
    path = begin(site, anna, rows, kind="moves")
    assert held.is_there.wait(WAIT)
    last = number(site, them[-1])
    move = {"do": "link", "kind": "broader", "a": last, "b": number(site, "Percussion instruments")}
    assert site.desk.perform("ben", "link", [move]).is_done
    held.may_go.set()
    page = ended(site, anna, path)
    assert f"{len(them) - 1} rows were done." in text_of(page) and "The store has changed since" in text_of(
        page
    ), text_of(page)
    assert number(site, "Keyboard instruments") not in site.desk.replica.resource(last).broader


def copied(site: Site, folder: Path) -> Path:
    """Returns a copy of the desk's files as they are, which is what a kill leaves."""
    folder.mkdir()
    for it in site.desk.db.parent.glob(f"{site.desk.db.stem}*"):
        if it.is_file() and it.suffix != ".lock":
            shutil.copy(it, folder / it.name)
    return folder / site.desk.db.name


@pytest.mark.parametrize("how", ["killed", "ended"])
def test_what_a_kill_leaves_goes_on(
    how: str, site: Site, anna: Client, held: Held, open_desk: OpenDesk, users: Path, tmp_path: Path
) -> None:
    """What was done stays done, and is one entry; the page says how far it came; the rest is shown, and done."""
    path = begin(site, anna)
    assert held.is_there.wait(WAIT)
    if how == "killed":
        again = site_of(open_desk(copied(site, tmp_path / "killed")), users)
    else:
        threading.Timer(0.5, held.may_go.set).start()
        site.desk.stop()
        again = site_of(open_desk(site.desk.db), users)
    held.row = 0
    anna = again.client("anna")
    page = anna.get(path)
    (plan,) = [it.plan for it in again.desk.batches.cut()]
    assert f'action="/bring-in/go-on/{plan}"' in page.text and "cut short: " in text_of(anna.get("/bring-in"))
    assert "It was cut short." in entries(anna)
    done = len(again.desk.batches.rows_done(again.desk.batches.of(plan)))  # type: ignore[arg-type]
    assert BEFORE < done < COUNT
    shown = ended(again, anna, led(anna, anna.post(f"/bring-in/go-on/{plan}")))
    assert f"{COUNT - done} rows change something." in text_of(shown) and "0 rows were refused" in text_of(shown)
    path = led(anna, perform(anna, shown, "/bring-in/table/perform", **all_rows(shown)))
    assert f"{COUNT - done} rows were done." in text_of(ended(again, anna, path))
    assert len([it for it in range(COUNT) if again.desk.replica.named(f"Zither {it:02}", live=True)]) == COUNT
    assert entries(anna).count("Table “zithers.csv”") == 1 and "cut short" not in entries(anna)
    assert again.desk.journal.all("SELECT * FROM plan_row") == []


def test_what_is_killed_before_anything_is_done(
    site: Site, anna: Client, open_desk: OpenDesk, users: Path, tmp_path: Path, monkeypatch: pytest.MonkeyPatch
) -> None:
    held = Held(1)
    reached = RequestSeries.perform

    def hold(run: RequestSeries, requests: Any) -> Outcome:
        held.wait()
        return reached(run, requests)

    monkeypatch.setattr(background, "PATIENCE", 0.0)
    monkeypatch.setattr(RequestSeries, "perform", hold)
    path = begin(site, anna)
    assert held.is_there.wait(WAIT)
    again = site_of(open_desk(copied(site, tmp_path / "killed")), users)
    held.may_go.set()
    assert "before anything was changed" in text_of(again.client("anna").get(path))
    assert again.desk.batches.cut() == []
    ended(site, anna, path)


def test_a_long_preview_says_why_it_is_none(site: Site, anna: Client, monkeypatch: pytest.MonkeyPatch) -> None:
    monkeypatch.setattr(background, "PATIENCE", 0.0)
    page = send(anna, "/bring-in/table", b"Term\nKotos\n", kind="new")
    assert "--lang" not in text_of(page)
    page = ended(site, anna, led(anna, page))
    assert "This wasn’t finished." in text_of(page) and "language" in text_of(page)
    assert "not finished" in text_of(anna.get("/bring-in"))


def test_a_long_table_is_in_parts(site: Site, anna: Client, monkeypatch: pytest.MonkeyPatch) -> None:
    """With the ticks of all parts; and what came of it, too."""
    monkeypatch.setattr(table_pages, "SHOWN", 12)
    page = send(anna, "/bring-in/table", ROWS.encode(), kind="new", tag="en")
    assert "1 to 12 of 30" in text_of(page) and len(all_rows(page)["row"]) == 12
    name, first = hidden(page, "name"), all_rows(page)
    first["row"].remove("5")
    page = anna.post("/bring-in/table/perform", {"name": name, "left": "", "go": "2", **first})
    assert "25 to 30 of 30" in text_of(page) and hidden(page, "left") == "5"
    third = all_rows(page)
    third["row"].remove("31")
    page = anna.post("/bring-in/table/perform", {"name": name, "left": hidden(page, "left"), "go": "0", **third})
    assert hidden(page, "left") == "31" and 'value="5" form="perform">' in page.text
    assert page.text.count(" checked") == 11
    page = perform(anna, page, "/bring-in/table/perform", left="31", **first)
    assert "28 rows were done." in text_of(page) and "1 to 12 of 28" in text_of(page)
    (path,) = re.findall(r'href="(/bring-in/result/[^"]+page=1)"', page.text)
    assert "13 to 24 of 28" in text_of(anna.get(path))
    assert not site.desk.replica.named("Zither 03", live=True) and not site.desk.replica.named("Zither 29", live=True)


def test_no_more_than_some_at_a_time(anna: Client, monkeypatch: pytest.MonkeyPatch) -> None:
    """What was looked at is there until it is performed."""
    page = send(anna, "/bring-in/table", ROWS.encode(), kind="new", tag="en")
    monkeypatch.setattr(run_threads, "MOST", 0)
    for answer in (perform(anna, page, "/bring-in/table/perform"), send(anna, "/bring-in/table", ROWS.encode())):
        assert answer.status_code == 409 and "Nothing was changed" in text_of(answer), text_of(answer)
    monkeypatch.undo()
    assert perform(anna, page, "/bring-in/table/perform", **all_rows(page)).status_code == 200


def test_a_forgotten_run_leads_to_the_forms(anna: Client) -> None:
    assert anna.get("/bring-in/run/nothing").headers["Location"] == "/bring-in"


def test_others_come_between_two_rows(desk: Desk) -> None:
    """One that takes the lock again and again lets those have it that wait."""
    is_over, taken = threading.Event(), threading.Event()

    def perform_rows() -> None:
        while not is_over.is_set():
            with desk.alone():
                taken.set()
                time.sleep(0.02)
            desk.let_others()

    thread = threading.Thread(target=perform_rows)
    thread.start()
    assert taken.wait(WAIT)
    try:
        for _ in range(10):
            start = time.monotonic()
            with desk.alone() as is_free:
                assert is_free and time.monotonic() - start < open_store.WAIT_FOR_PLAN
    finally:
        is_over.set()
        thread.join()


# --- undoing a long change ---


@pytest.mark.parametrize(
    ("done", "count", "ends", "wanted"),
    [
        (0, 300, (44, 172, 300), 44),
        (44, 300, (44, 172, 300), 128),
        (0, 100, (20, 60), 100),
        (0, 200, (20, 60, 128, 150), 128),
        (20, 300, (20, 170), 128),
        (148, 300, (20, 170), 22),
        (0, 300, (), 128),
    ],
)
def test_a_part_undoes_whole_plans(done: int, count: int, ends: tuple[int, ...], wanted: int) -> None:
    """Only what undoes a single plan may be longer than a part."""
    assert size_of_part(done, count, ends) == wanted


def test_undoing_a_long_change_goes_on_beside_the_pages(
    site: Site, anna: Client, monkeypatch: pytest.MonkeyPatch
) -> None:
    """In parts, of which the last one done is that of 44 concepts; others change something meanwhile."""
    scheme, held = site.desk.replica.numbers("scheme")[0], Held(1)
    terms = [f"Zither {it:03}" for it in range(300)]
    requests = [{"do": "concept", "scheme": scheme, "tag": "en", "text": it} for it in terms]
    first = site.desk.perform("anna", "test", requests, may_cut=True).plan
    monkeypatch.setattr(background, "PATIENCE", 0.0)
    monkeypatch.setattr(run_threads, "PACE", 0.0)
    hold_where_others_may(held, monkeypatch)
    form = {"form": "back", "last": str(site.desk.journal.last_plan())}
    path = led(anna, anna.post(f"/changes/{first}/back", form))
    assert held.is_there.wait(WAIT)
    assert "Steps undone: 172 of 300" in text_of(anna.get(path))
    again = anna.post(f"/changes/{first}/back", form)
    assert again.headers["Location"].startswith("/changes?done="), "it is done once"
    label = {"do": "addLabel", "owner": number(site, "Harps"), "kind": "alt", "tag": "en", "text": "Meanwhile"}
    assert site.desk.perform("ben", "add_term", [label]).is_done
    held.may_go.set()
    assert "Undone" in text_of(ended(site, anna, path)) or "undone" in text_of(ended(site, anna, path))
    assert not any(site.desk.replica.named(it, live=True) for it in terms)
    assert "One change in 3 parts." in entries(anna) and "cut short" not in entries(anna)


def test_what_ends_an_undoing_says_why(site: Site, anna: Client, monkeypatch: pytest.MonkeyPatch) -> None:
    """A colleague has changed between two parts what the next one would undo: the rest stays, and is named."""
    scheme, held = site.desk.replica.numbers("scheme")[0], Held(1)
    requests = [{"do": "concept", "scheme": scheme, "tag": "en", "text": f"Zither {it:03}"} for it in range(300)]
    outcome = site.desk.perform("anna", "test", requests, may_cut=True)
    monkeypatch.setattr(background, "PATIENCE", 0.0)
    hold_where_others_may(held, monkeypatch)
    form = {"form": "back", "last": str(site.desk.journal.last_plan())}
    path = led(anna, anna.post(f"/changes/{outcome.plan}/back", form))
    assert held.is_there.wait(WAIT) and outcome.made
    assert site.desk.perform(
        "ben", "post", [{"do": "post", "key": "k", "record": "R", "concept": outcome.made}]
    ).is_done
    held.may_go.set()
    for it in [*site.desk.threads.under_way]:
        it.join(WAIT)
    page = anna.get(path)
    assert page.status_code == 200 and "Zither 000" in text_of(page), text_of(page)
    assert "It was cut short" in entries(anna) and "/bring-in/go-on/" in anna.get("/").text
