"""Tests files that several plans bring in: each is one entry of the journal, and is taken back as one; one that was cut
short is named, and goes on; and the same file twice is said before."""
from __future__ import annotations

import csv
import io
import re
from collections.abc import Callable
from pathlib import Path
from typing import Any

import pytest
from clients import Client, Site, site_of, text_of
from test_bring_in import anna, perform, send  # noqa: F401 (anna is a fixture)
from test_changes import number
from thesaurus_desk.importing.request_series import RequestSeries
from thesaurus_desk.journal import Draft
from thesaurus_desk.store.plan_execution import Desk
from whole import resources

ROWS = b"Term,BT\nKotos,Harps\nVihuelas,Violins\nHarps,Violins\nTheorbos,Kotos\n"
# A vocabulary of three plans.
COUNT = 130
TRIPLES = (
    "".join(
        f'<http://x.example/{it}> <{{core}}prefLabel> "Term {it:03}"@en .\n'
        f"<http://x.example/{it}> <http://www.w3.org/1999/02/22-rdf-syntax-ns#type> <{{core}}Concept> .\n"
        f"<http://x.example/{it}> <{{core}}broader> <http://x.example/{it // 2}> .\n"
        for it in range(1, COUNT + 1)
    )
    .replace("{core}", "http://www.w3.org/2004/02/skos/core#")
    .replace("<http://x.example/0>", "<http://x.example/1>")
)
SKOS = "\n".join(it for it in TRIPLES.splitlines() if it.split()[0] != it.split()[2]).encode()


def bring_table(client: Client) -> Any:
    """Brings a table in."""
    page = send(client, "/bring-in/table", ROWS, "new terms.csv", kind="new", tag="en")
    return perform(client, page, "/bring-in/table/perform")


def preview_skos(client: Client) -> Any:
    """Sends a vocabulary."""
    page = send(client, "/bring-in/skos", SKOS, "terms.nt", tag="en", title="Terms")
    assert page.status_code == 200, text_of(page)
    return page


def made(desk: Desk) -> list[int]:
    """Returns the live concepts of the vocabulary."""
    hits = (desk.replica.named(f"Term {it:03}", live=True) for it in range(1, COUNT + 1))
    return [hit.number for found in hits for hit in found]


def entries(client: Client) -> list[str]:
    """Returns the entries of the journal's page."""
    page = client.get("/changes").text.partition('<ul class="changes">')[2]
    return [" ".join(re.sub("<[^>]*>", " ", it).split()) for it in page.split('<li id="plan-')[1:]]


def test_a_table_is_one_entry_and_is_taken_back_as_one(site: Site, anna: Client) -> None:  # noqa: F811
    assert "3 rows were done." in bring_table(anna).text
    (entry,) = entries(anna)
    assert "Table “new terms.csv”: 6 changes. 1 row was refused." in entry and entry.count("Undo") == 1
    plans = site.desk.history.recent()
    assert len(plans) == 3 and {it.first or it.id for it in plans} == {plans[-1].id}
    parts = anna.get(f"/changes?part_of={plans[-1].id}").text
    assert parts.count('<li id="plan-') == 3 and "Theorbos" in parts
    back = anna.get(f"/changes/{plans[0].id}/back")
    assert back.status_code == 200 and "Kotos" in text_of(back) and "Theorbos" in text_of(back)
    assert anna.post(f"/changes/{plans[0].id}/back", {"form": "back", "last": str(plans[0].id)}).status_code == 303
    assert not [it for it in ("Kotos", "Vihuelas", "Theorbos") if site.desk.replica.named(it, live=True)]
    assert len(entries(anna)) == 2


def test_refused_rows_stay_a_table(site: Site, anna: Client) -> None:  # noqa: F811
    """Also after a new start; when they are corrected, they are brought in."""
    bring_table(anna)
    with site.desk.journal.transaction() as table:
        table.execute("DELETE FROM upload")
    (path,) = re.findall(r'href="(/changes/[0-9]+/refused\.csv)"', anna.get("/changes").text)
    heading, row = csv.reader(io.StringIO(anna.get(path).text.removeprefix("\ufeff")))
    assert heading == ["Term", "BT", "reason"] and row[:2] == ["Harps", "Violins"] and "Harps" in row[2]
    corrected = f"{','.join(heading)}\nLap harps,Violins,{row[2].replace(',', ' ')}\n"
    page = send(anna, "/bring-in/table", corrected.encode(), kind="new", tag="en")
    assert "1 row was done." in perform(anna, page, "/bring-in/table/perform").text
    assert (
        anna.get("/changes").text.count("/refused.csv") == 1 and anna.get("/changes/999/refused.csv").status_code == 404
    )
    assert site.client().get(path).status_code in (302, 303, 401, 403)


def test_the_same_table_is_said_before(anna: Client) -> None:  # noqa: F811
    said = "The same file was imported before, as “new terms.csv”, by anna"
    assert said not in text_of(bring_table(anna))
    page = send(anna, "/bring-in/table", ROWS, "other.csv", kind="new", tag="en")
    assert said in " ".join(text_of(page).split())


@pytest.mark.parametrize("is_in_use", [False, True], ids=["free", "in use"])
def test_a_vocabulary_is_one_entry_and_is_taken_back_as_one(
    site: Site, anna: Client, is_in_use: bool  # noqa: F811
) -> None:
    """With the reason why it isn't, where records are indexed with what it made."""
    answer = perform(anna, preview_skos(anna), "/bring-in/skos/perform")
    assert answer.status_code == 303 and len(made(site.desk)) == COUNT
    plans = site.desk.history.recent()
    (entry,) = entries(anna)
    assert len(plans) > 2 and "Vocabulary “terms.nt”: " in entry and "changes." in entry
    if is_in_use:
        post = {"do": "post", "key": "k", "record": "R", "concept": made(site.desk)[3]}
        assert site.desk.perform("ina", "index", [post]).is_done
    last = str(site.desk.journal.last_plan())
    back = anna.post(f"/changes/{plans[-1].id}/back", {"form": "back", "last": last})
    if is_in_use:
        assert back.status_code == 409 and len(made(site.desk)) == COUNT
        assert "By now, records are indexed with one of its concepts: Term 004" in " ".join(text_of(back).split())
    else:
        assert back.status_code == 303 and not made(site.desk)


def test_the_same_vocabulary_is_asked_for_before(site: Site, anna: Client) -> None:  # noqa: F811
    perform(anna, preview_skos(anna), "/bring-in/skos/perform")
    page = preview_skos(anna)
    assert "The same file was imported before, as “terms.nt”, by anna" in " ".join(text_of(page).split())
    before = len(resources(site.desk.replica))
    refused = perform(anna, page, "/bring-in/skos/perform")
    assert refused.status_code == 409 and 'name="again"' in refused.text
    assert len(resources(site.desk.replica)) == before
    assert perform(anna, refused, "/bring-in/skos/perform", again="1").status_code == 303
    assert len(made(site.desk)) == 2 * COUNT


class Killed(Exception):
    """The desk ends in the middle."""


def cut_after(parts: int, monkeypatch: pytest.MonkeyPatch) -> None:
    """Has the desk end after some parts of a file."""
    whole, done = RequestSeries.perform, iter(range(parts))

    def cut(self: RequestSeries, requests: Any) -> Any:
        if next(done, None) is None:
            raise Killed
        return whole(self, requests)

    monkeypatch.setattr(RequestSeries, "perform", cut)


def cut_short(site: Site, monkeypatch: pytest.MonkeyPatch, start: Callable[[Client], Any], parts: int) -> None:
    """Begins to bring a file in, which the end of the desk cuts short."""
    with monkeypatch.context() as patch:
        cut_after(parts, patch)
        assert start(site.client("anna")).status_code == 500
    site.desk.stop()


@pytest.mark.parametrize("way", ["go on", "take back"])
def test_a_vocabulary_that_was_cut_is_named(
    way: str,
    site: Site,
    users: Path,
    monkeypatch: pytest.MonkeyPatch,
    open_desk: Callable[[Path], Desk],
) -> None:
    """On the first page after the start, with both ways to end that; and the same file isn't brought in unasked."""
    cut_short(site, monkeypatch, lambda it: perform(it, preview_skos(it), "/bring-in/skos/perform"), 1)
    again = site_of(open_desk(site.desk.db), users)
    head, rita = again.client("anna"), again.client("rita")
    page = head.get("/")
    said = "The import of “terms.nt” by anna"
    assert said in " ".join(text_of(page).split()) and said not in rita.get("/").text
    assert 0 < len(made(again.desk)) < COUNT
    assert 'name="again"' in preview_skos(head).text and "It was cut short." in text_of(preview_skos(head))
    plan = re.search(r"/bring-in/go-on/(\d+)", page.text)
    assert plan and f'href="/changes/{plan[1]}/back' in page.text
    assert again.client("ben").post(f"/bring-in/go-on/{plan[1]}", {}).status_code == 403
    if way == "go on":
        answer = head.post(f"/bring-in/go-on/{plan[1]}", {})
        assert answer.status_code == 303 and len(made(again.desk)) == len(set(made(again.desk))) == COUNT
        view = again.desk.replica.view(number(again, "Term 130"))
        assert view and view.broader == (number(again, "Term 065"),)
        assert "It was cut short" not in entries(head)[0]
    else:
        last = str(again.desk.journal.last_plan())
        assert head.post(f"/changes/{plan[1]}/back", {"form": "back", "last": last}).status_code == 303
        assert not made(again.desk)
    assert said not in " ".join(text_of(head.get("/")).split())
    assert head.post(f"/bring-in/go-on/{plan[1]}", {}).status_code == 409


def test_a_table_that_was_cut_goes_on(
    site: Site, users: Path, monkeypatch: pytest.MonkeyPatch, open_desk: Callable[[Path], Desk]
) -> None:
    """What is left of it is shown first."""
    cut_short(site, monkeypatch, bring_table, 1)
    again = site_of(open_desk(site.desk.db), users)
    head = again.client("anna")
    plan = re.search(r"/bring-in/go-on/(\d+)", head.get("/").text)
    assert plan
    page = head.post(f"/bring-in/go-on/{plan[1]}", {})
    assert page.status_code == 200 and "2 rows change something." in page.text
    assert "2 rows were done." in perform(head, page, "/bring-in/table/perform").text
    assert {number(again, it) for it in ("Kotos", "Vihuelas", "Theorbos")} and "/go-on/" not in head.get("/").text
    assert len([it for it in entries(head) if "new terms.csv" in it]) == 1


def test_taking_back_that_was_cut_goes_on(
    site: Site, users: Path, monkeypatch: pytest.MonkeyPatch, open_desk: Callable[[Path], Desk]
) -> None:
    """A vocabulary is taken back by several plans, of which the desk has performed the first."""
    anna, part, plans = site.client("anna"), Desk.perform_part, iter([None])  # noqa: F811
    perform(anna, preview_skos(anna), "/bring-in/skos/perform")
    first = min(it.id for it in site.desk.history.recent())

    def cut(desk: Desk, draft: Draft) -> Any:
        next(plans)  # (there is one, and then none)
        return part(desk, draft)

    with monkeypatch.context() as patch:
        patch.setattr(Desk, "perform_part", cut)
        form = {"form": "back", "last": str(site.desk.journal.last_plan())}
        assert anna.post(f"/changes/{first}/back", form).status_code == 500
    site.desk.stop()
    again = site_of(open_desk(site.desk.db), users)
    head, said = again.client("anna"), "Undoing a change was cut short (anna,"
    page = head.get("/")
    assert said in " ".join(text_of(page).split()) and 0 < len(made(again.desk)) < COUNT
    plan = re.search(r"/bring-in/go-on/(\d+)", page.text)
    assert plan and "It was cut short" in entries(head)[0]
    assert again.client("ben").post(f"/bring-in/go-on/{plan[1]}", {}).status_code == 403
    assert head.post(f"/bring-in/go-on/{plan[1]}", {}).headers["Location"].startswith("/changes?done=")
    assert not made(again.desk) and said not in " ".join(text_of(head.get("/")).split())
    assert len(entries(head)) == 2 and "One change in 2 parts." in entries(head)[0]
    assert head.post(f"/bring-in/go-on/{plan[1]}", {}).status_code == 409


def test_a_part_of_an_older_import_on_which_a_later_one_rests(site: Site, anna: Client) -> None:  # noqa: F811
    """An earlier desk brought each part in as a change of its own."""
    first = site.desk.perform("anna", "skos", [{"do": "concept", "scheme": 1, "tag": "en", "text": "Kotos"}])
    kotos = {"do": "link", "kind": "broader", "a": "$1", "b": first.made}
    later = site.desk.perform("anna", "skos", [{"do": "concept", "scheme": 1, "tag": "en", "text": "Big kotos"}, kotos])
    last = str(site.desk.journal.last_plan())
    back = anna.post(f"/changes/{first.plan}/back", {"form": "back", "last": last})
    assert back.status_code == 409 and "Later parts of the same import depend on this one." in text_of(back)
    assert anna.post(f"/changes/{later.plan}/back", {"form": "back", "last": last}).status_code == 303
    last = str(site.desk.journal.last_plan())
    assert anna.post(f"/changes/{first.plan}/back", {"form": "back", "last": last}).status_code == 303
