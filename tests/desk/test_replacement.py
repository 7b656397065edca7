"""Tests search and replace in terms and notes: what is found, shown, left out and performed."""
from __future__ import annotations

import html
import re
from typing import Any

import pytest
from clients import Client, Site, text_of
from test_bring_in import perform, result_of
from test_changes import number
from thesaurus_desk.importing.replacements import Replacement
from thesaurus_desk.journal.values import set_request
from thesaurus_desk.web.table_pages import SHOWN

PLACES = ["pref", "alt", "scope", "definition"]


@pytest.fixture
def anna(site: Site) -> Client:
    return site.client("anna")


@pytest.fixture
def wrong(site: Site) -> dict[str, int]:
    """Concepts with a misspelling: as a preferred term, a non-preferred one, a part of a word, a note, a definition."""
    harps, violins, drums = (number(site, it) for it in ("Harps", "Violins", "Drums"))
    requests: list[dict[str, Any]] = [
        {"do": "relabel", "owner": harps, "tag": "en", "text": "Musikal harps", "keep": False},
        {"do": "addLabel", "owner": violins, "kind": "alt", "tag": "en", "text": "The musikal violin"},
        {"do": "addLabel", "owner": violins, "kind": "hidden", "tag": "en", "text": "musikal violins"},
        {"do": "addLabel", "owner": drums, "kind": "alt", "tag": "en", "text": "Unmusikal drums"},
        {"do": "addLabel", "owner": drums, "kind": "alt", "tag": "de", "text": "Musikal-Trommel"},
        {"do": "addLabel", "owner": drums, "kind": "scope", "tag": "en", "text": "A musikal note; musikal twice."},
        set_request(drums, "definition", "en", new={"text": "Of musikal skin.", "source": "Old book"}),
    ]
    assert site.desk.perform("anna", "add_term", requests).is_done
    return {"harps": harps, "violins": violins, "drums": drums}


def ask(client: Client, **fields: Any) -> Any:
    """Sends the form of a replacement."""
    return client.post("/replace", {"form": "replace", "find": "musikal", "new": "musical", "places": PLACES, **fields})


def rows_of(page: Any) -> list[str]:
    """Returns the lines of the rows that are ticked."""
    return re.findall(r'name="row" value="([0-9]+)" form="perform" checked', page.text)


def test_each_text_is_shown_and_then_replaced(site: Site, anna: Client, wrong: dict[str, int]) -> None:
    page = ask(anna, tag="en")
    assert rows_of(page) == ["1", "2", "3", "4"], text_of(page)
    done = perform(anna, page, "/bring-in/table/perform")
    assert "4 rows were done." in done.text, text_of(done)
    harps, violins, drums = (site.desk.replica.resource(it) for it in wrong.values())
    assert ("pref", "en", "Musical harps") in harps.labels and ("alt", "en", "Musikal harps") not in harps.labels
    assert ("alt", "en", "The musical violin") in violins.labels and (
        "hidden",
        "en",
        "musikal violins",
    ) in violins.labels
    assert ("scope", "en", "A musical note; musical twice.") in drums.labels
    assert {("alt", "en", "Unmusikal drums"), ("alt", "de", "Musikal-Trommel")} <= drums.labels
    (value,) = site.desk.values.held(wrong["drums"], "definition")
    assert (value.text, value.source) == ("Of musical skin.", "Old book")
    (*_, first) = site.desk.history.recent(most=4)
    assert "Table “musikal → musical”" in html.unescape(anna.get("/changes").text) and first.user == "anna"


def test_all_is_one_entry_and_is_taken_back_as_one(site: Site, anna: Client, wrong: dict[str, int]) -> None:
    before = {it: (site.desk.replica.resource(it).labels, site.desk.values.of(it)) for it in wrong.values()}
    perform(anna, ask(anna), "/bring-in/table/perform")
    entry = site.desk.history.recent(most=1)[0]
    first = entry.first or entry.id
    form = {"form": "back", "last": str(site.desk.journal.last_plan())}
    assert anna.post(f"/changes/{first}/back", form).status_code == 303
    for it, (labels, values) in before.items():
        now = {name: [(one.tag, one.text, one.source) for one in its] for name, its in site.desk.values.of(it).items()}
        then = {name: [(one.tag, one.text, one.source) for one in its] for name, its in values.items()}
        assert (site.desk.replica.resource(it).labels, now) == (labels, then)


def test_what_is_unticked_stays(site: Site, anna: Client, wrong: dict[str, int]) -> None:
    page = ask(anna, tag="en")
    name, offered = (re.search(rf'name="{it}" value="([^"]+)"', page.text) for it in ("name", "offered"))
    assert name and offered and offered[1] == "1-4"
    # (in the order of their letters: a note, two terms; then the definition)
    sent = {"name": name[1], "offered": offered[1], "row": ["2", "4"]}
    done = result_of(anna, anna.post("/bring-in/table/perform", sent))
    assert "2 rows were done." in done.text
    harps, violins, drums = (site.desk.replica.resource(it) for it in wrong.values())
    assert ("pref", "en", "Musical harps") in harps.labels and ("alt", "en", "The musikal violin") in violins.labels
    assert ("scope", "en", "A musikal note; musikal twice.") in drums.labels
    assert [it.text for it in site.desk.values.held(drums.number, "definition")] == ["Of musical skin."]


def test_parts_of_words_and_old_terms(site: Site, anna: Client, wrong: dict[str, int]) -> None:
    page = ask(anna, parts="1", keep="1", places=["pref", "alt"])
    assert len(rows_of(page)) == 4, text_of(page)
    perform(anna, page, "/bring-in/table/perform")
    harps, _, drums = (site.desk.replica.resource(it) for it in wrong.values())
    assert {("pref", "en", "Musical harps"), ("alt", "en", "Musikal harps")} <= harps.labels
    assert {("alt", "en", "Unmusical drums"), ("alt", "de", "Musical-Trommel")} <= drums.labels


def test_a_term_that_is_there_already_isnt_added_again(site: Site, anna: Client) -> None:
    harps, violins = number(site, "Harps"), number(site, "Violins")
    labels = [(harps, "alt", "Harpes"), (violins, "alt", "Violines")]
    requests = [{"do": "addLabel", "owner": it, "kind": kind, "tag": "en", "text": text} for it, kind, text in labels]
    assert site.desk.perform("anna", "add_term", requests).is_done
    for old, new in (("Harpes", "Harps"), ("Violins", "Violines")):
        done = perform(anna, ask(anna, find=old, new=new, tag="en"), "/bring-in/table/perform")
        assert "1 row was done." in done.text, text_of(done)
    harp, violin = (site.desk.replica.resource(it).labels for it in (harps, violins))
    assert ("alt", "en", "Harpes") not in harp and ("pref", "en", "Harps") in harp
    assert [it for it in violin if it[1] == "en"] == [("pref", "en", "Violines")]


def test_a_term_that_another_concept_has_is_refused_before(site: Site, anna: Client) -> None:
    page = ask(anna, find="Harps", new="Violins", tag="en")
    assert "1 row was refused." in page.text and "has the preferred term" in text_of(page), text_of(page)


@pytest.mark.parametrize(
    ("fields", "said"),
    [
        ({"find": " "}, "Say what to search for."),
        ({"places": []}, "Tick where to replace it."),
        ({"find": "Nothing has this"}, "Nothing that is in use has"),
        ({"places": ["no field"]}, "Tick where to replace it."),
    ],
)
def test_what_is_wrong_is_said_beside_it(anna: Client, fields: dict[str, Any], said: str) -> None:
    page = ask(anna, **fields)
    assert page.status_code == 409 and said in text_of(page) and "musical" in page.text


def test_who_may_not_edit_has_no_such_page(site: Site) -> None:
    assert ask(site.client("ina")).status_code == 403


@pytest.mark.parametrize(
    ("is_whole", "text", "expected"),
    [
        (True, "The rat in the krater", "The cat in the krater"),
        (False, "The rat in the krater", "The cat in the kcater"),
        (True, "Rat, rats; Rat", "Cat, rats; Cat"),
        (True, "RAT", "RAT"),
        (True, "a.rat", "a.cat"),
    ],
)
def test_words_and_letters(is_whole: bool, text: str, expected: str) -> None:
    assert Replacement("rat", "cat", frozenset(), is_whole=is_whole).replaced(text) == expected


def test_as_many_as_there_are(site: Site, anna: Client) -> None:
    """Those behind the first part of the page, too."""
    harps, count = number(site, "Harps"), SHOWN + 20
    labels = [
        {"do": "addLabel", "owner": harps, "kind": "alt", "tag": "en", "text": f"Rare harp {it}"} for it in range(count)
    ]
    assert site.desk.perform("anna", "add_term", labels, may_cut=True).is_done
    page = ask(anna, find="rare", new="scarce", places=["alt"])
    assert len(rows_of(page)) == SHOWN and f"{count} rows change something." in text_of(page)
