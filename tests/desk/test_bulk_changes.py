"""Tests what is done with many concepts at once: lists with ticks, and rows that *Import* shows and performs."""
from __future__ import annotations

import csv
import html
import io
import re
from typing import Any

import pytest
from clients import Client, Site, text_of
from test_changes import number
from thesaurus_desk.journal.rights import Rights, write_rights

BOWED = ("Violins", "Violas", "Cellos")


@pytest.fixture
def anna(site: Site) -> Client:
    return site.client("anna")


def some(site: Site, *terms: str) -> list[int]:
    """Returns the numbers of concepts."""
    return [number(site, it) for it in terms]


def send(client: Client, ticked: list[int], listed: str = "1-40", **fields: Any) -> Any:
    """Sends the form of a list with ticks."""
    ticks = {"form": "bulk", "list": listed, "concept": [str(it) for it in ticked], "back": "/az"}
    return client.post("/bulk", {**ticks, **fields})


def done(client: Client, page: Any) -> Any:
    """Does the rows of a preview."""
    offered = re.search(r'name="offered" value="([^"]*)"', page.text)
    rows = re.findall(r'name="row" value="([0-9]+)"', page.text)
    assert offered and rows, text_of(page)
    found = re.search(r'name="name" value="([^"]+)"', page.text)
    assert found
    answer = client.post("/bring-in/table/perform", {"name": found[1], "offered": offered[1], "row": rows})
    return client.get(answer.headers["Location"])


@pytest.mark.parametrize(
    ("path", "names"),
    [
        ("/search?q=violins&all=1&format=ticks", {"Violins"}),
        ("/search?q=iolin&all=1&format=ticks", {"Violins"}),
        ("/search?q=plucked-lexically&all=1&format=ticks", {"Lutes"}),
        ("/search?q=sh85059101&all=1&format=ticks", {"Drums"}),
        ("/tree?scheme=1&format=ticks", {*BOWED, "Drums"}),
        ("/changed-since?since=2000-01-01&format=ticks", {"Harps"}),
        ("/az?letter=v&format=ticks", {"Violins", "Violas"}),
        ("/lists/unused?scheme=1&format=ticks", {"Harps", "Drums"}),
        ("/lists/field/definition?format=ticks", {"Violins", "Harps", "Drums"}),
        ("/lists/work/candidates?format=ticks", {"Harps"}),
        ("/bulk?below=4", {*BOWED, "Double basses", "Fiddles"}),
    ],
)
def test_each_list_has_ticks(site: Site, anna: Client, path: str, names: set[str]) -> None:
    status = {
        "do": "set",
        "owner": number(site, "Harps"),
        "field": "status",
        "tag": "",
        "old": None,
        "new": "candidate",
    }
    note = {**status, "owner": number(site, "Lutes"), "field": "generalNote", "tag": "en", "new": "plucked-lexically"}
    outside = {"do": "outside", "iri": "http://id.loc.gov/authorities/subjects/sh85059101"}
    mapping = {"do": "link", "kind": "exact", "a": number(site, "Drums"), "b": "$3"}
    assert site.desk.perform("anna", "work", [status, note, outside, mapping]).is_done
    page = anna.get(path)
    assert page.status_code == 200
    found = set(re.findall(r'name="concept" value="[0-9]+"> <span dir="auto">([^<]+)</span>', page.text))
    assert names <= {html.unescape(it) for it in found}, found
    plain = anna.get(path.replace("format=ticks", ""))
    assert "format=ticks" in plain.text or path.startswith("/bulk")
    for user in ("rita", "ina"):
        answer = site.client(user).get(path)
        assert answer.status_code == 403 or 'name="concept"' not in answer.text


def test_the_members_of_a_collection_have_ticks(site: Site, anna: Client) -> None:
    collection = make_collection(site, *some(site, "Harps", "Lutes"))
    page = anna.get(f"/bulk?members={collection}")
    assert re.findall(r'value="[0-9]+"> <span dir="auto">([^<]+)</span>', page.text) == ["Harps", "Lutes"]
    assert f"/bulk?members={collection}" in anna.get(f"/c/{collection}").text


def make_collection(site: Site, *members: int) -> int:
    """Makes a collection."""
    made = site.desk.perform(
        "anna",
        "new_collection",
        [
            {"do": "collection", "scheme": 1, "tag": "en", "text": "Loans"},
            *({"do": "link", "kind": "member", "a": "$1", "b": it} for it in members),
        ],
    )
    assert made.made
    return made.made


def test_a_branch_is_moved_and_taken_back_as_one(site: Site, anna: Client) -> None:
    ticked, drums = some(site, *BOWED), number(site, "Drums")
    before = [site.desk.replica.resource(it).broader for it in ticked]
    page = send(anna, ticked, act="move", above="Drums")
    assert "Preview – 3 concepts: move below Drums" in text_of(page) and "3 rows change something." in page.text
    assert [site.desk.replica.resource(it).broader for it in ticked] == before
    assert "3 rows were done." in done(anna, page).text
    # (each keeps the type of its place)
    assert [{**site.desk.replica.resource(it).broader} for it in ticked] == [{drums: it[4]} for it in before]
    first = site.desk.history.recent(most=1)[0].first
    assert "3 concepts: move below Drums" in text_of(anna.get("/changes"))
    form = {"form": "back", "last": str(site.desk.journal.last_plan())}
    assert anna.post(f"/changes/{first}/back", form).status_code == 303
    assert [site.desk.replica.resource(it).broader for it in ticked] == before


def test_a_merge_says_how_many_records_move(site: Site, anna: Client) -> None:
    violins, fiddles, violas = some(site, "Violins", "Fiddles", "Violas")
    there = site.desk.replica.postings.count_records_at(fiddles)
    posts = [{"do": "post", "key": f"b{it}", "record": f"Fiddle {it}", "concept": fiddles} for it in range(3)]
    assert site.desk.perform("anna", "index", posts).is_done
    page = send(anna, [violins, fiddles, violas], act="merge", into="Violins")
    text = " ".join(text_of(page).split())
    assert f"{there + 3} records move to another concept." in text and f"{there + 3} records move with it" in text
    assert "2 rows change something." in text, text
    assert "2 rows were done." in done(anna, page).text
    assert [site.desk.replica.final(it) for it in (fiddles, violas)] == [violins, violins]


def test_what_is_refused_is_shown_for_each(site: Site, anna: Client) -> None:
    harps, violins = some(site, "Harps", "Violins")
    post = {"do": "post", "key": "b1", "record": "A violin", "concept": violins}
    assert site.desk.perform("anna", "index", [post]).is_done
    page = send(anna, [harps, violins], act="deprecate")
    text = " ".join(text_of(page).split())
    assert "1 row changes something." in text and "Violins Not done:" in text, text
    done(anna, page)
    assert not site.desk.replica.is_live(harps) and site.desk.replica.is_live(violins)


@pytest.mark.parametrize("act", ["merge", "deprecate"])
def test_rights_are_those_of_the_single_acts(site: Site, act: str) -> None:
    """An editor merges no concept with records; the button is there where those without may be merged."""
    ben, ticked = site.client("ben"), some(site, "Harps")
    if act == "merge":
        post = {"do": "post", "key": "b1", "record": "Harp", "concept": ticked[0]}
        assert site.desk.perform("anna", "index", [post]).is_done
    assert (f'value="{act}"' in ben.get("/bulk?below=9").text) == (act == "merge")
    write_rights(site.desk.journal, Rights(without_records=False))
    assert f'value="{act}"' not in ben.get("/bulk?below=9").text
    write_rights(site.desk.journal, Rights())
    page = send(ben, ticked, act=act, into="Guitars")
    assert "Your role may not do this here" in text_of(page) and "/bring-in/table/perform" not in page.text
    assert send(site.client("ina"), ticked, act="move", above="Drums").status_code == 403
    if act == "merge":
        merged = some(site, "Lutes")
        assert "1 row was done." in done(ben, send(ben, [*ticked, *merged], act=act, into="Guitars")).text
        assert [site.desk.replica.is_live(it) for it in (*ticked, *merged)] == [True, False]


def test_terms_notes_fields_statuses_and_collections(site: Site, anna: Client) -> None:
    ticked, collection = some(site, "Harps", "Lutes"), make_collection(site)
    asked: list[dict[str, Any]] = [
        {"act": "collect", "collection": "Loans"},
        {"act": "status", "status": "candidate"},
        {"act": "term", "kind": "alt", "term_tag": "en", "term": "Plucked thing|Thing"},
        {"act": "add", "field": "scope", "text_tag": "en", "text": "To be looked at."},
        {"act": "add", "field": "definition", "text_tag": "en", "text": "First | one."},
        {"act": "add", "field": "definition", "text_tag": "en", "text": "Second."},
        {"act": "set", "field": "historyNote", "text_tag": "en", "text": "Old."},
        {"act": "set", "field": "historyNote", "text_tag": "en", "text": "New."},
    ]
    for fields in asked:
        page = done(anna, send(anna, ticked, **fields))
        assert "2 rows were done." in page.text, (fields, text_of(page))
    for it in ticked:
        one, held = site.desk.replica.resource(it), site.desk.values.of(it)
        assert {
            ("alt", "en", "Plucked thing"),
            ("alt", "en", "Thing"),
            ("scope", "en", "To be looked at."),
        } <= one.labels
        assert one.collections == {collection}
        texts = {name: [value.text for value in its] for name, its in held.items()}
        assert texts == {"status": ["candidate"], "definition": ["First | one.", "Second."], "historyNote": ["New."]}
    done(anna, send(anna, ticked, act="status", status="approved"))
    assert not any("status" in site.desk.values.of(it) for it in ticked)


def test_those_that_are_ticked_as_a_table(site: Site, anna: Client) -> None:
    page = send(anna, some(site, "Lutes", "Harps"), act="table")
    rows = list(csv.DictReader(io.StringIO(page.text.removeprefix("\ufeff"))))
    assert [it["term"] for it in rows] == ["Harps", "Lutes"]


def test_ticks_are_carried_as_ranges(site: Site, anna: Client) -> None:
    """A list of more than a page, of which all are ticked by one button; then one on another page isn't."""
    terms = [{"do": "concept", "scheme": 1, "tag": "en", "text": f"Lyre {it:04}"} for it in range(1200)]
    assert site.desk.perform("anna", "new_concept", terms, may_cut=True).is_done
    first, last = number(site, "Lyre 0000"), number(site, "Lyre 1199")
    page = send(anna, [], f"{first}-{last}", tick="all", page="0")
    assert "1,200 of 1,200 ticked" in text_of(page) and page.text.count("checked") == 100
    kept, shown = (re.search(rf'name="{it}" value="([^"]*)"', page.text) for it in ("kept", "shown"))
    assert kept and shown and kept[1] == f"{first + 100}-{last}" and page.text.count("<input") < 200
    ticked = list(range(first + 1, first + 100))
    sent = {"kept": kept[1], "shown": shown[1], "act": "move", "above": "Harps"}
    page = send(anna, ticked, f"{first}-{last}", **sent)
    assert "1,199 rows change something." in text_of(page), text_of(page)[-500:]


@pytest.mark.parametrize(
    ("fields", "said"),
    [
        ({"concept": [], "act": "move", "above": "Drums"}, "No concept is ticked."),
        ({"act": "move", "above": ""}, "The field is empty."),
        ({"act": "move", "above": "Nothing like it"}, "Nothing like it"),
        ({"act": "term", "kind": "alt", "term_tag": "en", "term": ""}, "Type a text"),
        ({"act": "add", "field": "scope", "text_tag": "en", "text": " "}, "Type a text"),
        ({"act": "add", "field": "definition", "text_tag": "en", "text": " "}, "Type a text"),
    ],
)
def test_what_is_wrong_is_said_and_the_ticks_stay(site: Site, anna: Client, fields: dict[str, Any], said: str) -> None:
    page = send(anna, some(site, "Harps"), **fields)
    assert page.status_code == 409 and said in text_of(page), text_of(page)
    assert ("checked" in page.text) == ("concept" not in fields)


@pytest.mark.parametrize(
    "fields",
    [{"act": "fly"}, {"act": "status", "status": "no status"}, {"act": "add", "field": "no field", "text": "x"}],
)
def test_what_no_page_asks_for(site: Site, anna: Client, fields: dict[str, str]) -> None:
    assert send(anna, some(site, "Harps"), **fields).status_code == 400
