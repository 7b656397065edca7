"""Finding: search and suggestions, A to Z, the tree, schemes, collections, work lists, tables, displays, languages."""
from __future__ import annotations

import csv
import io
import re
from collections.abc import Callable
from pathlib import Path

import pytest
from asking import done, link
from clients import Client, Site, site_of, text_of
from thesaurus_desk.store.plan_execution import Desk
from thesaurus_desk.web.app import path_of_page
from werkzeug.test import TestResponse

VIOLINS, BOWED, STRINGS = 5, 4, 3


@pytest.fixture
def anna(site: Site) -> Client:
    """The browser of the head."""
    return site.client("anna")


def rows_of(answer: TestResponse) -> list[dict[str, str]]:
    """Returns the rows of a table."""
    assert answer.status_code == 200 and answer.mimetype == "text/csv" and answer.text.startswith("\ufeff")
    assert re.fullmatch(r'attachment; filename="[\w-]+\.csv"', answer.headers["Content-Disposition"])
    return list(csv.DictReader(io.StringIO(answer.text[1:])))


def suggested(client: Client, query: str) -> list[dict[str, object]]:
    """Returns the suggestions for what is typed."""
    answer = client.http.get("/suggest", query_string={"q": query, "kinds": "all"})
    assert answer.status_code == 200
    return list(answer.json)


@pytest.mark.parametrize(
    "query",
    ["violi", "VIOLINS", "viölins", "geigen", "Violinen", "5", "#5", "https://thesaurus.example/id/5", "vioilns"],
)
def test_suggestions(anna: Client, query: str) -> None:
    assert VIOLINS in [it["number"] for it in suggested(anna, query)]


def test_a_suggestion_says_what_is_meant(anna: Client) -> None:
    by_number = {it["number"]: it for it in suggested(anna, "str")}
    assert by_number[STRINGS] == {
        "number": STRINGS,
        "text": "String instruments",
        "tag": "en",
        "pref": "String instruments",
        "note": "in Musical instruments",
        "href": f"/c/{STRINGS}",
    }
    assert by_number[BOWED]["text"] == "Streichinstrumente" and by_number[BOWED]["pref"] == "Bowed instruments"
    assert "collection" in [it["note"] for it in by_number.values()]
    for query in ("", " ", "zzzzzz", "'\"<>&", "x" * 5000, "\x00"):
        assert suggested(anna, query) == []


def test_dead_concepts_and_old_codes(site: Site, anna: Client) -> None:
    requests = [
        {"do": "addLabel", "owner": VIOLINS, "kind": "hidden", "tag": "en", "text": "MI-0815"},
        {"do": "deprecate", "concept": 30},
    ]
    for it in requests:
        assert site.desk.perform("anna", "try", [it]).is_done, it
    assert [it["number"] for it in suggested(anna, "mi-0815")] == [VIOLINS]
    assert "MI-0815" not in anna.get("/suggest?q=mi-0815").text, "a code is found, and its term is shown"
    assert anna.get("/search?q=MI-0815").headers["Location"] == f"/c/{VIOLINS}"
    assert [it["note"] for it in suggested(anna, "messiah")][0] in ("deprecated", "in Violins · deprecated")
    assert anna.get("/suggest?q=messiah&live=1").json == []


def test_search_leads_to_what_is_named(anna: Client) -> None:
    for query in ("violins", "Geigen", "5", "#5", "https://thesaurus.example/id/5"):
        assert anna.http.get("/search", query_string={"q": query}).headers["Location"] == f"/c/{VIOLINS}", query
    page = anna.get("/search?q=instruments")
    assert "results for “instruments”" in text_of(page) and 'href="/c/3"' in page.text
    alike = anna.get("/search?q=vioilns")
    assert "Nothing is called “vioilns”" in text_of(alike) and 'href="/c/5"' in alike.text
    nothing = anna.get("/search?q=zzzzzz")
    assert "Nothing was found" in text_of(nothing) and 'href="/new?text=zzzzzz"' in nothing.text
    assert 'href="/new?text=' not in anna.site.client("rita").get("/search?q=zzzzzz").text
    assert anna.get("/search?q=stri&in=de").status_code == 200 and anna.get("/search").status_code == 200


def test_records_are_found(site: Site, anna: Client) -> None:
    record = "Violin, Jacob Stainer, Absam 1668"
    assert site.desk.perform(
        "anna", "post", [{"do": "post", "key": "M1", "record": record, "concept": VIOLINS}]
    ).is_done
    assert any(it["text"] == record and it["note"] == "record" for it in suggested(anna, "violin, ja"))
    assert anna.http.get("/search", query_string={"q": record}).headers["Location"].startswith("/record?name=Violin%2C")
    assert record in text_of(anna.get("/search?q=stainer"))
    public = site_of(site.desk, site.entry.accounts.path, is_public=True)  # type: ignore[union-attr]
    assert (
        record
        not in public.client().get("/search?q=stainer").text + public.client().get("/suggest?q=stainer&kinds=all").text
    )


def test_a_to_z(anna: Client) -> None:
    page = anna.get("/az?letter=v")
    assert [it for it in ("Violas", "Violins", "Violoncellos") if it in text_of(page)] == [
        "Violas",
        "Violins",
        "Violoncellos",
    ]
    assert 'class="use-for"' in page.text and 'aria-current="page">V' in page.text
    assert "Geigen" not in page.text
    anna.get("/language?terms=de&next=/az")
    assert "Geigen" in anna.get("/az?letter=g").text
    assert anna.get("/az?letter=%3Cb%3E").status_code == 200


def test_the_tree_opens(anna: Client) -> None:
    top = anna.get("/tree").text
    assert "String instruments" in top and "Violins" not in top
    assert 'class="at"' in anna.get(f"/tree?at={VIOLINS}").text and "Messiah" in anna.get(f"/tree?at={VIOLINS}").text
    branch = anna.get(f"/tree/{BOWED}").text
    assert (
        branch.lstrip().startswith("<ul>") and "Violins" in branch and "<html" not in branch and "partitive" in branch
    )
    for path in ("/tree/1", "/tree/999", "/tree/x", "/tree?at=999", "/tree?scheme=x"):
        assert anna.get(path).status_code in (200, 404)


def test_the_tree_of_what_has_ended_is_open_below_a_single_top(site: Site, anna: Client) -> None:
    for other in set(site.desk.replica.tops(1)) - {2}:
        done(site.desk, link("link", "broader", other, 2))
    done(site.desk, {"do": "merge", "source": 31, "target": VIOLINS})
    assert all("String instruments" in anna.get(it).text for it in ("/tree", "/tree?at=31"))


def test_the_tree_begins_with_the_largest_thesaurus(site: Site, anna: Client) -> None:
    plan = [
        {"do": "scheme", "tag": "en", "text": "A small thesaurus"},
        {"do": "concept", "scheme": "$1", "tag": "en", "text": "Alone"},
    ]
    made = site.desk.perform("anna", "new", plan)
    page = anna.get("/tree").text.split("<main")[1]
    assert "String instruments" in page and "Alone" not in page
    assert page.index("A small thesaurus") < page.index('aria-current="page"'), "they are in the order of their names"
    assert "Alone" in anna.get(f"/tree?scheme={made.number(1)}").text


def test_a_thesaurus_is_saved_as_skos(site: Site, anna: Client) -> None:
    plan = [
        {"do": "scheme", "tag": "en", "text": "Places & Länder"},
        {"do": "concept", "scheme": "$1", "tag": "en", "text": "Absam"},
    ]
    made = site.desk.perform("anna", "new", plan).number(1)
    for path in ("/tree", "/schemes", "/c/1"):
        assert 'href="/export.ttl?scheme=1"' in anna.get(path).text and "/export.nt?scheme=1" in anna.get(path).text
    answer = anna.get("/export.ttl?scheme=1")
    assert answer.mimetype == "text/turtle" and "Violins" in answer.text and "Absam" not in answer.text
    assert answer.headers["Content-Disposition"] == 'attachment; filename="musical-instruments.ttl"'
    answer = anna.get(f"/export.nt?scheme={made}")
    assert answer.mimetype == "application/n-triples" and "Absam" in answer.text and "Violins" not in answer.text
    assert answer.headers["Content-Disposition"] == 'attachment; filename="places-lander.nt"'
    for path in ("/export.ttl?scheme=5", "/export.ttl?scheme=999", "/export.nt?scheme=x", "/export.xml"):
        assert anna.get(path).status_code == 404, path


def test_schemes_and_collections(anna: Client) -> None:
    assert "30 concepts, 1 top concept" in text_of(anna.get("/schemes"))
    page = anna.get("/collections")
    assert "Instruments of the string quartet" in text_of(page) and "Cellos" in text_of(page)


def numbers_of(client: Client, path: str) -> list[int]:
    """Returns the numbers in a table."""
    return [int(it["identifier"]) for it in rows_of(client.get(path))]


def test_work_lists(site: Site, anna: Client) -> None:
    def perform(**request: object) -> int:
        return site.desk.perform("anna", "try", [request]).made or 0

    lonely = perform(do="concept", scheme=1, tag="en", text="Lonely")
    other = perform(do="concept", scheme=1, tag="en", text="LONÉLY")
    for key, concept in (("A", VIOLINS), ("B", VIOLINS), ("C", STRINGS)):
        perform(do="post", key=key, record=key, concept=concept)
    assert sorted(numbers_of(anna, "/lists/orphans?format=csv")) == [lonely, other]
    assert sorted(numbers_of(anna, "/lists/alike?format=csv")) == [lonely, other]
    assert numbers_of(anna, "/lists/busiest?format=csv") == [VIOLINS, STRINGS]
    unused = numbers_of(anna, "/lists/unused?format=csv")
    assert lonely in unused and VIOLINS not in unused and STRINGS not in unused and BOWED not in unused
    assert sorted(numbers_of(anna, "/lists/untranslated?in=de&format=csv")) == [lonely, other]
    for kind in ("untranslated", "orphans", "alike", "unused", "busiest"):
        page = anna.get(f"/lists/{kind}?in=de")
        assert page.status_code == 200 and f'href="/c/{VIOLINS if kind == "busiest" else lonely}"' in page.text, kind
        assert anna.get(f"/lists/{kind}?scheme=1&page=9").status_code == 200
    assert "2 groups" not in text_of(anna.get("/lists/alike")) and "1 group" in text_of(anna.get("/lists/alike"))
    assert "Similar terms 1 " in " ".join(text_of(anna.get("/lists")).split())
    assert anna.get("/lists").status_code == 200 and anna.get("/lists/other").status_code == 404


def test_lists_count_each_record_once(site: Site, anna: Client) -> None:
    """As the page of a concept does: two records are more than one with three postings."""
    for key, record, concept in (
        ("A", "r", VIOLINS),
        ("B", "r", VIOLINS),
        ("C", "r", VIOLINS),
        ("D", "r", STRINGS),
        ("E", "s", STRINGS),
    ):
        site.desk.perform("ina", "post", [{"do": "post", "key": key, "record": record, "concept": concept}])
    rows = rows_of(anna.get("/lists/busiest?format=csv"))
    assert [(int(it["identifier"]), it["records"]) for it in rows] == [(STRINGS, "2"), (VIOLINS, "1")]
    shown = " ".join(text_of(anna.get("/lists/busiest")).split())
    assert "String instruments 2 Split Violins 1 Split " in shown and "1 record " in text_of(anna.get(f"/c/{VIOLINS}"))


def test_a_list_is_translated_where_it_is(site: Site, anna: Client) -> None:
    """Each concept has its field; a term that is refused leads there from the concept."""
    made = [
        site.desk.perform("anna", "try", [{"do": "concept", "scheme": 1, "tag": "en", "text": it}]).made for it in "AB"
    ]
    path = "/lists/untranslated?in=de"
    assert f'action="/c/{made[0]}/terms/add"' not in site.client("ina").get(path).text
    page = anna.get(path).text
    assert page.count('aria-label="Preferred term of ') == 2 and " autofocus" not in page
    kept = dict(re.findall(r'type="hidden" name="(form|kind|tag|next)" value="([^"]*)"', page.split("<main")[1]))
    answer = anna.post(f"/c/{made[0]}/terms/add", {**kept, "text": "Geigen"})
    again = dict(re.findall(r'type="hidden" name="(next)" value="([^"]*)"', answer.text))
    assert answer.status_code == 409 and again == {"next": path} and 'value="Geigen"' in answer.text
    answer = anna.post(f"/c/{made[0]}/terms/add", {**kept, "text": "Altes"})
    assert answer.headers["Location"].startswith(f"{path}&done=")
    page = anna.get(answer.headers["Location"]).text
    assert "Altes" in page and page.count('aria-label="Preferred term of ') == page.count(" autofocus>") == 1
    view = site.desk.replica.view(made[0] or 0)
    assert view and ("de", "Altes") in view.pref
    out = anna.post(f"/c/{made[1]}/terms/add", {**kept, "text": "Neues", "next": "https://evil.example/"})
    assert out.headers["Location"].startswith("/?done=")


@pytest.mark.parametrize(
    ("path", "page"),
    [
        ("/c/5/terms/add", "/c/5"),
        ("/c/5/move", "/c/5/move"),
        ("/bring-in/postings", "/bring-in"),
        ("/record/add", "/record"),
    ],
)
def test_another_language_after_a_refusal_leads_to_the_page(site: Site, anna: Client, path: str, page: str) -> None:
    answer = anna.post(path, {"form": "x", "kind": "pref", "tag": "en", "text": "Violins", "other": "?", "record": "r"})
    assert answer.status_code == 409 and f'href="/language?pages=de&amp;next={page}"' in answer.text
    assert anna.get(f"/language?pages=de&next={page}").headers["Location"] == page
    assert anna.get(page).status_code == 200


def test_each_form_of_a_concept_leads_back_to_its_page(site: Site, anna: Client) -> None:
    assert site.desk.perform("anna", "post", [{"do": "post", "key": "k", "record": "r", "concept": VIOLINS}]).is_done
    forms = {*re.findall(rf'method="post" action="(/c/{VIOLINS}/[^"]*)"', anna.get(f"/c/{VIOLINS}").text)}
    assert len(forms) > 5
    for path in sorted(forms):
        with site.app.test_request_context(path, method="POST"):
            assert path_of_page() == f"/c/{VIOLINS}", path


def test_terms_alike_are_shown(site: Site, anna: Client) -> None:
    """A concept's own term needn't be the one that is alike."""
    for kind, tag, text in (("alt", "de", "Harfe"), ("alt", "en", "Harp"), ("alt", "fr", "Harpe")):
        for owner, its in ((VIOLINS, text), (STRINGS, text.upper())):
            label = {"do": "addLabel", "owner": owner, "kind": kind, "tag": tag, "text": its}
            assert site.desk.perform("anna", "try", [label]).is_done
    page = " ".join(text_of(anna.get("/lists/alike")).split())
    assert "1 group" in page
    assert "String instruments 3 : HARFE de , HARP en , HARPE fr Violins 5 : Harfe de , Harp en , Harpe fr" in page


def test_tables(site: Site, anna: Client) -> None:
    assert site.desk.perform("anna", "try", [{"do": "concept", "scheme": 1, "tag": "en", "text": "=1+1"}]).is_done
    for path in (
        "/search?q=instruments&format=csv",
        "/az?letter=v&format=csv",
        "/tree?format=csv",
        "/schemes?format=csv",
        "/collections?format=csv",
        "/print/4?format=csv",
        "/c/32/members.csv",
        "/changed-since?since=2026&format=csv",
    ):
        assert rows_of(anna.get(path)), path
    violins = next(it for it in rows_of(anna.get("/tree?format=csv")) if it["identifier"] == "5")
    assert violins["term"] == "Violins" and violins["broader terms"] == "Bowed instruments"
    assert violins["URI"] == "https://thesaurus.example/id/5" and violins["state"] == "in use"
    assert "'=1+1" in [it["term"] for it in rows_of(anna.get("/lists/orphans?format=csv"))], "no formula"


def test_displays(anna: Client) -> None:
    outline = text_of(anna.get("/print/4"))
    assert (
        outline.index("Bowed instruments") < outline.index("Violins") < outline.index("Messiah")
        and "Guitars" not in outline
    )
    page = text_of(anna.get("/print/1?form=alphabetical&in=de&notes=1"))
    assert re.search(r"Violinen\s+BS\s+Geigen", page), "a term that isn't used leads to the one to use"
    assert re.search(r"Geigen\s+BF\s+Violinen\s+OB\s+Streichinstrumente", page)
    for path in ("/print/32", "/print/999", "/print/1?form=other", "/print/1?in=xx"):
        assert anna.get(path).status_code == 404, path


def test_languages(site: Site) -> None:
    client = site.client("anna")
    assert (
        'html lang="en"' in client.get("/keys").text
        and 'html lang="de"' in client.get("/keys", Accept_Language="de-AT").text
    )
    assert client.get("/language?pages=fr&next=/keys").headers["Location"] == "/keys"
    assert (
        'html lang="fr"' in client.get("/keys", Accept_Language="de").text
        and "Arborescence" in client.get("/keys").text
    )
    assert "Geigen" not in client.get("/tree?at=5").text.split("<main")[1]
    client.get("/language?terms=de")
    assert "Geigen" in client.get("/tree?at=5").text and "Arborescence" in client.get("/tree?at=5").text
    for bad in ("/language?pages=xx", "/language?terms=%00", "/language"):
        assert "Set-Cookie" not in client.get(bad).headers
    assert "français" in client.get("/languages").text


def test_the_first_page_says_what_was_done(site: Site, anna: Client) -> None:
    plan = site.desk.perform(
        "anna", "add", [{"do": "addLabel", "owner": VIOLINS, "kind": "alt", "tag": "en", "text": "Fidd <b>"}]
    ).plan
    assert "Fidd <b>" in text_of(anna.get("/")) and "<b>" not in anna.get("/").text.split("<main")[1]
    assert 'class="said"' in anna.get(f"/tree?done={plan}").text
    for query in ("done=999", "done=x", "done=", "done=-1", "done=" + "9" * 30):
        assert 'class="said"' not in anna.get(f"/tree?{query}").text
    assert 'class="said"' not in site.client("ben").get(f"/tree?done={plan}").text, "that was somebody else"


def test_an_empty_store(program: str, open_desk: Callable[[Path], Desk], users: Path, tmp_path: Path) -> None:
    empty = site_of(open_desk(tmp_path / "empty.db"), users).client("anna")
    for path in (
        "/",
        "/tree",
        "/az",
        "/collections",
        "/schemes",
        "/lists",
        "/lists/alike",
        "/search?q=x",
        "/suggest?q=x",
    ):
        assert empty.get(path).status_code == 200, path
    assert "An empty thesaurus" in text_of(empty.get("/")) and 'href="/new' in empty.get("/").text
