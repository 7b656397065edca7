"""Matches with concepts elsewhere: how their addresses are typed, found and followed; and what small things say."""
from __future__ import annotations

from typing import Any

import pytest
from asking import done, link, post, view
from clients import Site, text_of
from processes import Running
from reader import Reader
from thesaurus_desk.store.plan_execution import Desk
from thesaurus_desk.words import Words
from thesaurus_tools.entities import entity_address

# Concepts of the sample.
VIOLINS, HARPS = 5, 11
HARP = "http://www.wikidata.org/entity/Q47369"


@pytest.mark.parametrize(
    "typed",
    [
        "Q47369",
        " Q47369 ",
        "wikidata.org/wiki/Q47369",
        "www.wikidata.org/wiki/Q47369",
        "https://www.wikidata.org/wiki/Q47369",
        "https://m.wikidata.org/wiki/Q47369/",
        "http://www.wikidata.org/entity/Q47369",
        "https://www.wikidata.org/wiki/Special:EntityPage/Q47369",
    ],
)
def test_an_item_of_wikidata_is_typed_as_it_is_copied(reader: Reader, desk: Desk, typed: str) -> None:
    page = reader.send(reader.get(f"/c/{HARPS}").form("add-match"), other=typed, kind="exact")
    assert page.status == 200
    assert [(kind, desk.replica.iri(other)) for kind, other in view(desk, HARPS).mappings] == [("exact", HARP)]


def test_other_addresses_stay_as_they_are() -> None:
    for text in ("http://vocab.getty.edu/aat/300041620", "Q0", "Quena", "Q8355 harp", "https://wikidata.org/wiki/P31"):
        assert entity_address(text) == text


def test_a_concept_of_that_name_is_meant(reader: Reader, desk: Desk) -> None:
    done(desk, {"do": "scheme", "tag": "en", "text": "Codes"})
    codes = desk.replica.numbers("scheme")[-1]
    made = done(desk, {"do": "concept", "scheme": codes, "tag": "en", "text": "Q47369"}).made
    reader.send(reader.get(f"/c/{HARPS}").form("add-match"), other="Q47369", kind="close")
    assert view(desk, HARPS).mappings == (("close", made),)


def match(desk: Desk, kind: str = "exact", number: int = HARPS, iri: str = HARP) -> None:
    """Matches a concept with one elsewhere."""
    done(desk, {"do": "outside", "iri": iri}, link("link", kind, number, "$1"))


def test_the_target_of_a_match_opens_and_its_page_is_a_second_link(site: Site, desk: Desk) -> None:
    match(desk)
    page = site.client("rita").get(f"/c/{HARPS}")
    (number,) = (other for _, other in view(desk, HARPS).mappings)
    assert f'<a href="{HARP}" rel="noopener noreferrer" dir="ltr">{HARP}</a>' in page.text
    assert f'href="/c/{number}"' in page.text and "its page here" in text_of(page)


def test_search_finds_addresses_of_matches(site: Site, desk: Desk) -> None:
    match(desk)
    ben = site.client("ben")
    for query in (HARP, "Q47369", "wikidata.org/wiki/Q47369"):
        assert ben.http.get("/search", query_string={"q": query}).headers["Location"] == f"/c/{HARPS}", query
    match(desk, "broad", VIOLINS, "https://id.loc.gov/authorities/subjects/sh85059101")
    match(desk, "close", HARPS, "https://id.loc.gov/authorities/subjects/sh85059101")
    page = ben.get("/search?q=sh85059101")
    assert page.status_code == 200 and "By the URI of a mapping" in page.text
    assert f'href="/c/{HARPS}"' in page.text and f'href="/c/{VIOLINS}"' in page.text
    assert "broader match" in text_of(page).lower()
    assert "By the URI" not in ben.get("/search?q=59101").text, "a part of an identifier is another one"


def test_an_exact_hit_leads_to_all_results(site: Site, desk: Desk) -> None:
    done(desk, {"do": "concept", "scheme": 1, "tag": "en", "text": "Violins of old"})
    ben = site.client("ben")
    there = ben.get("/search?q=violins").headers["Location"]
    assert there == f"/c/{VIOLINS}?q=violins"
    assert 'href="/search?q=violins&amp;all=1"' in ben.get(there).text
    both = ben.get("/search?q=violins&all=1")
    assert both.status_code == 200 and "Violins of old" in both.text
    assert "All results" not in ben.get(f"/c/{VIOLINS}").text


def test_keys_that_programs_make_are_not_shown(reader: Reader, desk: Desk) -> None:
    """A hash of 32 digits says nothing; its page has it."""
    key = "0123456789abcdef" * 2
    done(desk, post(key, VIOLINS), post("M-17", HARPS))
    page, page_of_harps = reader.get(f"/c/{VIOLINS}"), reader.get(f"/c/{HARPS}")
    assert key not in page.html and Words("en")("concept.posting", n=1) in page.text
    assert "M-17" in page_of_harps.text and key in reader.get("/posting/1").text


@pytest.mark.needs("chromium", "chromedriver", "selenium")
def test_enter_sends_what_was_typed(hand: Any, guide_desk: Running) -> None:
    """Nothing is chosen of the suggestions until somebody chooses it."""
    hand.open("/new")
    field = hand.driver.find_element("css selector", "[data-suggest=pick]")
    hand.reach(field)
    hand.type_keys("vio")
    shown = "return [...document.querySelectorAll('.suggestions:not([hidden]) li')].length"
    hand.wait(lambda: hand.driver.execute_script(shown), "suggestions")
    chosen = "return document.querySelectorAll('.suggestions li[aria-selected=true]').length"
    assert hand.driver.execute_script(chosen) == 0
    hand.type_keys("\ue015")
    assert hand.driver.execute_script(chosen) == 1


def test_search_finds_parts_of_words_and_notes(site: Site, desk: Desk) -> None:
    note = {"do": "addLabel", "owner": HARPS, "kind": "scope", "tag": "en", "text": "Of the Middle Ages."}
    done(desk, note)
    ben = site.client("ben")
    page = ben.get("/search?q=iolin")
    assert "Within words and in notes" in page.text and f'href="/c/{VIOLINS}"' in page.text
    page = ben.get("/search?q=middle ages")
    assert "Of the Middle Ages." in page.text and f'href="/c/{HARPS}"' in page.text
    assert "2 results for “middle ages”" in text_of(page), "all that is below counts, in each of its parts"
    nothing = ben.get("/search?q=zzzz").text
    assert "Within words" not in nothing and "0 results for" in nothing
