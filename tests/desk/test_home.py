"""The first page: what waits for whom, what is new, and how an empty thesaurus begins."""
from __future__ import annotations

from collections.abc import Callable
from pathlib import Path

import pytest
from clients import Client, Site, site_of, text_of
from thesaurus_desk.journal.daily_counts import DailyCounts
from thesaurus_desk.store.plan_execution import Desk
from thesaurus_desk.web.pages import lists
from thesaurus_tools.values import set_request

VIOLINS = 5


@pytest.fixture
def anna(site: Site) -> Client:
    """The browser of a head."""
    return site.client("anna")


def words_of(client: Client, path: str = "/") -> str:
    """Returns the words of a page, with one space between them."""
    return " ".join(text_of(client.get(path)).partition("</head>")[0].split())


def test_the_search_is_in_the_middle_and_nowhere_else(anna: Client) -> None:
    page = anna.get("/").text
    head, _, main = page.partition('<main id="main"')
    assert page.count('id="q"') == 1 and 'id="q"' in main and 'id="q"' not in head
    assert main.index('id="q"') < main.index("<h2")
    assert 'id="q"' in anna.get("/tree").text.partition('<main id="main"')[0]


def test_the_tree_is_below_all_else(anna: Client) -> None:
    page = anna.get("/").text
    places = [page.index(f'id="home-{it}"') for it in ("work", "quality", "releases", "recent")]
    assert places == sorted(places) and places[-1] < page.index('href="/tree">Tree</a></h2>')


def test_a_visitor_sees_no_work(desk: Desk, users: Path) -> None:
    page = site_of(desk, users, is_public=True).client().get("/").text
    assert 'id="q"' in page and 'id="home-releases"' in page
    assert not any(f'id="home-{it}"' in page for it in ("work", "quality", "recent"))


def test_who_has_work_sees_it(site: Site, anna: Client) -> None:
    assert "Nothing waits for you." in words_of(anna)
    site.desk.perform("anna", "work", [set_request(VIOLINS, "person", "", new="anna")])
    assert "1 concept in your charge" in words_of(anna) and "Nothing waits for you." not in words_of(anna)
    assert "Nothing waits for you." in words_of(site.client("rita"))


def test_quality_is_what_was_counted_last(site: Site, anna: Client, monkeypatch: pytest.MonkeyPatch) -> None:
    """Counting takes long, so no page of a person waits for it."""

    def fail(*words: object) -> None:
        raise AssertionError("the first page counts")

    for name in ("count_quality", "count_list"):
        monkeypatch.setattr(lists, name, fail)
    assert "Nothing is counted yet" in words_of(anna)
    daily: DailyCounts = site.desk.daily_counts
    daily.note("2026-01-02", {"orphans": 7, "undefined": 31, "alike": 0, "concepts": 900})
    page = words_of(anna)
    assert "Counted on 2026-01-02:" in page and page.index("31") < page.index("Orphans 7")
    assert "900" not in page and "Similar terms 0" not in page
    daily.note("2026-01-03", {"orphans": 0})
    assert "were empty on 2026-01-03" in words_of(anna)


def test_the_last_release_is_named(site: Site, anna: Client) -> None:
    assert "There is no release yet." in words_of(anna)
    assert anna.post("/releases", {"name": "2026-1", "day": "2026-11-28"}).status_code == 303
    assert "Nothing has changed since 2026-1." in words_of(anna)
    site.desk.perform("anna", "add", [{"do": "addLabel", "owner": VIOLINS, "kind": "alt", "tag": "en", "text": "Fid"}])
    page = anna.get("/").text
    assert 'href="/releases/2026-1"' in page and 'href="/releases/present"' in page


def test_an_empty_thesaurus_has_three_ways_to_begin(
    open_desk: Callable[[Path], Desk], users: Path, tmp_path: Path, monkeypatch: pytest.MonkeyPatch
) -> None:
    site = site_of(open_desk(tmp_path / "empty.db"), users)
    page = site.client("anna").get("/").text
    for path in ("/new/scheme", "/bring-in"):
        assert f'href="{path}"' in page and site.client("anna").get(path).status_code == 200
    assert "tools/desk --sample" in page
    installed = tmp_path / "thesaurus-desk"
    installed.touch(0o755)
    monkeypatch.setenv("PATH", str(tmp_path), prepend=":")
    assert '<pre dir="ltr">thesaurus-desk --sample</pre>' in site.client("anna").get("/").text
    for name in ("ina", "rita"):
        assert (
            "An editor has to begin." in words_of(site.client(name))
            and "/new/scheme" not in site.client(name).get("/").text
        )


def test_an_empty_list_says_how_it_is_filled(
    program: str, open_desk: Callable[[Path], Desk], users: Path, tmp_path: Path
) -> None:
    ben = site_of(open_desk(tmp_path / "empty.db"), users).client("ben")
    for path, said in {
        "/tree": "The hierarchy begins with the first concept that an editor creates",
        "/az": "They are added at each concept",
        "/collections": "It groups concepts from anywhere in the hierarchy",
        "/lists/orphans": "The list fills by itself",
        "/lists/work/mine": "You aren’t in charge of any concept.",
        "/lists/work/due": "Nothing is due.",
        "/lists/work/candidates": "There is no candidate.",
        "/lists/work/revise": "No concept is to be revised.",
        "/lists/field/definition?have=yes": "It is filled in at the concept",
        "/lists/field/definition": "Each concept has it.",
    }.items():
        assert said in words_of(ben, path), path
