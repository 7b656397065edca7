"""The help: each page has its own, and the tasks can be searched, in three languages."""
from __future__ import annotations

import re

import pytest
from clients import Client, Site, text_of
from test_routes import routes
from thesaurus_desk.web.help_topics import KEYS, TOPICS
from thesaurus_desk.words import LANGUAGES, texts_of

# What a page of the desk isn't: answers for other programs, and files.
HELP = re.compile(r'<a class="help" href="/help/(\w+)" data-key="\?"')


def pages_of(site: Site) -> dict[str, str]:
    """Returns the pages that a head sees, by the addresses of their routes."""
    anna = site.client("anna")
    answers = {
        path: anna.get(path) for endpoint, path, _ in routes(site, False) if not endpoint.startswith("interfaces.")
    }
    return {path: it.text for path, it in answers.items() if it.status_code == 200 and it.mimetype == "text/html"}


def words_of(client: Client, path: str, language: str = "en") -> str:
    """Returns the words of a page in a language, with one space between them."""
    return " ".join(text_of(client.get(path, Accept_Language=language)).split())


def test_each_page_has_its_help(site: Site) -> None:
    pages = pages_of(site)
    assert len(pages) > 30
    # (a part of the tree has no head, and the preview for other programs is no page of the desk)
    lacking = [path for path, page in pages.items() if "<html" in page and not HELP.search(page)]
    assert lacking == []
    found = {path: HELP.search(page) for path, page in pages.items()}
    led = {path: it[1] for path, it in found.items() if it}
    assert set(led.values()) <= TOPICS.keys() and len(set(led.values())) > 20
    assert (led["/"], led["/az"], led["/tree"], led["/c/5"], led["/c/5/merge"]) == (
        "home",
        "az",
        "tree",
        "concept",
        "merge",
    )


@pytest.mark.parametrize("language", LANGUAGES)
@pytest.mark.parametrize("topic", TOPICS)
def test_the_help_of_a_page_is_whole(site: Site, topic: str, language: str) -> None:
    """It says what the page is for, three things that people get wrong, and its keys, all in the reader's language."""
    rita, texts = site.client("rita"), texts_of(language)
    answer = rita.get(f"/help/{topic}", Accept_Language=language)
    assert answer.status_code == 200 and f'<html lang="{language}"' in answer.text
    page = words_of(rita, f"/help/{topic}", language)
    for part in ("name", "purpose", "mistake1", "mistake2", "mistake3"):
        assert str(texts[f"help.{topic}.{part}"]) in page, part
    assert str(texts["home.key.search"]) in page and "help." not in page
    if language != "en":
        english = texts_of("en")
        assert not any(str(english[f"help.{topic}.{part}"]) in page for part in ("purpose", "mistake1", "mistake2"))


@pytest.mark.parametrize(
    ("language", "query", "found", "others"),
    [
        ("en", "UNDO", "Undo a change", "Start a thesaurus"),
        ("de", "rückgängig", "Eine Änderung rückgängig machen", "Einen Thesaurus beginnen"),
        ("de", "ruckgangig machen", "Eine Änderung rückgängig machen", "Einen Thesaurus beginnen"),
        ("fr", "scinder concept", "Scinder un concept", "Publier une version"),
    ],
)
def test_the_tasks_are_searched(site: Site, language: str, query: str, found: str, others: str) -> None:
    rita = site.client("rita")
    page = words_of(rita, f"/help?q={query}", language)
    assert found in page and others not in page
    whole = words_of(rita, "/help", language)
    assert found in whole and others in whole


def test_what_the_help_has_not(site: Site) -> None:
    rita = site.client("rita")
    assert "The help has nothing with these words." in words_of(rita, "/help?q=xylophonist")
    assert "<b>" not in rita.get("/help?q=<b>").text
    assert rita.get("/help/nothing").status_code == 404


def test_who_has_not_signed_in_has_help_too(site: Site) -> None:
    page = site.client().get("/login").text
    assert HELP.search(page) and site.client().get("/help/account").status_code == 200


def test_the_keys_are_said_once(site: Site) -> None:
    page = words_of(site.client("rita"), "/keys")
    assert all(key in page for key in KEYS)
