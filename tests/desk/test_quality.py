"""The lists of gaps and doubtful links, what mends each, their counts over time, and how long they take."""
from __future__ import annotations

import re
import sqlite3
import time
from contextlib import closing
from pathlib import Path

import pytest
from asking import done, link, new
from clients import Client, Site, show_rows, text_of
from test_find import numbers_of, rows_of
from thesaurus_desk.journal.daily_counts import DailyCounts
from thesaurus_desk.journal.values import set_request
from thesaurus_desk.store.plan_execution import Desk
from thesaurus_desk.store.worklists import KINDS, OF_VALUES, count_list, count_quality

VIOLINS, BOWED, STRINGS = 5, 4, 3


@pytest.fixture
def anna(site: Site) -> Client:
    """The browser of the head."""
    return site.client("anna")


def listed(client: Client, kind: str) -> list[int]:
    """The concepts of a list, by its table."""
    return sorted(numbers_of(client, f"/lists/{kind}?format=csv"))


def test_without_a_definition_or_a_scope_note(site: Site, desk: Desk, anna: Client) -> None:
    made = [done(desk, new(it)).made or 0 for it in ("Rebecs", "Crwths", "Gambas")]
    before = listed(anna, "undefined")
    assert set(made) < set(before)
    done(desk, set_request(made[0], "definition", "en", new="A small bowed instrument."))
    done(desk, {"do": "addLabel", "owner": made[1], "kind": "scope", "tag": "en", "text": "Those for folk music."})
    done(desk, set_request(made[2], "example", "en", new="The Messiah."))
    assert listed(anna, "undefined") == [it for it in before if it not in made[:2]], "an example defines nothing"
    assert f'href="/c/{made[2]}?add=definition#at-add-definition"' in anna.get("/lists/undefined").text


def test_single_children_and_wide_and_deep(desk: Desk, anna: Client) -> None:
    top = done(desk, new("Top")).made or 0
    assert top not in listed(anna, "single_child")
    way = [top]
    for level in range(9):
        made = done(desk, new(f"Level {level}"), link("link", "broader", "$1", way[-1])).made or 0
        way.append(made)
    assert {*way[:-1]} <= {*listed(anna, "single_child")} and way[-1] not in listed(anna, "single_child")
    assert listed(anna, "deep") == [way[-1]], "nine levels are above it"
    assert "More than 8 levels" in anna.get("/lists").text
    children = [it for n in range(50) for it in (new(f"Child {n}"), link("link", "broader", f"${2 * n + 1}", top))]
    done(desk, *children)
    assert listed(anna, "wide") == [top] and top not in listed(anna, "single_child"), "one of 51"
    assert f'href="/new/array?concept={top}"' in anna.get("/lists/wide").text


def test_one_child_by_two_types_is_one(desk: Desk, anna: Client) -> None:
    top, low = (done(desk, new(it)).made or 0 for it in ("Top", "Low"))
    done(desk, link("link", "broaderGeneric", low, top), link("link", "broaderPartitive", low, top))
    assert top in listed(anna, "single_child")


def test_related_siblings_are_unlinked_where_they_are(desk: Desk, site: Site, anna: Client) -> None:
    made = [done(desk, new(it), link("link", "broader", "$1", BOWED)).made or 0 for it in ("Rebecs", "Crwths")]
    other = done(desk, new("Resin")).made or 0
    before = listed(anna, "related_siblings")
    done(desk, link("link", "related", made[0], made[1]), link("link", "related", made[0], other))
    assert listed(anna, "related_siblings") == sorted([*before, made[0]])
    assert "links/remove" not in site.client("ina").get("/lists/related_siblings").text
    unlink(anna, "/lists/related_siblings", f"/c/{made[0]}/links/remove")
    assert listed(anna, "related_siblings") == before
    assert desk.replica.resource(made[0]).related == {other}, "those of other places stay related"


def unlink(client: Client, path: str, action: str) -> None:
    """Presses a button of a list, which leads back to the list."""
    form = next(it for it in re.findall(r"<form.*?</form>", client.get(path).text) if f'action="{action}"' in it)
    answer = client.post(action, dict(re.findall(r'name="(form|kind|a|b|next)" value="([^"]*)"', form)))
    assert answer.status_code == 303 and answer.headers["Location"].startswith(f"{path}?done=")


def test_a_broader_concept_beside_its_own_broader(desk: Desk, anna: Client) -> None:
    """Violins are below bowed instruments, which are below string instruments."""
    assert listed(anna, "redundant") == []
    done(desk, link("link", "broaderGeneric", VIOLINS, STRINGS))
    assert listed(anna, "redundant") == [VIOLINS] and "1 relationship" in text_of(anna.get("/lists/redundant"))
    unlink(anna, "/lists/redundant", f"/c/{VIOLINS}/links/remove")
    assert listed(anna, "redundant") == []
    assert desk.replica.branch(BOWED).keys() >= {VIOLINS} and VIOLINS not in desk.replica.branch(STRINGS)


@pytest.mark.parametrize(
    ("kind", "tag", "one", "other"),
    [
        ("homographs", "en", "Cranes", "Cranes (birds)"),
        ("homographs", "de", "Bänke", "Banke (Geld)"),
        ("plurals", "en", "Hand saw", "Hand saws"),
        ("plurals", "en", "Factory", "factories"),
        ("plurals", "de", "Museum", "Museen"),
        ("plurals", "de", "Haus", "Häuser"),
        ("plurals", "fr", "Journal", "Journaux"),
        ("plurals", "es", "Lápiz", "Lápices"),
        ("plurals", "en-gb", "Axe", "Axes"),
    ],
)
def test_terms_that_are_taken_for_one_another(
    desk: Desk, anna: Client, kind: str, tag: str, one: str, other: str
) -> None:
    made = [done(desk, {"do": "concept", "scheme": 1, "tag": tag, "text": it}).made or 0 for it in (one, other)]
    assert listed(anna, kind) == made
    page = anna.get(f"/lists/{kind}").text
    assert re.search(rf'href="/c/{made[1]}/merge\?other_number={made[0]}"|href="/c/{made[0]}/merge', page)
    assert "/merge" not in anna.site.client("rita").get(f"/lists/{kind}").text


def test_terms_that_are_not_taken_for_one_another(desk: Desk, anna: Client) -> None:
    terms = ("Cranes (birds)", "Cranes (machines)", "Glass", "Gla", "As", "A")
    for it in terms:
        done(desk, new(it))
    other = done(desk, {"do": "scheme", "tag": "en", "text": "Other"}).made
    done(desk, {"do": "concept", "scheme": other, "tag": "en", "text": "Cranes"})
    done(desk, {"do": "addLabel", "owner": VIOLINS, "kind": "alt", "tag": "en", "text": "Violin"})
    done(desk, {"do": "concept", "scheme": 1, "tag": "de", "text": "Crane"})
    assert listed(anna, "homographs") == [], "each has its qualifier, or is of another thesaurus"
    assert listed(anna, "plurals") == [], "a concept's own singular, other languages, and what ends so by chance"


def test_mappings(desk: Desk, anna: Client) -> None:
    first, second, third = (f"https://vocabulary.example/{it}" for it in "abc")
    rebecs, crwths = (done(desk, new(it)).made or 0 for it in ("Rebecs", "Crwths"))
    assert {rebecs, crwths} <= {*listed(anna, "unmapped")}

    def map_to(concept: int, iri: str, kind: str = "exact") -> None:
        done(desk, {"do": "outside", "iri": iri}, link("link", kind, concept, "$1"))

    map_to(rebecs, first)
    map_to(rebecs, "https://other.example/x")
    map_to(rebecs, second, "close")
    assert rebecs not in listed(anna, "unmapped") and listed(anna, "mapped_twice") == []
    map_to(rebecs, third)
    assert listed(anna, "mapped_twice") == [rebecs] and "2 relationships" in text_of(anna.get("/lists/mapped_twice"))
    unlink(anna, "/lists/mapped_twice", f"/c/{rebecs}/links/remove")
    assert listed(anna, "mapped_twice") == []
    held = desk.replica.resource(rebecs).matches
    there = next(it.b for it in held if it.kind == "exact" and desk.replica.iri(it.b).startswith("https://vocab"))
    done(desk, link("link", "exact", crwths, there))
    assert listed(anna, "mapped_twice") == [rebecs, crwths], "two have the same one"


def test_dead_ends(desk: Desk, anna: Client) -> None:
    made = [done(desk, new(it)).made or 0 for it in ("Had", "Never had", "Merged")]
    for key, concept in (("A", made[0]), ("B", made[2])):
        done(desk, {"do": "post", "key": key, "record": key, "concept": concept})
    done(desk, {"do": "withdraw", "posting": 1})
    done(desk, {"do": "merge", "source": made[2], "target": VIOLINS})
    assert listed(anna, "dead_ends") == []
    for it in made[:2]:
        done(desk, {"do": "deprecate", "concept": it})
    assert listed(anna, "dead_ends") == [made[0]]


def test_languages_in_per_cent(desk: Desk, anna: Client) -> None:
    live = desk.replica.count_concepts()
    assert "(100%)" in text_of(anna.get("/lists"))
    done(desk, new("Rebecs"))
    assert f"({100 * live // (live + 1)}%)" in text_of(anna.get("/lists"))


# --- over time ---


def test_quality_over_time(site: Site, desk: Desk, anna: Client, monkeypatch: pytest.MonkeyPatch) -> None:
    """Each day is counted once; the overview has the last day that was counted until a day, a week, .. ago."""
    daily = desk.daily_counts
    for day in ("2026-11-01", "2026-11-20", "2026-11-28"):
        daily.note(day, {**count_quality(desk.replica), "orphans": int(day[-2:])})
    monkeypatch.setattr("thesaurus_desk.web.pages.lists.today", lambda: "2026-11-29")
    assert [*daily.before("2026-11-29", (1, 7, 30))] == ["2026-11-28", "2026-11-20"]
    page = text_of(anna.get("/quality"))
    assert "2026-11-28" in page and "2026-11-20" in page and "2026-11-01" not in page
    assert " ".join(page.split()).find("Orphans 0 28 20") > 0, page
    rows = rows_of(anna.get("/quality?format=csv"))
    assert [(it["Day"], it["Orphans"]) for it in rows] == [
        ("2026-11-01", "1"),
        ("2026-11-20", "20"),
        ("2026-11-28", "28"),
        ("2026-11-29", "0"),
    ]
    assert site.client("ben").get("/quality").status_code == 403


def test_a_day_is_noted_once(desk: Desk, monkeypatch: pytest.MonkeyPatch) -> None:
    counted: list[str] = []

    def count() -> dict[str, int]:
        counted.append(day[0])
        return {"concepts": len(counted)}

    day = ["2026-11-28T10:00:00Z"]
    monkeypatch.setattr("thesaurus_desk.journal.daily_counts.now", lambda: day[0])
    daily = DailyCounts(desk.journal, count)
    daily.note_if_due()
    daily.note_if_due()
    day[0] = "2026-11-29T00:00:01Z"
    daily.note_if_due()
    assert len(counted) == 2 and daily.all() == {"2026-11-28": {"concepts": 1}, "2026-11-29": {"concepts": 2}}


def test_the_counts_are_in_a_backup(desk: Desk, tmp_path: Path) -> None:
    desk.daily_counts.note("2026-11-01", {"orphans": 7})
    desk.journal.copy_to(tmp_path / "copy.sqlite")
    with closing(sqlite3.connect(tmp_path / "copy.sqlite")) as rows:
        assert rows.execute("SELECT * FROM daily").fetchall() == [("2026-11-01", "orphans", 7)]


# --- how long they take ---


def test_lists_of_a_large_thesaurus(desk: Desk) -> None:
    """Each list is made of indexes: of 20,000 concepts none takes a second of the processor's time, kept by nothing."""
    first, rows = 1 + desk.replica.counts()["resources"], []
    for number in range(first, first + 20_000):
        rows.append(["insert", "resource", number, 2, 1, 1, None])
        rows.append(["insert", "label", number, 1, "en", f"Term {number}s"])
        rows.append(["insert", "hier", number, max(STRINGS, first + (number - first) // 12 - 1), 0])
    show_rows(desk, rows)
    for kind in KINDS:
        desk.replica.kept.clear()
        start = time.thread_time()
        count_list(desk.replica, kind)
        assert time.thread_time() - start < 1, kind
    assert set(OF_VALUES) < set(KINDS)
