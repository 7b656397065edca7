"""What was on a day: a resource and the tree as they were, and what differs between two days."""
from __future__ import annotations

import csv
import io
from collections.abc import Iterator
from dataclasses import replace
from datetime import UTC, datetime, timedelta
from typing import Any

import pytest
from asking import assert_as_store, done, label, link, new, post, undo
from clients import Site, text_of
from test_arrays import BASSES, BOWED, CELLOS, FIDDLES, PLUCKED, VIOLAS, VIOLINS, array
from thesaurus_desk.journal import Plan
from thesaurus_desk.journal.entries import Draft
from thesaurus_desk.journal.past_replica import after_plan
from thesaurus_desk.journal.recovery import BY_OTHERS
from thesaurus_desk.journal.schema import time_text
from thesaurus_desk.journal.values import Values, set_request
from thesaurus_desk.store.plan_execution import Desk
from thesaurus_desk.store.replica import Replica

START = datetime(2026, 3, 1, 12, tzinfo=UTC)


class Calendar:
    """The days on which plans are made, the first day being 1 March 2026."""

    def __init__(self) -> None:
        self.time = START

    def next_day(self) -> str:
        """Begins another day, and returns the one that has ended."""
        day = self.time.date().isoformat()
        self.time += timedelta(1)
        return day


@pytest.fixture
def calendar(monkeypatch: pytest.MonkeyPatch) -> Iterator[Calendar]:
    made = Calendar()
    for module in ("schema", "entries"):
        monkeypatch.setattr(f"thesaurus_desk.journal.{module}.now", lambda: time_text(made.time))
    yield made


def held(replica: Replica, values: Values) -> dict[int, Any]:
    """What all resources have, but for records and the order of values."""
    with replica.reading():
        found = (replica.view(it) for it in range(1, replica.counts()["resources"] + 1))
        return {it.number: (replace(it, postings=0), values_of(values, it.number)) for it in found if it is not None}


def values_of(values: Values, number: int) -> list[tuple[str, ...]]:
    """The values of a resource, in the order of their texts."""
    return sorted((it.field, it.tag, it.text, it.source) for its in values.of(number).values() for it in its)


def each_kind(desk: Desk) -> Iterator[int]:
    """Makes plans of each kind one after another, and yields the last plan each time."""
    gloss = set_request(VIOLINS, "definition", "en", new="A small bowed instrument.")
    yield done(desk, gloss, set_request(FIDDLES, "notation", "", new="321")).plan or 0
    yield done(desk, new("Rebecs"), link("link", "broaderGeneric", "$1", BOWED)).plan or 0
    array(desk)
    yield desk.journal.last_plan()
    yield done(desk, {"do": "relabel", "owner": VIOLINS, "tag": "en", "text": "Fine violins", "keep": True}).plan or 0
    yield done(desk, set_request(VIOLINS, "definition", "en", old=gloss["new"], new="The smallest.")).plan or 0
    merged = done(desk, {"do": "merge", "source": FIDDLES, "target": VIOLINS}).plan or 0
    yield merged
    split = {"do": "split", "source": VIOLAS, "tag": "en", "text": "Tenor violas", "postings": []}
    yield done(desk, split, link("link", "broaderGeneric", "$1", VIOLAS)).plan or 0
    yield done(desk, label("addLabel", CELLOS, "hidden", "Violoncelli"), post("p-1", CELLOS)).plan or 0
    yield undo(desk, "anna", desk.take_back(plan_of(desk, merged))).plan or 0
    yield done(desk, link("link", "broaderGeneric", CELLOS, PLUCKED)).plan or 0
    yield done(desk, link("unlink", "broaderGeneric", CELLOS, BOWED), {"do": "deprecate", "concept": BASSES}).plan or 0
    yield done(desk, set_request(VIOLINS, "definition", "en", old="The smallest.")).plan or 0


def plan_of(desk: Desk, number: int) -> Plan:
    found = desk.journal.plan(number)
    assert found is not None
    return found


def test_the_past_is_what_was(desk: Desk) -> None:
    """After plans of each kind, with what takes one back, the past is after each of them what was there then."""
    then = {0: held(desk.replica, desk.values)}
    for plan in each_kind(desk):
        then[plan] = held(desk.replica, desk.values)
    assert len(then) == 13 and then[0] != then[max(then)]
    for plan, was in then.items():
        with after_plan(desk.replica, plan) as past:
            assert held(past, past.values) == was, plan
    assert held(desk.replica, desk.values) == then[max(then)]
    assert_as_store(desk)


def test_a_tree_as_it_was(desk: Desk) -> None:
    """Where concepts and arrays were, and what they were called."""
    ordered = array(desk)
    plan = desk.journal.last_plan()
    done(desk, {"do": "relabel", "owner": BOWED, "tag": "en", "text": "Played with a bow", "keep": False})
    done(desk, link("unlink", "broaderGeneric", CELLOS, BOWED), link("link", "broaderGeneric", CELLOS, PLUCKED))
    held = desk.values.held(ordered, "superordinate")[0]
    done(desk, set_request(ordered, "superordinate", "", old=held.member))
    with after_plan(desk.replica, plan) as past, past.reading():
        assert past.places.superordinate(ordered) == BOWED
        assert CELLOS in past.branch(BOWED) and CELLOS not in past.branch(PLUCKED)
        assert past.path_up(CELLOS)[-2:] == [BOWED, CELLOS] and past.term(BOWED, ["en"])[1] == "Bowed instruments"
    assert CELLOS in desk.replica.branch(PLUCKED)


# --- pages ---


def some_days(desk: Desk, calendar: Calendar) -> list[str]:
    """Three days: a definition and a broader term; a new name, and another broader term; a merge and a new concept."""
    days = []
    done(desk, set_request(VIOLINS, "definition", "en", new="A small bowed instrument."))
    days.append(calendar.next_day())
    done(desk, {"do": "relabel", "owner": VIOLINS, "tag": "en", "text": "Fine violins", "keep": False})
    done(desk, link("unlink", "broaderGeneric", CELLOS, BOWED), link("link", "broaderGeneric", CELLOS, PLUCKED))
    days.append(calendar.next_day())
    done(desk, set_request(VIOLINS, "definition", "en", old="A small bowed instrument.", new="The smallest."))
    done(desk, {"do": "merge", "source": FIDDLES, "target": VIOLINS})
    done(desk, new("Rebecs"), link("link", "broaderGeneric", "$1", BOWED))
    days.append(calendar.next_day())
    return days


def page_text(site: Site, path: str) -> str:
    """The text of a page."""
    answer = site.client("rita").get(path)
    assert answer.status_code == 200
    return " ".join(text_of(answer).split())


def test_a_concept_on_a_day(desk: Desk, site: Site, calendar: Calendar) -> None:
    first, second, third = some_days(desk, calendar)
    text = page_text(site, f"/c/{VIOLINS}/past?day={first}")
    assert "A small bowed instrument." in text and "Fine violins" not in text and "The smallest." not in text
    text = page_text(site, f"/c/{VIOLINS}/past?day={second}")
    assert "Fine violins" in text and "A small bowed instrument." in text
    assert "The smallest." in page_text(site, f"/c/{VIOLINS}/past?day={third}")
    assert "merged" not in page_text(site, f"/c/{FIDDLES}/past?day={second}")
    assert "merged" in page_text(site, f"/c/{FIDDLES}/past?day={third}")
    made = desk.replica.counts()["resources"]
    assert "It wasn’t there yet." in page_text(site, f"/c/{made}/past?day={second}")
    assert "Rebecs" in page_text(site, f"/c/{made}/past?day={third}")
    assert site.client("rita").get(f"/c/{made + 1}/past?day={third}").status_code == 404


def test_what_isnt_known(desk: Desk, site: Site, calendar: Calendar) -> None:
    """What was before the journal, and before what other programs have changed."""
    first, *_, third = some_days(desk, calendar)
    assert "The journal begins on 2026-03-01" in page_text(site, f"/c/{VIOLINS}/past?day=2026-02-28")
    assert "The journal begins on 2026-03-01" in page_text(site, "/tree/past?day=2026-02-28")
    plan = desk.journal.begin(Draft("", BY_OTHERS, []))
    desk.journal.finish(plan, "done", [], changed={VIOLAS})
    before, after = (page_text(site, f"/c/{it}/past?day={first}") for it in (VIOLINS, VIOLAS))
    assert "isn’t known" not in before and "isn’t known" in after
    assert "isn’t known" in page_text(site, f"/tree/past?day={third}")


def test_two_days_of_a_concept(desk: Desk, site: Site, calendar: Calendar) -> None:
    first, second, third = some_days(desk, calendar)
    text = page_text(site, f"/c/{VIOLINS}/past?day={third}&until={first}")
    differing = text.partition(f"Changed between {first} and {third}")[2]
    assert "removed definition: A small bowed instrument." in differing
    assert "added definition: The smallest." in differing
    assert "removed preferred term “ Violins ”" in differing and "added preferred term “ Fine violins ”" in differing
    same = page_text(site, f"/c/{VIOLAS}/past?day={first}&until={second}")
    assert "Nothing has changed." in same


def test_the_tree_on_a_day(desk: Desk, site: Site, calendar: Calendar) -> None:
    first, second, third = some_days(desk, calendar)
    for day, above in ((first, BOWED), (second, PLUCKED), (third, PLUCKED)):
        page = site.client("rita").get(f"/tree/past?day={day}&at={above}").text
        assert f'href="/c/{CELLOS}/past?day={day}"' in page
        assert (">Rebecs<" in page) is False
    assert ">Rebecs<" in site.client("rita").get(f"/tree/past?day={third}&at={BOWED}").text
    assert ">Fiddles<" not in site.client("rita").get(f"/tree/past?day={third}&at={BOWED}").text


def test_two_days_of_the_tree(desk: Desk, site: Site, calendar: Calendar) -> None:
    first, second, third = some_days(desk, calendar)
    table = site.client("rita").get(f"/tree/past?day={first}&until={third}&format=csv")
    rows = list(csv.reader(io.StringIO(table.text.removeprefix("\ufeff"))))[1:]
    made = desk.replica.counts()["resources"]
    found = {(row[0], int(row[1])) for row in rows}
    assert {("new", made), ("moved", CELLOS), ("renamed", VIOLINS)} <= found
    assert ("merged", FIDDLES) in found and VIOLAS not in {number for _, number in found}
    text = page_text(site, f"/tree/past?day={first}&until={second}")
    assert "Fine violins" in text and "Rebecs" not in text


def test_the_pages_lead_there(desk: Desk, site: Site, calendar: Calendar) -> None:
    first = some_days(desk, calendar)[0]
    assert f'href="/c/{VIOLINS}/past"' in site.client("rita").get(f"/c/{VIOLINS}").text
    assert f'href="/tree/past?day={first}"' in site.client("rita").get(f"/changed-since?since={first}").text
    assert site.client().get(f"/c/{VIOLINS}/past?day={first}").status_code != 200
