"""How many records are at a concept or below it: no page is held by counting many."""
from __future__ import annotations

from collections.abc import Callable

import pytest
from asking import done, number, post, view
from clients import Site, text_of
from thesaurus_desk.store import below_counts
from thesaurus_desk.store.below_counts import BelowCount
from thesaurus_desk.store.plan_execution import Desk

# As many as take a second or more to count on a slow machine.
MANY = 300_000
# The steps of SQLite's machine that a page takes without counting them, and far less than counting them takes.
FEW_STEPS = 600_000


@pytest.fixture
def strings(desk: Desk, monkeypatch: pytest.MonkeyPatch) -> int:
    """A concept with two narrower ones that are indexed, of which no more than two are counted for a page."""
    monkeypatch.setattr(below_counts, "FEW_POSTINGS", 2)
    violins, violas = number(desk, "Violins"), number(desk, "Violas")
    done(desk, post("a", violins, "r1"), post("b", violas, "r1"), post("c", violas, "r2"))
    (above,) = {*view(desk, violins).broader} & {*view(desk, violas).broader}
    return above


def shown(site: Site, concept: int) -> str:
    """Returns what the page of a concept says of its records."""
    return text_of(site.client("ben").get(f"/c/{concept}")).partition("Records")[2]


def test_few_are_counted_for_the_page(desk: Desk, site: Site) -> None:
    violins = number(desk, "Violins")
    done(desk, post("a", violins, "r1"), post("b", violins, "r2"))
    (above,) = view(desk, violins).broader
    assert desk.below.get(above) == BelowCount(len(desk.replica.postings.records_at(violins)))
    assert "2 with narrower concepts" in shown(site, above)


def test_many_are_counted_on_asking(desk: Desk, site: Site, strings: int) -> None:
    assert desk.below.get(strings) is None
    page = shown(site, strings)
    assert "with narrower concepts" not in page and "Count the records with those of narrower concepts" in page
    answer = site.client("ben").get(f"/c/{strings}/records-below")
    assert answer.status_code == 303 and answer.headers["Location"] == f"/c/{strings}#records"
    assert "2 with narrower concepts" in shown(site, strings) and "counted" not in shown(site, strings)


def test_a_count_that_is_old_says_so_until_the_office_has_time(
    desk: Desk, site: Site, strings: int, monkeypatch: pytest.MonkeyPatch
) -> None:
    desk.below.count(strings)
    done(desk, post("d", number(desk, "Violas"), "r3"))
    old = desk.below.get(strings)
    assert old is not None and old.records == 2 and old.at
    assert "2 with narrower concepts (counted" in shown(site, strings)
    desk.below.bring_up()
    assert desk.below.get(strings) == old, "something was changed just now"
    monkeypatch.setattr(below_counts, "IDLE", -below_counts.IDLE)
    desk.below.bring_up()
    assert desk.below.get(strings) == BelowCount(3)


def test_a_visitor_counts_nothing(site: Site, strings: int) -> None:
    answer = site.client().get(f"/c/{strings}/records-below")
    assert answer.status_code == 303 and answer.headers["Location"].startswith("/login")


def test_no_page_counts_many(desk: Desk, site: Site, monkeypatch: pytest.MonkeyPatch) -> None:
    """At a size where that matters: by the steps that SQLite takes, which are the same on each machine."""
    violins = number(desk, "Violins")
    (above,) = view(desk, violins).broader
    with desk.journal.writing() as rows:
        numbers = f"WITH RECURSIVE n (i) AS (VALUES (100000) UNION ALL SELECT i + 1 FROM n WHERE i < {100000 + MANY})"
        rows.execute(f"INSERT INTO posting {numbers} SELECT i, 'k' || i, 'r' || i, ?1, ?1, 0 FROM n", (violins,))
        rows.execute("UPDATE replica SET value = value + 1 WHERE name IN ('version', 'postings')")
    steps = steps_of(desk, monkeypatch, lambda: site.client("ben").get(f"/c/{above}"))
    assert 0 < steps < FEW_STEPS
    assert steps_of(desk, monkeypatch, lambda: desk.below.count(above)) > 2 * FEW_STEPS


def steps_of(desk: Desk, monkeypatch: pytest.MonkeyPatch, work: Callable[[], object]) -> int:
    """Returns how many steps, by thousands, SQLite takes in the replica for something."""
    taken = [0]

    def step() -> int:
        taken[0] += 1000
        return 0

    connection = desk.replica.connection()
    connection.set_progress_handler(step, 1000)
    try:
        work()
    finally:
        connection.set_progress_handler(None, 1000)
    return taken[0]
