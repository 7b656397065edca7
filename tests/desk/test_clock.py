"""The office's clock: days begin by it, and pages show its times; what other programs read is in UTC."""
from __future__ import annotations

import csv
import io
import re
import time
from collections.abc import Callable, Iterator

import pytest
from clients import Client, Site, text_of
from test_changes import label, number, perform
from thesaurus_desk.clock import distance_now, span_of, time_element
from thesaurus_desk.journal.entries import Draft
from thesaurus_desk.journal.recovery import BY_OTHERS

# Zones by their rules, which need no list of zones to be installed.
VIENNA, DELHI, NEWFOUNDLAND = "CET-1CEST,M3.5.0,M10.5.0/3", "IST-5:30", "NST3:30"
SetZone = Callable[[str], None]


@pytest.fixture
def set_zone(monkeypatch: pytest.MonkeyPatch) -> Iterator[SetZone]:
    """Gives this machine another time zone."""

    def put(zone: str) -> None:
        monkeypatch.setenv("TZ", zone)
        time.tzset()

    yield put
    monkeypatch.undo()
    time.tzset()


@pytest.fixture
def anna(site: Site) -> Client:
    return site.client("anna")


@pytest.mark.parametrize(
    ("zone", "day", "begin", "end"),
    [
        ("UTC", "2026-11-29", "2026-11-29T00:00", "2026-11-30T00:00"),
        (VIENNA, "2026-11-29", "2026-11-28T23:00", "2026-11-29T23:00"),
        (VIENNA, "2026-07-31", "2026-07-30T22:00", "2026-07-31T22:00"),
        pytest.param(VIENNA, "2026-03-29", "2026-03-28T23:00", "2026-03-29T22:00", id="a day of 23 hours"),
        pytest.param(VIENNA, "2026-10-25", "2026-10-24T22:00", "2026-10-25T23:00", id="a day of 25 hours"),
        (VIENNA, "2026-03", "2026-02-28T23:00", "2026-03-31T22:00"),
        (VIENNA, "2024-02", "2024-01-31T23:00", "2024-02-29T23:00"),
        (VIENNA, "2026-12", "2026-11-30T23:00", "2026-12-31T23:00"),
        (VIENNA, "2024", "2023-12-31T23:00", "2024-12-31T23:00"),
        (DELHI, "2026-11-29", "2026-11-28T18:30", "2026-11-29T18:30"),
        (NEWFOUNDLAND, "2026-11-29", "2026-11-29T03:30", "2026-11-30T03:30"),
    ],
)
def test_days(set_zone: SetZone, zone: str, day: str, begin: str, end: str) -> None:
    set_zone(zone)
    assert span_of(day) == (f"{begin}:00.000Z", f"{end}:00.000Z")


@pytest.mark.parametrize(
    "text", ["", "x", "2026-02-30", "2026-13", "26-11-29", "20261129", "2026-11-29T10", "2026-11-", "0000", "9999"]
)
def test_no_days(set_zone: SetZone, text: str) -> None:
    set_zone(VIENNA)
    assert span_of(text) is None


@pytest.mark.parametrize(
    ("zone", "at", "shown"),
    [
        ("UTC", "2026-11-28T23:30:05.123Z", "2026-11-28 23:30 UTC"),
        (VIENNA, "2026-11-28T23:30:05.123Z", "2026-11-29 00:30 UTC+1"),
        (VIENNA, "2026-06-30T22:00:00Z", "2026-07-01 00:00 UTC+2"),
        (DELHI, "2026-11-28T23:30:05.123Z", "2026-11-29 05:00 UTC+5:30"),
        (NEWFOUNDLAND, "2026-11-28T23:30:05.123Z", "2026-11-28 20:00 UTC−3:30"),
    ],
)
def test_times(set_zone: SetZone, zone: str, at: str, shown: str) -> None:
    set_zone(zone)
    element = time_element(at)
    assert re.sub("<[^>]*>", "", element) == shown
    assert f'data-zone="{shown.rpartition(" ")[2]}"' in element
    machine = re.search('datetime="([^"]*)"', element)
    assert machine and re.fullmatch(r"[-\d]{10}T[:\d]{8}\.\d{3}[+-]\d\d:\d\d", machine[1])


def after_midnight(site: Site) -> None:
    """Has a term added half an hour after midnight in Vienna."""
    plan = perform(site, label(site, "Fine violins"))
    with site.desk.journal.writing() as rows:
        rows.execute("UPDATE plan SET at = '2026-11-28T23:30:00.000Z' WHERE id = ?", (plan,))
        rows.execute("UPDATE ended SET at = '2026-11-28T23:30:00.000Z' WHERE plan = ?", (plan,))


@pytest.mark.parametrize(("zone", "day", "other"), [(VIENNA, 29, 28), ("UTC", 28, 29), (NEWFOUNDLAND, 28, 29)])
def test_a_day_of_the_office(set_zone: SetZone, site: Site, anna: Client, zone: str, day: int, other: int) -> None:
    """In the journal, and in the list of what has changed since a day."""
    after_midnight(site)
    set_zone(zone)
    its, others = (f"since=2026-11-{it}&until=2026-11-{it}" for it in (day, other))
    assert "Fine violins" in text_of(anna.get(f"/changes?{its}"))
    assert "Fine violins" not in text_of(anna.get(f"/changes?{others}"))
    assert ("Violins" in text_of(anna.get("/changed-since?since=2026-11-29"))) is (day == 29)


def test_the_zone_is_said_and_the_time_agrees(set_zone: SetZone, site: Site, anna: Client) -> None:
    after_midnight(site)
    set_zone(VIENNA)
    for path in ("/changes?since=2026-11-29", "/changed-since?since=2026-11-29"):
        page = text_of(anna.get(path))
        assert "2026-11-29 00:30 UTC+1" in page and f"in the server’s time zone, now {distance_now()}." in page
    journal = site.desk.journal
    note = "restored from a backup of 2026-11-28T23:30:00.000Z"
    journal.finish(journal.begin(Draft("", BY_OTHERS, [])), "done", [], changed=[number(site, "Violins")], note=note)
    page = " ".join(text_of(anna.get("/changes")).split())
    assert "The store was restored from a backup of 2026-11-29 00:30 UTC+1 ." in page


def test_other_programs_have_times_in_utc(set_zone: SetZone, site: Site, anna: Client) -> None:
    """The table has the same changes as the page. The page's link to the list for programs says when the day begins."""
    after_midnight(site)
    set_zone(VIENNA)
    (row,) = csv.DictReader(io.StringIO(anna.get("/changes.csv?since=2026-11-29").text))
    assert row["time"] == "2026-11-28T23:30:00.000Z"
    assert len(anna.get("/changes.csv?until=2026-11-28").text.splitlines()) == 1
    link = re.search(r'href="(/changed\?since=[^"&]*)"', anna.get("/changed-since?since=2026-11-29").text)
    assert link and link[1] == "/changed?since=2026-11-28T23%3A00%3A00.000Z"
    (found,) = anna.get(link[1]).json["changed"]
    assert (found["number"], found["modified"]) == (number(site, "Violins"), "2026-11-28T23:30:00.000Z")
    assert anna.get("/changed?since=2026-11-29").json["changed"] == []
