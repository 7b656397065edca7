"""Tests that the preview of a table shows what would be refused, row by row, before anything is done."""
from __future__ import annotations

import random

import pytest
from clients import Client, Site, hold_up_once, text_of
from test_bring_in import perform, send
from test_changes import number
from thesaurus_desk.importing.request_series import RequestSeries
from thesaurus_desk.importing.row_trial import CopyTrial, try_rows
from thesaurus_desk.store.plan_execution import Desk, Outcome
from thesaurus_desk.store.run_threads import Report
from thesaurus_tools.row_runner import RowPlan
from whole import resources

# More requests than a plan has: the rows are tried on a copy of the store.
MANY = 130


@pytest.fixture
def anna(site: Site) -> Client:
    return site.client("anna")


@pytest.fixture
def copied(monkeypatch: pytest.MonkeyPatch) -> list[int]:
    """How many rows were tried on a copy, each time."""
    found: list[int] = []
    refusals = CopyTrial.refusals

    def counted(trial: CopyTrial, rows: list[RowPlan], report: Report | None) -> dict[int, Outcome | None]:
        found.append(len(rows))
        return refusals(trial, rows, report)

    monkeypatch.setattr(CopyTrial, "refusals", counted)
    return found


def table(site: Site, rows: list[str], many: bool) -> bytes:
    """Returns a table whose first rows give a concept more terms."""
    harps = number(site, "Harps")
    fill = [f"{harps},change,,,Harp of kind {it}" for it in range(MANY)] if many else []
    return "\n".join(["number,do,broader,related,alt@en", *fill, *rows]).encode()


@pytest.mark.parametrize("many", [False, True], ids=["plan", "copy"])
@pytest.mark.parametrize(
    ("row", "reason"),
    [
        ("{posted},deprecate,,,", "record is indexed with"),
        ("{high},change,{low},,", "can’t be broader than"),
        ("{low},change,,{high},", "is already broader than"),
        ("{low},change,,,{own}", "is already the preferred term of"),
        ("{low},change,,,{long}", "is one character too long"),
    ],
    ids=["HasPostings", "Cycle", "S27", "S13", "BadText"],
)
def test_what_is_refused_is_shown_before(
    site: Site, anna: Client, copied: list[int], many: bool, row: str, reason: str
) -> None:
    violins = number(site, "Violins")
    post = {"do": "post", "key": "t1", "record": "Violin 1700", "concept": violins}
    assert site.desk.perform("anna", "index", [post]).is_done
    names = {"posted": violins, "low": violins, "high": number(site, "String instruments"), "own": "Violins"}
    last = site.desk.journal.last_plan()
    page = send(anna, "/bring-in/table", table(site, [row.format(**names, long="x" * 257)], many), tag="en")
    text = " ".join(text_of(page).split())
    assert "1 row was refused." in text and reason in text, text
    assert bool(copied) == many and site.desk.journal.last_plan() == last


def test_the_refused_rows_come_first_and_are_not_performed(site: Site, anna: Client) -> None:
    low, high, harps = (number(site, it) for it in ("Violins", "String instruments", "Harps"))
    rows = [f"{harps},change,,,Arched harps", f"{high},change,{low},,", f"{low},change,,,Fine violins"]
    page = send(anna, "/bring-in/table", table(site, rows, False), tag="en")
    text = " ".join(text_of(page).split())
    assert "2 rows change something." in text and text.index("Not done") < text.index("term “ Arched harps"), text
    done = perform(anna, page, "/bring-in/table/perform")
    assert "2 rows were done." in done.text and "1 row was refused." in done.text
    assert "can’t be broader than" in text_of(done) and site.desk.history.recent(most=1)[0].state == "done"


def test_a_row_is_refused_for_what_a_row_before_does(site: Site, anna: Client) -> None:
    """The first row alone makes the second one a ring."""
    one, other = number(site, "Bows"), number(site, "Drums")
    page = send(
        anna, "/bring-in/table", table(site, [f"{one},change,{other},,", f"{other},change,{one},,"], False), tag="en"
    )
    assert "1 row changes something." in page.text and "would be broader than itself" in text_of(page), text_of(page)


def test_a_row_that_rests_on_a_refused_one(site: Site, anna: Client) -> None:
    data = "Term,BT,Synonym\nKotos,Harps,Kotos\nBass kotos,Kotos,\n".encode()
    page = text_of(send(anna, "/bring-in/table", data, kind="new", tag="en"))
    assert "2 rows were refused." in page and "would have two roles" in page, page


def test_a_preview_that_has_to_wait_too_long(
    site: Site, anna: Client, copied: list[int], monkeypatch: pytest.MonkeyPatch
) -> None:
    """Nothing is shown that wasn't tried."""
    rows = table(site, [], True)
    hold_up_once(site.desk, monkeypatch)
    page = send(anna, "/bring-in/table", rows, tag="en")
    assert page.status_code == 409 and "Something long is under way" in text_of(page) and not copied
    assert "130 rows change something." in text_of(send(anna, "/bring-in/table", rows, tag="en"))


def random_row(dice: random.Random, line: int, numbers: list[int]) -> RowPlan:
    """Returns a row with one to three random requests, of which many are refused."""
    requests: list[dict[str, object]] = []
    for _ in range(dice.choice((1, 1, 2, 3))):
        a, b = dice.sample(numbers, 2)
        text = dice.choice(("Alpha", "Beta", "Gamma", f"Delta {dice.randrange(20)}", ""))
        made = f"${line - dice.randrange(1, 4)}"
        requests.append(
            dice.choice(
                (
                    {"do": "link", "kind": dice.choice(("broader", "related")), "a": a, "b": b},
                    {"do": "addLabel", "owner": a, "kind": "alt", "tag": "en", "text": text},
                    {"do": "deprecate", "concept": a},
                    {"do": "set", "owner": a, "field": "notation", "tag": "", "old": None, "new": text},
                    {"do": "link", "kind": "broader", "a": made, "b": b},
                    {"do": "unlink", "kind": "broader", "a": a, "b": b},
                )
            )
        )
    if dice.random() < 0.4:
        requests.insert(0, {"as": str(line), "do": "concept", "scheme": 1, "tag": "en", "text": f"New {line}"})
    return RowPlan(line, [], requests)


@pytest.mark.parametrize("count", [30, 250], ids=["plan", "copy"])
@pytest.mark.parametrize("seed", range(4))
def test_what_a_trial_says_is_what_comes(desk: Desk, seed: int, count: int) -> None:
    dice = random.Random(seed)
    numbers = [it for it, one in resources(desk.replica).items() if one.kind == "concept"]
    rows = [random_row(dice, line, numbers) for line in range(1, count + 1)]
    before = resources(desk.replica)
    foreseen = set(try_rows(desk, rows))
    assert resources(desk.replica) == before
    names, refused = RequestSeries(desk, "anna", "table"), set()
    for row in rows:
        try:
            is_done = names.perform(row.requests).is_done
        except KeyError:
            is_done = False
        refused |= set() if is_done else {row.line}
    assert foreseen == refused and 0 < len(refused) < count
