"""The sample that anyone can look at: what it has, by HTTP and in a browser, and that nothing of it stays."""
from __future__ import annotations

import re
import tempfile
from collections.abc import Iterator
from http.cookiejar import CookieJar
from pathlib import Path
from typing import Any
from urllib.request import HTTPCookieProcessor, build_opener

import pytest
from hands import Hand, address_of, come_in
from processes import Running, run_desk, running
from thesaurus_desk import sample
from thesaurus_desk.store.plan_execution import Desk

BOWED, VIOLINS, FIDDLES, PIANOS = 4, 5, 31, 24
SIZES = "bowed instruments by size"


def folders() -> set[Path]:
    """The folders of samples that there are."""
    return set(Path(tempfile.gettempdir()).glob("thesaurus-sample-*"))


@pytest.fixture(scope="module")
def shown(program: str) -> Iterator[Running]:
    """A desk with the sample."""
    with running("--sample", "--program", program) as desk:
        yield desk


@pytest.fixture(scope="module")
def opener(shown: Running) -> Any:
    """Someone who has come in by the address that was printed."""
    made = build_opener(HTTPCookieProcessor(CookieJar()))
    made.open(address_of(shown) + shown.entrance).read()
    return made


PAGES = {
    "/": ["Musical instruments", "30 concepts"],
    f"/c/{VIOLINS}": ["Bowed instruments with four strings", "Q8355", "Violin, Jacob Stainer, Absam 1668"],
    f"/c/{PIANOS}": ["314.122-4-8", "Instruments à clavier dont les cordes"],
    f"/c/{BOWED}": [SIZES, "Violins", "Double basses"],
    "/changes": [sample.GUEST],
    "/about": ["12 accepted = 12 at a concept + 0 withdrawn"],
}


@pytest.mark.parametrize("path", PAGES)
def test_what_a_page_shows(path: str, shown: Running, opener: Any) -> None:
    text = " ".join(re.sub(r"<[^>]*>", " ", opener.open(address_of(shown) + path).read().decode()).split())
    assert [it for it in PAGES[path] if it not in text] == []


@pytest.mark.needs("chromedriver", "selenium")
def test_a_merge_in_a_browser(program: str, driver: Any) -> None:
    """Whoever looks at it may change all of it."""
    with running("--sample", "--program", program) as desk:
        hand: Hand = come_in("mouse", driver, desk)
        hand.open(f"/c/{FIDDLES}/merge?other_number={VIOLINS}")
        hand.sees("1 record moves to Violins.")
        hand.tick("I have looked at both")
        hand.press("Merge Fiddles into Violins")
        hand.sees("Fiddles: merged into Violins, and 1 record moved")
        hand.press("Undo")
        hand.sees("comes back under a new identifier")


def test_nothing_of_it_stays(program: str) -> None:
    before = folders()
    with running("--sample", "--alone", "ben", "--program", program) as desk:
        assert desk.ask("GET", desk.entrance)[0] in (200, 303)
        assert len(folders() - before) == 1
    assert not folders() - before


def test_a_name_may_be_given(program: str, tmp_path: Path) -> None:
    desk = Desk(sample.make_sample(program, tmp_path, "ben"), program)
    desk.start()
    try:
        assert {plan.user for number in range(1, 5) if (plan := desk.journal.plan(number))} == {"ben"}
    finally:
        desk.stop()


@pytest.mark.parametrize("words", [["--db", "x.db"], ["--users", "x.json"], ["--base", "https://x.example/"]])
def test_options_that_do_not_go_with_it(words: list[str], program: str) -> None:
    ran = run_desk("--sample", *words, "--program", program)
    assert ran.returncode == 2 and "--sample has a store of its own" in ran.stderr


def test_a_sample_that_cannot_be_made_is_told(program: str, monkeypatch: pytest.MonkeyPatch, tmp_path: Path) -> None:
    monkeypatch.setattr(sample, "EXAMPLES", tmp_path)
    (tmp_path / "instruments.jsonl").write_text('{"do":"scheme"}\n', encoding="utf-8")
    with pytest.raises(sample.ToolError, match="the sample can't be made"):
        sample.make_sample(program, tmp_path)
