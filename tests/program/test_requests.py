"""The requests in docs/REQUESTS.md, the lines that begin with `> `, run as one script over a new store in memory, are
answered by the lines below them. Each request of its tables has an example. `tests/run --write requests` writes the
answers into the page."""
from __future__ import annotations

import json
import re

import pytest
from program import ROOT, built, run

PAGE = ROOT / "docs" / "REQUESTS.md"
EXAMPLE = re.compile(r"^> (.*)\n(?:(?!> |```)(.*)\n)?", re.M)
ROW = re.compile(r"^\| `(\w+)` \|", re.M)
EXAMPLES: list[tuple[str, str]] = EXAMPLE.findall(PAGE.read_text(encoding="utf-8"))


@pytest.fixture(scope="module")
def answers(request: pytest.FixtureRequest) -> list[str]:
    """The answers to the requests of the page."""
    script = "".join(f"{it}\n" for it, _ in EXAMPLES)
    found = run(["script", "--plans"], script.encode(), built()).out.decode().splitlines()
    if request.config.getoption("--write"):
        left = iter(found)
        page = PAGE.read_text(encoding="utf-8")
        PAGE.write_text(EXAMPLE.sub(lambda it: f"> {it[1]}\n{next(left)}\n", page), encoding="utf-8")
    return found


@pytest.mark.parametrize("place", range(len(EXAMPLES)), ids=[it for it, _ in EXAMPLES])
def test_request_is_answered_as_the_page_says(place: int, answers: list[str]) -> None:
    assert answers[place] == EXAMPLES[place][1]


def test_each_request_has_one_answer(answers: list[str]) -> None:
    assert len(answers) == len(EXAMPLES)


@pytest.mark.parametrize("heading", ["Requests that change something", "Queries"])
def test_tables_have_examples(heading: str) -> None:
    requests = [it for text, _ in EXAMPLES if isinstance(it := json.loads(text), dict)]
    used = {value for it in requests for name, value in it.items() if name in ("do", "get")}
    section = re.split(r"^##", PAGE.read_text(encoding="utf-8").split(f"## {heading}\n")[1], flags=re.M)[0]
    assert not set(ROW.findall(section)) - {"do", "get", *used}
