"""The worked examples of docs/DEFINITIONS.md, as one script over a new store in memory, are answered by the lines below
them: by the program, and by the plain program."""
from __future__ import annotations

import json
import re

import pytest
from plain import Plain
from plain_store import LIMITS
from program import ROOT, answers_to, text_of

PAGE = (ROOT / "docs" / "DEFINITIONS.md").read_text(encoding="utf-8")
GLOSSARY = (ROOT / "docs" / "GLOSSARY.md").read_text(encoding="utf-8")
SECTION = re.split(r"^## ", PAGE.split("\n## Worked examples\n")[1], flags=re.M)[0]
EXAMPLES: list[tuple[str, str]] = re.findall(r"^> (.*)\n(.*)\n", SECTION, re.M)
each_example = pytest.mark.parametrize("place", range(len(EXAMPLES)), ids=[it for it, _ in EXAMPLES])


@pytest.fixture(scope="module")
def answers() -> list[str]:
    return answers_to(it for it, _ in EXAMPLES)


@pytest.fixture(scope="module")
def plain_answers() -> list[str]:
    """The answers of the plain program."""
    plain, found = Plain(LIMITS), []
    for request in (json.loads(it) for it, _ in EXAMPLES):
        plain, answer = plain.perform(request) if "do" in request else (plain, plain.show(request))
        found.append(text_of(answer).decode())
    return found


@each_example
def test_program_answers_as_the_page_says(place: int, answers: list[str]) -> None:
    assert answers[place] == EXAMPLES[place][1]


@each_example
def test_plain_program_answers_as_the_page_says(place: int, plain_answers: list[str]) -> None:
    assert plain_answers[place] == EXAMPLES[place][1]


def test_each_example_names_a_definition() -> None:
    named = re.findall(r"^\*\*`(\w+)`\*\*: ", SECTION, re.M)
    assert len(named) == 10
    assert not [it for it in named if f"\n- `{it}`: " not in GLOSSARY]
