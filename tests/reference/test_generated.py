"""The machine agrees with the plain program of plain.py on 7,200 mixed requests, the same in each run, under three sets
of limits. They are stored examples, which `rt try` has test_examples run, or with --built the program that `rt ci`
built."""
from __future__ import annotations

import functools
import subprocess
from pathlib import Path
from typing import NamedTuple

import pytest
from dice import Requests
from plain import Plain
from program import ROOT, program_of, text_of

CRATE = ROOT / "crates" / "test_examples"
REFUSALS = """
    UnknownResource WrongKind NotLive SameResource OtherScheme LabelThere NoSuchLabel LastPreferred S13 S14
    PreferredTaken LinkThere NoSuchLink Cycle S27 S46 HasPostings UnknownPosting Withdrawn NotAtSource ListedTwice
    KeyReused OutsideKnown TooMany
""".split()
LIMITS = [
    {"resources": 20_000, "labels": 200_000, "links": 200_000, "postings": 100_000, "moves": 1_000_000},
    {"resources": 60, "labels": 90, "links": 40, "postings": 90, "moves": 30},
    {"resources": 30, "labels": 45, "links": 20, "postings": 60, "moves": 60},
]


SEEDS = range(1, 5)


class Example(NamedTuple):
    """A stored example with the plain program's answers, and its refusals."""

    text: str
    refusals: frozenset[str]


@functools.cache
def example(place: int, seed: int) -> Example:
    """Returns an example of 600 requests under one of the sets of limits."""
    limits = LIMITS[place]
    dice, plain, met = Requests(seed), Plain(limits), set()
    lines = [f"% seed {seed}, {limits['resources']} resources"]
    lines += [f"! {name} {limit}" for name, limit in limits.items()]
    for _ in range(600):
        request = dice.request(plain)
        if "do" in request:
            plain, answer = plain.perform(request)
        else:
            answer = plain.show(request)
        met.add(answer.get("no", ""))
        lines += [f"> {text_of(request).decode()}", text_of(answer).decode()]
    return Example("\n".join(lines), frozenset(met))


EXAMPLES = [(place, seed) for place in range(len(LIMITS)) for seed in SEEDS]


def run_examples(file: Path) -> str:
    """Has test_examples run the examples of a file."""
    program = program_of("test_examples")
    words: list[str | Path]
    if program:
        words, folder = [program, file.name], file.parent
    else:
        words, folder = ["rt", "try", "--data", f"{file.name}={file}", "--", file.name], CRATE
    ran = subprocess.run(words, cwd=folder, stdout=subprocess.PIPE, stderr=subprocess.STDOUT, text=True, check=False)
    return ran.stdout


@pytest.fixture(scope="module")
def printed(tmp_path_factory: pytest.TempPathFactory) -> str:
    """What test_examples prints of the examples."""
    file = tmp_path_factory.mktemp("generated") / "generated.txt"
    texts = [example(*it).text for it in EXAMPLES]
    file.write_text("\n".join(["# Generated.", *texts, ""]), encoding="utf-8")
    return run_examples(file)


@pytest.mark.needs("rt")
def test_examples_are_answered_as_by_the_plain_program(printed: str) -> None:
    assert f"\n  {len(EXAMPLES)} examples, 0 other than stored\n" in f"\n{printed}", printed


@pytest.mark.parametrize("name", REFUSALS)
def test_refusal_is_met(name: str) -> None:
    assert any(name in example(*it).refusals for it in EXAMPLES)
