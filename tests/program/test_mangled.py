"""Scripts with 10,000 lines, the same in each run, made from whole requests by deleting, doubling and exchanging bytes.
Each is answered by one line, as by the plain program; none stops the program; and all views at the end are those of the
plain program, in memory and over files."""
from __future__ import annotations

import functools
import tempfile
from dataclasses import dataclass, field
from pathlib import Path
from typing import Any

import pytest
from dice import Requests
from mangling import mangled
from plain import Plain
from plain_requests import lines_in, perform
from plain_store import LIMITS
from program import MEMORY, Ended, lines_of, over, run, text_of

SCRIPTS = range(1, 26)
MANGLED = 400


@dataclass
class Script:
    """A script, its expected answers, and the state after it, by the plain program."""

    given: bytes = b""
    answers: list[dict[str, Any]] = field(default_factory=list)
    plain: Plain = field(default_factory=lambda: Plain(LIMITS))

    def add(self, text: bytes) -> None:
        self.given += text + b"\n"
        for line in lines_in(text + b"\n"):
            self.plain, answer = perform(self.plain, line)
            self.answers.append(answer)

    def wanted(self) -> Ended:
        is_refused = any("no" in it or "bad" in it for it in self.answers)
        return Ended(int(is_refused), lines_of(self.answers), b"")


@functools.cache
def script_of(seed: int) -> Script:
    dice, script = Requests(seed), Script()
    for _ in range(MANGLED):
        request = dice.request(script.plain)
        if dice.one_in(2):
            script.add(text_of(request))
        script.add(mangled(dice, text_of(request)))
    for request in script.plain.queries():
        script.add(text_of(request))
    return script


def first_difference(script: Script, ended: Ended) -> str:
    """The first line that was answered otherwise."""
    told = ended.out.splitlines()
    for line, answer, wanted in zip(lines_in(script.given), told, map(text_of, script.answers)):
        if answer != wanted:
            return f"{line!r}: {answer!r}, and not {wanted!r}"
    return f"{len(told)} answers to {len(script.answers)} requests, status {ended.status}, {ended.err[:200]!r}"


@pytest.mark.parametrize("seed", SCRIPTS)
def test_script_is_answered_as_by_the_plain_program(seed: int) -> None:
    script = script_of(seed)
    with tempfile.TemporaryDirectory(dir=MEMORY) as place:
        path = Path(place) / "mangled.db"
        for ended in (run(["script"], script.given), over(path, "script", script.given)):
            assert ended == script.wanted(), first_difference(script, ended)
        assert not over(path, "check").status


def test_lines_have_each_fault() -> None:
    faults = {"NotJson", "BadShape", "BadTag", "BadText", "BadIri", "BadKey", "BadRecord", "BadNumber"}
    assert faults <= {answer.get("bad") for seed in SCRIPTS for answer in script_of(seed).answers}
