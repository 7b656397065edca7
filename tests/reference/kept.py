"""Checks a store after a run that was cut short: it has the answered requests, and at most one more, whole."""
from __future__ import annotations

import shutil
import tempfile
from collections.abc import Iterable
from pathlib import Path
from typing import Any

from plain import Plain
from plain_plans import perform_any
from plain_store import LIMITS, judge, read_rows, rows_of
from program import MEMORY, lines_of, over, values_of

Request = dict[str, Any]
START: list[Request] = [
    {"do": "scheme", "tag": "en", "text": "Animals"},
    *({"do": "concept", "scheme": 1, "tag": "en", "text": f"Concept {n}"} for n in range(2, 8)),
]


def performed(plain: Plain, requests: Iterable[Request | list[Request]]) -> tuple[list[Plain], list[Request]]:
    """The states after each of the requests or plans in turn, and the answers."""
    states: list[Plain] = [plain]
    answers: list[Request] = []
    for request in requests:
        plain, answer = perform_any(plain, request)
        states.append(plain)
        answers.append(answer)
    return states, answers


def started(path: Path) -> Plain:
    """A new store in a file, and its state."""
    states, answers = performed(Plain(LIMITS), START)
    ended = over(path, "script", lines_of(START))
    assert (ended.status, values_of(ended.out)) == (0, answers), ended
    return states[-1]


def rows_beside(path: Path) -> Any:
    """What SQLite itself reads in a copy of the two files."""
    with tempfile.TemporaryDirectory(dir=MEMORY) as room:
        for file in path.parent.glob(f"{path.name}*"):
            shutil.copy(file, room)
        return read_rows(Path(room) / path.name)


def stands(
    path: Path, states: list[Plain], answers: list[Request], told: list[Request]
) -> tuple[Plain | None, str | None]:
    """The state whose rows are in the file: that after the answered requests, or after one more; or why it is
    neither."""
    if told != answers[: len(told)]:
        return None, f"answers {told[-3:]}, and not {answers[: len(told)][-3:]}"
    left = rows_beside(path)
    ended = over(path, "check")
    rows = rows_beside(path)
    for state in states[len(told) : len(told) + 2]:
        if rows == rows_of(state):
            if left != rows:
                return None, "SQLite reads other rows than the next run leaves"
            if ended != (0, f"{judge(rows)[0]}\n".encode(), b""):
                return None, f"the check: {ended}"
            return state, None
    return None, f"after {len(told)} answers the file has neither their rows nor those of one request more; {ended}"
