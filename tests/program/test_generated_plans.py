"""20,000 plans, the same in each run, mixed with single requests, are answered as by the plain program: in scripts, in
memory and over files, and over HTTP; and all views and rows at the end are those of the plain program. Most plans refer
to what their own requests make; some are refused, malformed, or refer to nothing."""
from __future__ import annotations

import functools
import http.client
import json
import tempfile
from collections import Counter
from collections.abc import Iterator
from pathlib import Path
from typing import Any

import pytest
from kept import rows_beside
from plain_store import LIMITS, rows_of
from program import MEMORY, over, run, text_of
from serving import serving
from thrown_plans import SMALL, Plans, Script

Request = dict[str, Any]
SCRIPTS = range(1, 101)
PLANS = 200
# Each of these is also sent over HTTP.
SERVED = SCRIPTS[::5]


@functools.cache
def script_of(seed: int) -> Script:
    dice, script = Plans(seed), Script(SMALL if seed % 3 == 0 else LIMITS)
    for _ in range(PLANS):
        if dice.one_in(4):
            script.add(text_of(dice.request(script.plain, 60)))
        script.add(dice.thrown(script.plain))
    for request in script.plain.queries():
        script.add(text_of(request))
    return script


def first_difference(script: Script, out: bytes) -> str:
    """The first line that was answered otherwise."""
    told = out.splitlines()
    for line, answer, wanted in zip(script.lines, told, map(text_of, script.answers)):
        if answer != wanted:
            return f"{line!r}: {answer!r}, and not {wanted!r}"
    return f"{len(told)} answers to {len(script.answers)} lines"


@pytest.mark.parametrize("seed", SCRIPTS)
def test_script_is_answered_as_by_the_plain_program(seed: int) -> None:
    script = script_of(seed)
    given = b"".join(it + b"\n" for it in script.lines)
    with tempfile.TemporaryDirectory(dir=MEMORY) as place:
        path = Path(place) / "plans.db"
        for ended in (
            run([*script.options(), "script", "--plans"], given),
            over(path, "script", given, *script.options(), after=["--plans"]),
        ):
            assert ended == script.wanted(), first_difference(script, ended.out) + str(ended.err)
        assert rows_beside(path) == rows_of(script.plain)
        assert not over(path, "check").status


def requests_of(script: Script) -> Iterator[tuple[str, str, bytes, Request]]:
    """The lines of a script as requests of HTTP: method, path, body, and the answer."""
    paths = {
        "totals": "/totals",
        "concept": "/concepts/{}",
        "postings": "/concepts/{}/postings",
        "posting": "/postings/{}",
    }
    for line, answer in zip(script.lines, script.answers):
        value = json.loads(line) if "bad" not in answer else None
        if isinstance(value, dict) and "get" in value:
            yield "GET", paths[value["get"]].format(value.get("number") or value.get("concept")), b"", answer
        elif isinstance(value, dict):
            yield "POST", "/requests", line, answer
        elif line.lstrip().startswith(b"["):
            yield "POST", "/plans", line, answer


@pytest.mark.parametrize("seed", SERVED)
def test_service_answers_as_the_plain_program(seed: int) -> None:
    script = script_of(seed)
    requests = list(requests_of(script))
    with tempfile.TemporaryDirectory(dir=MEMORY) as place:
        path = Path(place) / "plans.db"
        with serving(path, len(requests), *script.options(), after=["--plans"]) as served:
            for method, target, body, wanted in requests:
                connection = http.client.HTTPConnection("127.0.0.1", served.port, timeout=60)
                connection.request(method, target, body)
                told = connection.getresponse()
                is_refused = 409 if method == "POST" else 404
                status = is_refused if "no" in wanted else 400 if "bad" in wanted else 200
                assert (told.status, told.read()) == (status, text_of(wanted) + b"\n"), (method, target, body)
                connection.close()
            assert served.end() == (0, b"", b"")
        assert rows_beside(path) == rows_of(script.plain)


def test_plans_end_in_each_way() -> None:
    """Of all plans at least a third is done, a tenth refused in the middle or at the end, some have each fault."""
    answers = [answer for seed in SCRIPTS[:20] for answer in script_of(seed).answers]
    done = [it for it in answers if isinstance(it.get("done"), list)]
    late = [it for it in answers if it.get("at", 0) > 1 and "no" in it]
    assert len(done) > 20 * PLANS // 3 and len(late) > 20 * PLANS // 10
    faults = Counter(it["bad"] for it in answers if "at" in it and "bad" in it)
    assert {"BadShape", "BadReference"} <= faults.keys()
    assert sum("again" in one for it in done for one in it["done"]) > 20
