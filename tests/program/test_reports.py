"""`perform`, `try` and `each` are answered as written down here, and as by the plain program, in scripts and over HTTP;
and who makes the changes that they report in a copy of the tables, by SQLite, has the tables of the store."""
from __future__ import annotations

import functools
import json
import tempfile
from pathlib import Path
from typing import Any

import pytest
from kept import performed, rows_beside
from plain import Plain
from plain_plans import MOST_OF_EACH
from plain_store import LIMITS, rows_of
from plan_cases import MOST, START, concept, deprecate, label, link, merge, post, split, withdraw
from program import MEMORY, built, lines_of, over, run, text_of, values_of
from serving import Served, serving
from table_copy import TABLES, TableCopy
from thrown_plans import SMALL, Plans, Script

Request = dict[str, Any]
Change = list[Any]
SCRIPTS = range(1, 21)
LINES = 60
STATES, ANSWERS = performed(Plain(LIMITS), START)

# --- Answers, byte for byte ---

# Requests over the store of START, their changes, and their answers.
PLANS: dict[str, tuple[list[Request], list[Change], list[Request]]] = {
    "scheme": (
        [{"do": "scheme", "tag": "en", "text": "Things"}],
        [["insert", "resource", 14, 1, None, 1, None], ["insert", "label", 14, 1, "en", "Things"]],
        [{"ok": 14}],
    ),
    "text with escapes": (
        [concept('Say "ah"\\')],
        [["insert", "resource", 14, 2, 1, 1, None], ["insert", "label", 14, 1, "en", 'Say "ah"\\']],
        [{"ok": 14}],
    ),
    "outside": (
        [{"do": "outside", "iri": "http://example.org/y"}],
        [["insert", "resource", 14, 4, None, 1, None], ["insert", "outside", 14, "http://example.org/y"]],
        [{"ok": 14}],
    ),
    "labels": (
        [label(2, "Moggies"), {**label(2, "Kitties"), "do": "dropLabel"}],
        [["insert", "label", 2, 2, "en", "Moggies"], ["delete", "label", 2, 2, "en", "Kitties"]],
        [{"done": True}, {"done": True}],
    ),
    "links": (
        [link("related", 2, 6), link("broaderGeneric", 3, 4), link("broader", 2, 4, "unlink")],
        [["insert", "link", 2, 2, 6], ["insert", "hier", 3, 4, 1], ["delete", "hier", 2, 4, 0]],
        [{"done": True}] * 3,
    ),
    "deprecate": ([deprecate(5)], [["retire", 5], ["delete", "link", 2, 3, 5]], [{"done": True}]),
    "post and withdraw": (
        [post("k9", 9), withdraw("$1")],
        [["insert", "posting", 3, "k9", "r", 9, 2, 0], ["insert", "move", 1, 3, 9, 2], ["withdraw", 3]],
        [{"ok": 3}, {"done": True}],
    ),
    "split": (
        [split(2, "Lions", [1])],
        [
            ["insert", "resource", 14, 2, 1, 1, None],
            ["insert", "label", 14, 1, "en", "Lions"],
            ["place", 1, 14],
            ["insert", "move", 1, 1, 2, 14],
        ],
        [{"moved": 1, "ok": 14}],
    ),
    "merge": (
        [merge(2, 6)],
        [
            ["replace", 2, 6],
            ["insert", "label", 6, 2, "en", "Cats"],
            ["insert", "label", 6, 2, "en", "Felines"],
            ["insert", "label", 6, 2, "en", "Kitties"],
            ["delete", "hier", 2, 4, 0],
            ["insert", "hier", 6, 4, 0],
            ["move", 2, 6],
            ["insert", "move", 1, 1, 2, 6],
        ],
        [{"moved": 1}],
    ),
    "a known key": ([post("k1", 2, "r1")], [], [{"again": 1}]),
}
# What is refused or has no form is answered as the array is, and nothing is done.
OTHERS: dict[str, tuple[Any, Request]] = {
    "a refusal": ([concept("C"), deprecate(1)], {"at": 2, "no": "WrongKind"}),
    "a bad reference": ([withdraw("$1")], {"at": 1, "bad": "BadReference"}),
    "a query": ([{"get": "totals"}], {"at": 1, "bad": "BadShape"}),
    "no request": ([], {"bad": "BadShape"}),
    "too many requests": ([concept(f"C{n}") for n in range(MOST + 1)], {"bad": "BadShape"}),
    "no array": ({"do": "scheme"}, {"bad": "BadShape"}),
}


def script(*values: object) -> bytes:
    return lines_of([*START, *values])


def told(*values: object, options: tuple[str, ...] = ()) -> list[bytes]:
    """The lines that answer these, after the store was made."""
    return run([*options, "script", "--plans"], script(*values), built()).out.splitlines()[len(START) :]


@pytest.mark.parametrize("name", PLANS)
def test_plan_is_tried_and_performed(name: str) -> None:
    plan, changes, answers = PLANS[name]
    wanted = text_of({"changes": changes, "done": answers})
    totals = text_of(STATES[-1].show({"get": "totals"}))
    assert told({"try": plan}, {"get": "totals"}, {"try": plan}, {"perform": plan})[:4] == [
        wanted,
        totals,
        wanted,
        wanted,
    ]


@pytest.mark.parametrize("name", OTHERS)
@pytest.mark.parametrize("member", ["perform", "try"])
def test_other_answers_are_those_of_the_array(name: str, member: str) -> None:
    plan, answer = OTHERS[name]
    line = text_of(answer)
    if isinstance(plan, list):
        assert told(plan) == [line]
    assert told({member: plan}, {member: plan}) == [line, line]


EACH = [
    post("k9", 2),
    post("k9", 2),
    {"get": "totals"},
    deprecate(1),
    {"do": "fly"},
    {"do": "withdraw", "posting": "$1"},
    [concept("C")],
    {"each": [concept("C")]},
    withdraw(3),
]


def test_each_request_is_answered_as_alone() -> None:
    (line,) = told({"each": EACH})
    answers = told(*(it if isinstance(it, dict) and "each" not in it else {"do": "no"} for it in EACH))
    changes = [["insert", "posting", 3, "k9", "r", 2, 2, 0], ["withdraw", 3]]
    assert line == b'{"changes":%s,"each":[%s]}' % (text_of(changes), b",".join(answers))
    assert json.loads(line)["each"][5] == json.loads(told(EACH[5])[0])


@pytest.mark.parametrize(
    "value",
    [
        {"each": []},
        {"each": [{"get": "totals"}] * (MOST_OF_EACH + 1)},
        {"each": {}},
        {"each": [concept("C")], "perform": [concept("C")]},
        {"try": [concept("C")], "do": "concept"},
    ],
    ids=["no request", "too many requests", "no array", "two members", "a member of a request"],
)
def test_object_of_another_shape_is_none(value: Request) -> None:
    assert told(value, {"get": "totals"}) == [b'{"bad":"BadShape"}', text_of(STATES[-1].show({"get": "totals"}))]


def test_many_requests_each_by_itself() -> None:
    (line,) = told({"each": [{"get": "totals"}] * MOST_OF_EACH})
    assert json.loads(line) == {"changes": [], "each": [STATES[-1].show({"get": "totals"})] * MOST_OF_EACH}


def test_without_the_option_nothing_is_reported() -> None:
    for value in ({"perform": [concept("C")]}, {"try": [concept("C")]}, {"each": [concept("C")]}):
        assert run(["script"], script(value), built()).out.splitlines()[-1] == b'{"bad":"BadShape"}'


@pytest.mark.parametrize(
    ("value", "status"),
    [
        ({"try": [concept("C")]}, 0),
        ({"try": [deprecate(1)]}, 1),
        ({"perform": []}, 1),
        ({"each": [{"get": "totals"}, concept("C")]}, 0),
        ({"each": [concept("C"), deprecate(1)]}, 1),
        ({"each": [{"do": "fly"}]}, 1),
    ],
)
def test_exit_status_counts_refusals(value: Request, status: int) -> None:
    assert run(["script", "--plans"], script(value), built()).status == status


def answer_over_http(served: Served, value: object) -> tuple[int, bytes]:
    body = text_of(value)
    got = served.answer(b"POST /plans HTTP/1.1\r\nContent-Length: %d\r\n\r\n" % len(body) + body)
    head, _, answer = got.partition(b"\r\n\r\n")
    return int(head.split()[1]), answer


def test_reports_over_http(tmp_path: Path) -> None:
    """Short ones and long ones; the length in the head is that of the two parts of the body."""
    path = tmp_path / "served.db"
    over(path, "script", lines_of(START))
    many = {"try": [concept(f"Concept {n}") for n in range(MOST)]}
    asked = [
        {"try": PLANS["merge"][0]},
        many,
        {"perform": [deprecate(1)]},
        {"each": EACH},
        {"perform": []},
        {"do": "x"},
    ]
    statuses = [200, 200, 409, 200, 400, 400]
    lines = [*told(*asked[:-1]), b'{"bad":"BadShape"}']
    with serving(path, len(asked), after=["--plans"]) as served:
        for value, status, line in zip(asked, statuses, lines):
            assert answer_over_http(served, value) == (status, line + b"\n")
        assert served.end() == (0, b"", b"")


# --- A copy of the tables ---


@functools.cache
def script_of(seed: int) -> Script:
    dice, thrown = Plans(seed), Script(SMALL if seed % 3 == 0 else LIMITS)
    for _ in range(LINES):
        plan = dice.plan(thrown.plain, dice.length())
        if dice.one_in(3):
            requests: list[Any] = [dice.request(thrown.plain, 60) for _ in range(dice.length())]
            thrown.add(text_of({"each": requests}))
        if dice.one_in(2):
            thrown.add(text_of({"try": plan}))
        thrown.add(text_of({"perform": plan}))
    return thrown


def is_in_order(changes: list[Change]) -> bool:
    """Whether each row of move comes after what moved its posting: others of them may be between."""
    for before, change in zip(changes, changes[1:]):
        if change[:2] == ["insert", "move"]:
            moved = before[0] in ("move", "place") or before[:2] in (["insert", "posting"], ["insert", "move"])
            if not moved or before[:2] == change[:2] and before[2] + 1 != change[2]:
                return False
    return all(it[:2] != ["insert", "move"] for it in changes[:1])


def is_refused(answer: Request) -> bool:
    return "no" in answer or "bad" in answer or any(map(is_refused, answer.get("each", [])))


@pytest.mark.parametrize("seed", SCRIPTS)
def test_copy_has_the_tables(seed: int) -> None:
    thrown, copy = script_of(seed), TableCopy()
    given = b"".join(it + b"\n" for it in thrown.lines)
    with tempfile.TemporaryDirectory(dir=MEMORY) as room:
        path = Path(room) / "reports.db"
        ended = over(path, "script", given, *thrown.options(), after=["--plans"])
        assert ended == run([*thrown.options(), "script", "--plans"], given)
        assert ended[::2] == (int(any(map(is_refused, thrown.answers))), b"")
        assert rows_beside(path) == rows_of(thrown.plain)
    out = ended.out.splitlines()
    assert len(out) == len(thrown.lines)
    for place, (line, answer, wanted) in enumerate(zip(thrown.lines, values_of(ended.out), thrown.answers)):
        changes = answer.pop("changes", [])
        assert answer == wanted and is_in_order(changes), line
        if line.startswith(b'{"try"'):
            assert out[place] == out[place + 1], line
            continue
        for change in changes:
            copy.make(change)
    rows = rows_of(thrown.plain)
    assert copy.rows() == {it: sorted(rows[it], key=repr) for it in TABLES}
