"""Plans are answered as listed in plan_cases.py, over HTTP and in scripts, in memory and in files; one that isn't done
changes nothing; and a plan that is done is one commit."""
from __future__ import annotations

import json
import re
import subprocess
from collections.abc import Iterable, Iterator
from pathlib import Path
from typing import Any

import pytest
from kept import performed, rows_beside
from plain import Plain
from plain_plans import perform_any, perform_body, perform_line
from plain_store import LIMITS, rows_of
from plan_cases import (
    ACCEPTED,
    MOST,
    NOTHING_MADE,
    REFUSALS,
    RESOURCE_MADE,
    START,
    WRITTEN,
    Case,
    accepted,
    bad_references,
    concept,
    deprecate,
    faults,
    merge,
    placed,
    post,
    refusals,
    relabel,
    split,
)
from plan_cases import LIMITS as LIMITED
from program import Ended, built, lines_of, over, run, text_of, values_of
from serving import Served, serving

Request = dict[str, Any]
UNCHANGING = [*faults(), *bad_references(), *refusals()]
DONE = [*accepted()]
# The plain program reads JSON of any depth, and Python no number of more digits than this.
DEEP = "NotJson: too deep"
STATES, ANSWERS = performed(Plain(LIMITS), START)
SINGLE = [(name, plan[0]) for name, plan, _ in ACCEPTED if len(plan) == 1]


def names_of(cases: Iterable[Case]) -> list[str]:
    return [it.name for it in cases]


def is_line(text: bytes) -> bool:
    """Whether a text can be a line of a script that is answered: other lines aren't, or are several."""
    return bool(text.strip()) and b"\n" not in text


def script(*texts: bytes) -> bytes:
    """A script that makes the store, and then has these lines."""
    return lines_of(START) + b"".join(it + b"\n" for it in texts)


def plans(given: bytes, *options: str) -> Ended:
    """Runs a script with plans over a store in memory."""
    return run([*options, "script", "--plans"], given, built())


def answers_after_start(ended: Ended) -> list[Any]:
    answers = values_of(ended.out)
    assert answers[: len(START)] == ANSWERS, ended
    return answers[len(START) :]


def status_of(answer: Request) -> int:
    return 200 if "done" in answer else 400 if "bad" in answer else 409


def sent(path: str, body: bytes) -> bytes:
    return b"POST %s HTTP/1.1\r\nContent-Length: %d\r\n\r\n" % (path.encode(), len(body)) + body


def answer_over_http(served: Served, body: bytes, path: str = "/plans") -> tuple[int, bytes]:
    """Sends a body, and returns the status and the body of the answer."""
    head, _, told = served.answer(sent(path, body)).partition(b"\r\n\r\n")
    assert b"\r\nContent-Type: application/json\r\n" in head, head
    return int(head.split()[1]), told


@pytest.fixture(scope="module")
def store(tmp_path_factory: pytest.TempPathFactory) -> Path:
    """The store of the plans."""
    path = tmp_path_factory.mktemp("plans") / "store.db"
    assert values_of(over(path, "script", lines_of(START)).out) == ANSWERS
    return path


# --- What changes nothing ---


@pytest.fixture(scope="module")
def unchanged(store: Path) -> Iterator[Served]:
    """A service that is sent only what changes nothing; at its end the rows are those of the start."""
    rows = rows_beside(store)
    with serving(store, len(UNCHANGING), after=["--plans"]) as served:
        yield served
        assert served.end() == (0, b"", b"")
    assert rows_beside(store) == rows == rows_of(STATES[-1])


@pytest.mark.parametrize("it", UNCHANGING, ids=names_of(UNCHANGING))
def test_plan_that_is_not_done_over_http(it: Case, unchanged: Served) -> None:
    assert answer_over_http(unchanged, it.text) == (status_of(it.answer), text_of(it.answer) + b"\n")


def test_plans_that_are_not_done_in_a_script(tmp_path: Path) -> None:
    """In memory and in a file, one after another: each changes nothing."""
    cases = [it for it in UNCHANGING if is_line(it.text)]
    views = [text_of(it) for it in STATES[-1].queries()]
    given = script(*(it.text for it in cases), *views)
    wanted = lines_of([*ANSWERS, *(it.answer for it in cases), *map(STATES[-1].show, STATES[-1].queries())])
    path = tmp_path / "script.db"
    for ended in (plans(given), over(path, "script", given, after=["--plans"])):
        for it, answer in zip(cases, answers_after_start(ended)):
            assert answer == it.answer, it.name
        assert ended == (1, wanted, b"")
    assert rows_beside(path) == rows_of(STATES[-1])


@pytest.mark.parametrize("it", [it for it in UNCHANGING if it.name != DEEP], ids=lambda it: it.name)
def test_plain_program_says_so(it: Case) -> None:
    assert perform_body(STATES[-1], it.text) == (STATES[-1], it.answer)


# --- What is done ---


@pytest.mark.parametrize("it", DONE, ids=names_of(DONE))
def test_plan_that_is_done(it: Case, store: Path, tmp_path: Path) -> None:
    """Over HTTP, and in a script in memory and in a file: the same rows and views as the plain program's."""
    after, answer = perform_body(STATES[-1], it.text)
    assert answer == it.answer
    path = tmp_path / "served.db"
    path.write_bytes(store.read_bytes())
    with serving(path, 1, after=["--plans"]) as served:
        assert answer_over_http(served, it.text) == (200, text_of(it.answer) + b"\n")
        assert served.end() == (0, b"", b"")
    assert rows_beside(path) == rows_of(after)
    views = [text_of(view) for view in after.queries()]
    given = script(it.text.replace(b"\n", b" "), *views)
    for ended in (plans(given), over(tmp_path / "script.db", "script", given, after=["--plans"])):
        assert ended.out == lines_of([*ANSWERS, it.answer, *map(after.show, after.queries())])
    assert rows_beside(tmp_path / "script.db") == rows_of(after)


@pytest.mark.parametrize("place", range(len(ACCEPTED)), ids=[name for name, *_ in ACCEPTED])
def test_plan_is_its_requests_one_after_another(place: int) -> None:
    """With the numbers in place of references they get the same answers alone."""
    _, plan, answers = ACCEPTED[place]
    numbers = [it.get("ok", it.get("again")) for it in answers]

    def number(value: Any) -> Any:
        if isinstance(value, list):
            return [number(it) for it in value]
        is_reference = isinstance(value, str) and re.fullmatch(r"\$[0-9]+", value)
        return numbers[int(value[1:]) - 1] if is_reference else value

    texts = ("do", "tag", "text", "key", "record", "iri", "kind")
    alone = [{name: it if name in texts else number(it) for name, it in request.items()} for request in plan]
    assert answers_after_start(plans(script(*map(text_of, alone)))) == answers


@pytest.mark.parametrize("place", range(len(ACCEPTED)), ids=[name for name, *_ in ACCEPTED])
def test_refused_plan_is_taken_back(place: int, tmp_path: Path) -> None:
    """Behind a plan whose last request alone is refused, views are as before it, and the others are done as if new."""
    _, plan, answers = ACCEPTED[place]
    refused = [*plan[: MOST - 1], deprecate(1)]
    views = list(STATES[-1].queries())
    given = script(text_of(refused), *map(text_of, views), text_of(plan))
    wanted = [{"at": len(refused), "no": "WrongKind"}, *map(STATES[-1].show, views), {"done": answers}]
    assert answers_after_start(plans(given)) == wanted
    assert answers_after_start(over(tmp_path / "script.db", "script", given, after=["--plans"])) == wanted


# Each kind of request, and those that destroy much.
KINDS: dict[str, Request] = {
    **NOTHING_MADE,
    **RESOURCE_MADE,
    "post": post("k9", 9),
    "relabel that keeps the term": relabel(2, "House cats", True),
    "deprecate with a link": deprecate(5),
    "merge with a posting, labels and links": merge(2, 3),
    "merge of related concepts": merge(3, 5),
    "split with a posting": split(2, "Lions", [1]),
}


@pytest.mark.parametrize("name", KINDS)
def test_each_request_is_taken_back_at_each_place(name: str) -> None:
    """At the first, the middle and the last place of a refused plan; the views are as before, and then it is done."""
    request = KINDS[name]
    views = list(STATES[-1].queries())
    refused = [[*plan, deprecate(1)] for _, _, plan in placed(request)]
    given = script(*(text_of(it) for plan in refused for it in (plan, *views)), text_of([request]))
    shown = [{"at": len(refused[0]), "no": "WrongKind"}, *map(STATES[-1].show, views)]
    done = {"done": [STATES[-1].perform(request)[1]]}
    assert answers_after_start(plans(given)) == [*shown * len(refused), done]


@pytest.mark.parametrize("end", [deprecate(7), merge(7, 3)], ids=["deprecate", "merge"])
def test_a_name_that_is_taken_back_is_taken(end: Request) -> None:
    """A refused plan ends a concept and gives its name to another; then the name is that of the first again."""
    named = concept("Wolves")
    answers = answers_after_start(plans(script(text_of([end, named, deprecate(1)]), text_of([named]))))
    assert answers == [{"at": 3, "no": "WrongKind"}, {"at": 1, "no": "PreferredTaken"}]


@pytest.mark.parametrize("name", [*REFUSALS, *(it for it, _ in SINGLE)])
def test_plan_of_one_request_is_that_request(name: str) -> None:
    request = REFUSALS.get(name) or dict(SINGLE)[name]
    (answer,) = answers_after_start(plans(script(text_of(request))))
    (planned,) = answers_after_start(plans(script(text_of([request]))))
    wanted: Request = {"at": 1, **answer} if "no" in answer else {"done": [answer]}
    assert planned == wanted


@pytest.mark.parametrize(("what", "limit", "plan", "answer"), LIMITED)
def test_limit_holds_after_each_request(what: str, limit: int, plan: list[Request], answer: Request) -> None:
    """Of the same plan with the least limit that all its requests keep, all is done."""
    assert answers_after_start(plans(script(text_of(plan)), f"--max-{what}", str(limit))) == [answer]
    (more,) = answers_after_start(plans(script(text_of(plan)), f"--max-{what}", str(limit + 1)))
    assert len(more["done"]) == len(plan)


def test_numbers_of_a_refused_plan_are_given_again() -> None:
    refused = [concept("C"), post("k9", "$1"), concept("Dogs")]
    done = [concept("D"), post("k9", "$1")]
    answers = answers_after_start(plans(script(text_of(refused), text_of(done), text_of(concept("C")))))
    assert answers == [{"at": 3, "no": "PreferredTaken"}, {"done": [{"ok": 14}, {"ok": 3}]}, {"ok": 15}]


# --- How plans are asked for ---


def test_without_the_option_there_are_no_plans(store: Path) -> None:
    """An array is no request, and there is no such path."""
    plan = text_of([concept("C")])
    assert answers_after_start(run(["script"], script(plan), built())) == [{"bad": "BadShape"}]
    with serving(store, 2) as served:
        assert answer_over_http(served, plan) == (404, b'{"bad":"NoSuchPath"}\n')
        assert answer_over_http(served, plan, "/requests") == (400, b'{"bad":"BadShape"}\n')


def test_each_path_takes_its_own(store: Path) -> None:
    """POST /requests takes no array and POST /plans no object, and a GET of it is refused."""
    with serving(store, 5, after=["--plans"]) as served:
        assert answer_over_http(served, text_of([concept("C")]), "/requests") == (400, b'{"bad":"BadShape"}\n')
        assert answer_over_http(served, text_of(concept("C"))) == (400, b'{"bad":"BadShape"}\n')
        for method in (b"GET", b"PUT"):
            got = served.answer(b"%s /plans HTTP/1.1\r\n\r\n" % method)
            assert got.startswith(b"HTTP/1.1 405 Method Not Allowed\r\n") and b"\r\nAllow: POST\r\n" in got
        assert answer_over_http(served, b"", "/plans/") == (404, b'{"bad":"NoSuchPath"}\n')


def test_other_lines_and_paths_are_as_before(store: Path) -> None:
    """With the option: requests, queries, blank lines and lines that are none."""
    lines = [b"", b" \t", text_of({"get": "totals"}), b"null", b"1", b"{", text_of(REFUSALS["Cycle"]), b"\xff", b'"$1"']
    given = script(*lines)
    assert plans(given) == run(["script"], given, built())
    asked = b"GET /totals HTTP/1.1\r\n\r\n"
    with serving(store, 1, after=["--plans"]) as one, serving(_copy(store), 1) as other:
        assert one.answer(asked) == other.answer(asked)


def _copy(store: Path) -> Path:
    copy = store.with_name("copy.db")
    copy.write_bytes(store.read_bytes())
    return copy


BLANKS = {"a line of 1,048,576 bytes": (1_048_576, True), "a line of one byte more": (1_048_577, False)}


@pytest.mark.parametrize("name", BLANKS)
def test_length_of_a_plan_in_a_script(name: str) -> None:
    length, fits = BLANKS[name]
    ended = plans(script(text_of([concept("C")]).ljust(length)))
    assert answers_after_start(ended) == ([{"done": [{"ok": 14}]}] if fits else [])
    assert (ended.status, ended.err) == ((0, b"") if fits else (3, b"thesaurus: fault TooLong\n"))


@pytest.mark.parametrize("name", BLANKS)
def test_length_of_a_plan_over_http(name: str, store: Path, tmp_path: Path) -> None:
    length, fits = BLANKS[name]
    path = tmp_path / "long.db"
    path.write_bytes(store.read_bytes())
    with serving(path, 1, after=["--plans"]) as served:
        wanted = (200, b'{"done":[{"ok":14}]}\n') if fits else (413, b'{"bad":"TooLong"}\n')
        assert answer_over_http(served, text_of([concept("C")]).ljust(length)) == wanted


STATUSES: dict[str, tuple[list[object], int]] = {
    "a plan that is done": ([[concept("C")]], 0),
    "a plan that is refused": ([[concept("C"), concept("Dogs")]], 1),
    "a malformed plan": ([[]], 1),
    "a plan behind a refused one": ([[concept("Dogs")], [concept("C")]], 1),
}


@pytest.mark.parametrize("name", STATUSES)
def test_exit_status(name: str) -> None:
    lines, status = STATUSES[name]
    assert plans(script(*map(text_of, lines))).status == status


@pytest.mark.parametrize("name", names_of(WRITTEN))
def test_written_otherwise_by_the_plain_program(name: str) -> None:
    it = next(it for it in WRITTEN if it.name == name)
    assert perform_line(STATES[-1], it.text)[1] == it.answer


# --- One commit ---

MANY = [concept(f"C{n}") for n in range(MOST)]
KNOWN = post("k1", 2, "r1")
# Lines, and to which other lines they take as many calls that have the disk confirm what was written.
COMMITS: dict[str, tuple[list[Any], list[Any]]] = {
    "a plan of 128 requests, and one request": ([MANY], [concept("C")]),
    "a plan of many kinds, and one request": (
        [next(it for name, it, _ in ACCEPTED if "turned" in name)],
        [concept("C")],
    ),
    "two plans, and two requests": ([MANY[:4], MANY[4:8]], MANY[:2]),
    "a plan with a known posting, and one request": ([[KNOWN, concept("C"), KNOWN]], [concept("C")]),
    "a plan of known postings, and nothing": ([[KNOWN] * 3], []),
    "a refused plan, and nothing": ([[concept("C"), concept("Dogs")]], []),
    "a malformed plan, and nothing": ([[concept("C"), {}]], []),
    "a plan with a bad reference, and nothing": ([[concept("C"), concept("C", "$2")]], []),
}


def confirmations(store: Path, lines: list[Any]) -> int:
    """How often a script has the disk confirm something."""
    path, trace = _copy(store), store.with_name("trace")
    words = [
        "strace",
        "-f",
        "-qq",
        "-o",
        trace,
        "-e",
        "trace=fdatasync,fsync",
        built(),
        "--db",
        path,
        "script",
        "--plans",
    ]
    subprocess.run(words, input=lines_of(lines), stdout=subprocess.PIPE, check=False)
    return len(re.findall(r"\bf(?:data)?sync\(", trace.read_text(encoding="utf-8")))


@pytest.mark.needs("strace")
@pytest.mark.parametrize("name", COMMITS)
def test_plan_is_one_commit(name: str, store: Path) -> None:
    lines, others = COMMITS[name]
    assert confirmations(store, lines) == confirmations(store, others)


def test_mixed_lines_are_performed_in_their_order() -> None:
    lines = [concept("C"), [concept("D"), post("k9", "$1")], post("k9", 15), {"get": "totals"}, [concept("C")]]
    after, wanted = STATES[-1], []
    for it in lines:
        after, answer = (after, after.show(it)) if isinstance(it, dict) and "get" in it else perform_any(after, it)
        wanted.append(answer)
    assert answers_after_start(plans(script(*(json.dumps(it).encode() for it in lines)))) == wanted
