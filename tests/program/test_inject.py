"""A store is as its answers say after a call to the system has failed once. Each sync, write, change of length,
opening and renaming of the files in a script, plans, reports, an import, a migration and a service fails in turn, by
strace, with EIO and with ENOSPC. What was answered Store isn't in the store, or the last line on standard error says
that it may be; what was accepted is there; and after the failure requests are accepted again, without a new start. The
changes of rows that are reported are those that were made. A program that makes a store fails, or is killed, at each of
these calls: the next run makes the store, or has it. A migration and a load that fail say why."""
from __future__ import annotations

import contextlib
import json
import os
import re
import socket
import sqlite3
import subprocess
from collections.abc import Callable, Sequence
from concurrent.futures import ThreadPoolExecutor
from pathlib import Path
from typing import Any, NamedTuple

import pytest
from kept import Request, performed, rows_beside
from plain import Plain
from plain_plans import is_report, perform_any
from plain_requests import perform
from plain_store import LIMITS, read_rows, rows_of
from ports import free_port
from program import Ended, Word, built, fault, lines_of, over, values_of
from table_copy import TABLES, TableCopy

pytestmark = pytest.mark.needs("strace")
CALLS = ("fdatasync", "fsync", "pwrite64", "ftruncate", "openat", "rename", "unlink")
ERRORS = ("error=EIO", "error=ENOSPC")
KILL = "signal=SIGKILL"
FULL = {"fault": "Store"}
STORE = b"thesaurus: fault Store\n"
IN_DOUBT = b"thesaurus: a request answered Store may have been performed\n"
START: list[Request] = [
    {"do": "scheme", "tag": "en", "text": "Animals"},
    *({"do": "concept", "scheme": 1, "tag": "en", "text": text} for text in ("Cats", "Dogs", "Mammals", "Pets")),
    {"do": "link", "kind": "broader", "a": 2, "b": 4},
    {"do": "post", "key": "k0", "record": "r0", "concept": 2},
]
# Fifteen requests, each of which is accepted, also if one before it isn't performed; or refused then.
FIFTEEN: list[Request] = [
    {"do": "concept", "scheme": 1, "tag": "en", "text": "Birds"},
    {"do": "addLabel", "owner": 2, "kind": "alt", "tag": "en", "text": "Kitties"},
    {"do": "dropLabel", "owner": 2, "kind": "alt", "tag": "en", "text": "Kitties"},
    {"do": "relabel", "owner": 2, "tag": "en", "text": "Felines", "keep": True},
    {"do": "link", "kind": "broader", "a": 3, "b": 4},
    {"do": "link", "kind": "related", "a": 3, "b": 5},
    {"do": "unlink", "kind": "related", "a": 3, "b": 5},
    {"do": "outside", "iri": "http://example.org/x"},
    {"do": "collection", "scheme": 1, "tag": "en", "text": "Favourites"},
    {"do": "post", "key": "k1", "record": "r1", "concept": 2},
    {"do": "post", "key": "k2", "record": "r2", "concept": 3},
    {"do": "withdraw", "posting": 2},
    {"do": "split", "source": 2, "tag": "en", "text": "Lions", "postings": [1]},
    {"do": "merge", "source": 2, "target": 3},
    {"do": "deprecate", "concept": 5},
]
# The same requests in plans: some of one kind, some that refer to each other; the first is of all kinds.
PLANS: list[list[Request]] = [
    [
        {"do": "concept", "scheme": 1, "tag": "en", "text": "Fish"},
        {"do": "addLabel", "owner": "$1", "kind": "alt", "tag": "en", "text": "Fishes"},
        {"do": "link", "kind": "broader", "a": "$1", "b": 4},
        {"do": "post", "key": "k9", "record": "r9", "concept": "$1"},
        {"do": "split", "source": "$1", "tag": "en", "text": "Carps", "postings": ["$4"]},
        {"do": "merge", "source": "$5", "target": "$1"},
        {"do": "outside", "iri": "http://example.org/y"},
        {"do": "link", "kind": "close", "a": "$1", "b": "$7"},
        {"do": "withdraw", "posting": "$4"},
        {"do": "deprecate", "concept": "$1"},
    ],
    FIFTEEN[:3],
    [FIFTEEN[3], {"do": "concept", "scheme": 1, "tag": "en", "text": "Pets"}],
    FIFTEEN[3:8],
    [*FIFTEEN[8:11], {"do": "withdraw", "posting": "$2"}, *FIFTEEN[12:]],
]
# The same again, with the changes of rows reported; what is tried changes none.
REPORTS: list[Request] = [
    {"try": PLANS[0]},
    {"perform": PLANS[0]},
    {"each": FIFTEEN[:3]},
    {"try": PLANS[2]},
    {"each": [*FIFTEEN[3:5], {"get": "totals"}, *FIFTEEN[5:8], {"do": "fly"}]},
    {"perform": PLANS[4]},
    {"each": [FIFTEEN[14]]},
]
POSTS: list[Request] = [{"do": "post", "key": f"k{n}", "record": f"r{n}", "concept": 3} for n in range(1, 7)]
POSTING_FILE = ("key,record,concept\n" + "".join(f"k{n},r{n},3\n" for n in range(1, 7))).encode()
# The version 1 of a store of version 2.
OLDER = """INSERT INTO link SELECT 1, a, b FROM hier; DROP TABLE hier; DROP INDEX posting_at; DROP INDEX move_posting;
UPDATE meta SET version = 1;"""
# A request or a plan.
Sent = Request | list[Request]


def tracing(path: Path, *how: str) -> list[Word]:
    """Words that run a program so that strace sees the calls about the files of a store."""
    files: list[Word] = [path, f"{path}-wal", f"{path}-making"]
    named: list[Word] = [it for file in files for it in ("-P", file)]
    return ["strace", "-f", "-qq", "-o", f"{path}.trace", *named, "-e", f"trace={','.join(CALLS)}", *how]


def ran(path: Path, words: Sequence[Word], given: bytes, *how: str) -> Ended:
    """Runs a command over a store below strace."""
    call = [*tracing(path, *how), built(), "--db", path, *words]
    ended = subprocess.run(call, input=given, capture_output=True, check=False)
    return Ended(ended.returncode, ended.stdout, ended.stderr)


def started(path: Path) -> Plain:
    """Makes a store in a file, and returns its state."""
    states, answers = performed(Plain(LIMITS), START)
    ended = over(path, "script", lines_of(START))
    assert (ended.status, values_of(ended.out)) == (0, answers), ended
    return states[-1]


def trace_of(path: Path) -> str:
    return (path.parent / f"{path.name}.trace").read_text(encoding="utf-8")


# --- what a store may be afterwards ---


def singly(requests: Sequence[Sent], told: list[Request]) -> list[tuple[Sent, Request]]:
    """Each request or plan with its answer, without changes of rows: of `each` its requests up to the first fault."""
    pairs: list[tuple[Sent, Request]] = []
    for request, answer in zip(requests, told):
        if "each" not in answer or not isinstance(request, dict):
            pairs.append((request, {it: value for it, value in answer.items() if it != "changes"}))
            continue
        assert answer["each"][-1] == FULL or len(answer["each"]) == len(request["each"]), answer
        pairs += zip(request["each"], answer["each"])
    return pairs


def after_each(state: Plain, request: Sent) -> tuple[Plain, Request]:
    """The state and the answer after a request, a plan, or a request of `each`, which may have no form."""
    if isinstance(request, list) or is_report(request):
        return perform_any(state, request)
    return perform(state, json.dumps(request).encode())


def states_for(plain: Plain, requests: Sequence[Sent], told: list[Request], in_doubt: bool) -> list[Plain]:
    """The states that a store may have after these answers."""
    states = [plain]
    for request, answer in singly(requests, told):
        after = [after_each(state, request) for state in states]
        if answer == FULL:
            states = [*states, *(state for state, _ in after)] if in_doubt else states
        else:
            states = [state for state, said in after if said == answer]
    return states


def wrong_rows(path: Path, states: list[Plain]) -> str | None:
    """Why the rows of a store, before and after the next run, aren't those of one of these states; or None."""
    left, ended, rows = rows_beside(path), over(path, "check"), read_rows(path)
    if ended.status or ended.err:
        return f"the check: {ended}"
    if left != rows:
        return "SQLite reads other rows than the next run leaves"
    return None if rows in [rows_of(state) for state in states] else "other rows than the answers say"


def wrong_changes(plain: Plain, requests: Sequence[Sent], told: list[Request]) -> str | None:
    """Why the changes in the answers, made one after another, don't lead to the rows that the answers say; or None."""
    copy = TableCopy(rows_of(plain))
    for request, answer in zip(requests, told):
        for change in [] if "try" in request else answer.get("changes", []):
            copy.make(change)
    (state,) = states_for(plain, requests, told, in_doubt=False)
    wanted = rows_of(state)
    return None if copy.rows() == {it: sorted(wanted[it], key=repr) for it in TABLES} else "other changes are reported"


def wrong_answers(path: Path, plain: Plain, told: list[Request], err: bytes, requests: Sequence[Sent]) -> str | None:
    """Why the answers to the requests, and the store after them, aren't right; or None."""
    faults = [answer for _, answer in singly(requests, told)].count(FULL)
    if told and len(told) != len(requests):
        return f"{len(told)} answers"
    if faults > 1:
        return f"{faults} answers are Store"
    if faults and STORE not in err:
        return "no fault on standard error"
    if all(map(is_report, requests)) and (why := wrong_changes(plain, requests, told)):
        return why
    return wrong_rows(path, states_for(plain, requests, told, err.endswith(IN_DOUBT)))


def is_faulty(answer: Request) -> bool:
    """Whether a request was answered Store, or the last one of `each`."""
    return FULL in (answer, *answer.get("each", []))


def is_refused(answer: Request) -> bool:
    return "no" in answer or "bad" in answer or any(map(is_refused, answer.get("each", [])))


def status_of(told: list[Request]) -> int:
    """The exit status of a script with these answers."""
    return 3 if any(map(is_faulty, told)) else int(any(map(is_refused, told)))


# --- what is done while a call fails ---


class Served(NamedTuple):
    """How a service ended, and its answers with their statuses."""

    ended: Ended
    told: list[tuple[bytes, Request]]


class Work:
    """A script of requests."""

    kinds: tuple[str, ...] = ERRORS
    sent: Sequence[Sent] = ()
    options: tuple[str, ...] = ()

    def prepare(self, path: Path) -> Plain:
        """Makes a store, unless nothing is prepared, and returns its state."""
        return started(path)

    def run(self, path: Path, *how: str) -> Any:
        return ran(path, ["script", *self.options], lines_of(self.sent), *how)

    def wrong(self, path: Path, plain: Plain, it: Any) -> str | None:
        """What is wrong after a run in which a call failed, or None."""
        told = values_of(it.out)
        if told and it.status != status_of(told):
            return f"exit status {it.status}"
        return wrong_answers(path, plain, told, it.err, self.sent)


class Script(Work):
    """A script of fifteen requests."""

    sent = FIFTEEN


class PlanScript(Work):
    """A script of plans: of each all requests are performed, or none."""

    sent: Sequence[Sent] = PLANS
    options = ("--plans",)


class ReportScript(PlanScript):
    """A script whose changes of rows are reported: of a plan all are made, or none, and none of what is tried; of
    `each` those before the fault."""

    sent = REPORTS


class Import(Work):
    """An import: all rows, which are one group, are performed, or none; and the file can be imported again."""

    def file(self, path: Path) -> Path:
        file = path.parent / "postings.csv"
        if not file.exists():
            file.write_bytes(POSTING_FILE)
        return file

    def run(self, path: Path, *how: str) -> Ended:
        return ran(path, ["import", self.file(path)], b"", *how)

    def wrong(self, path: Path, plain: Plain, it: Ended) -> str | None:
        states, _ = performed(plain, POSTS)
        why = wrong_rows(path, [plain, states[-1]] if it.status else states[-1:])
        again = over(path, "import", after=[self.file(path)])
        return why or (f"imported again: {again}" if again.status or read_rows(path) != rows_of(states[-1]) else None)


class Migration(Work):
    """A migration leaves one of the two versions, and can be run again; its fault has the reason of the failure."""

    def prepare(self, path: Path) -> Plain:
        plain = started(path)
        with contextlib.closing(sqlite3.connect(path)) as base:
            base.executescript(OLDER)
        return plain

    def run(self, path: Path, *how: str) -> Ended:
        return ran(path, ["migrate"], b"", *how)

    def wrong(self, path: Path, plain: Plain, it: Ended) -> str | None:
        reason = "no room" if "ENOSPC" in path.name else "can't be written"
        if "openat" in path.name and path.stem.endswith("-1"):
            reason = "can't be read"  # (The file is looked at first.)
        if it.status and it != fault(path, "Store", reason):
            return f"another reason: {it}"
        again = over(path, "migrate") if it.status else it
        return wrong_rows(path, [plain]) if again == (0, b"version 2\n", b"") else f"migrated again: {again}"


def asked(port: int, request: Sent) -> tuple[bytes, Request]:
    """The status and the answer to a request or a plan over HTTP."""
    is_plan = isinstance(request, list) or is_report(request)
    body, path = json.dumps(request).encode(), b"plans" if is_plan else b"requests"
    with socket.create_connection(("127.0.0.1", port), timeout=60) as client:
        client.sendall(b"POST /%s HTTP/1.1\r\nContent-Length: %d\r\n\r\n" % (path, len(body)) + body)
        told = b""
        while more := client.recv(65536):
            told += more
    head, _, answer = told.partition(b"\r\n\r\n")
    return head.split()[1], json.loads(answer)


class Service(Work):
    """A service answers 503 to the request or plan that failed, and performs the later ones."""

    sent: Sequence[Sent] = FIFTEEN

    def run(self, path: Path, *how: str) -> Served:
        port, told = free_port(), []
        words = ["serve", "--port", str(port), "--count", str(len(self.sent)), *self.options]
        call = [*tracing(path, *how), built(), "--db", path, *words]
        with subprocess.Popen(call, stdout=subprocess.PIPE, stderr=subprocess.PIPE) as program:
            assert program.stdout
            if program.stdout.readline():
                told = [asked(port, request) for request in self.sent]
            out, err = program.communicate(timeout=60)
        return Served(Ended(program.returncode, out, err), told)

    def wrong(self, path: Path, plain: Plain, it: Served) -> str | None:
        answers = [answer for _, answer in it.told]
        if [is_faulty(answer) for answer in answers] != [status == b"503" for status, _ in it.told]:
            return f"other statuses: {it.told}"
        # A service goes on after a fault, so standard error has none.
        return wrong_answers(path, plain, answers, STORE + it.ended.err, self.sent)


class PlanService(Service):
    """The same with plans."""

    sent = PLANS
    options = ("--plans",)


class ReportService(Service):
    """The same with reports: 503 also if `each` ends in a fault."""

    sent = REPORTS
    options = ("--plans",)


class Making(Work):
    """The making of a store: whatever fails, and wherever the program is killed, the next run makes the store or has
    it, and a check of it finds no fault then."""

    kinds = (*ERRORS, KILL)

    def prepare(self, path: Path) -> Plain:
        return Plain(LIMITS)

    def wrong(self, path: Path, plain: Plain, it: Ended) -> str | None:
        ended = over(path, "script")
        if ended != (0, b"", b"") or path.with_name(f"{path.name}-making").exists():
            return f"the next run: {ended}, {sorted(it.name for it in path.parent.glob(f'{path.name}*'))}"
        return wrong_rows(path, [plain])


WORKS: dict[str, Callable[[], Work]] = {
    "script": Script,
    "plans": PlanScript,
    "reports": ReportScript,
    "import": Import,
    "migration": Migration,
    "service": Service,
    "plans over HTTP": PlanService,
    "reports over HTTP": ReportService,
    "making": Making,
}


# --- each call fails in turn ---


class Failure(NamedTuple):
    """A call that failed: its name, how it failed, which one it was, whether it did, and what is wrong then."""

    call: str
    kind: str
    number: int
    hit: bool
    why: str | None


def fail(work: Work, path: Path, kept: bytes | None, plain: Plain, which: tuple[str, str, int]) -> Failure:
    """Does the work over a copy of a store while a call fails."""
    call, kind, number = which
    copy = path.with_name(f"{path.stem}-{call}-{kind}-{number}.db")
    if kept is not None:
        copy.write_bytes(kept)
    it = work.run(copy, "-e", f"inject={call}:{kind}:when={number}")
    hit = "(INJECTED)" in trace_of(copy) or it == (-9, b"", b"")
    why = work.wrong(copy, plain, it) if hit else None
    for file in copy.parent.glob(f"{copy.name}*"):
        file.unlink()
    return Failure(call, kind, number, hit, why and f"{why}; {it}")


@pytest.fixture(scope="module", params=WORKS)
def failures(request: pytest.FixtureRequest, shared_room: Path) -> list[Failure]:
    """Each call of a work that can fail, in turn."""
    work = WORKS[request.param]()
    room = shared_room / request.param.replace(" ", "-")
    room.mkdir()
    path = room / "store.db"
    plain = work.prepare(path)
    kept = path.read_bytes() if path.exists() else None
    work.run(path)
    trace = trace_of(path)
    counts = {call: len(re.findall(rf"\b{call}\(", trace)) for call in CALLS}
    each = [(call, kind, n) for call, count in counts.items() for kind in work.kinds for n in range(1, count + 1)]
    with ThreadPoolExecutor(os.cpu_count()) as pool:
        return list(pool.map(lambda which: fail(work, path, kept, plain, which), each))


def test_calls_fail(failures: list[Failure]) -> None:
    assert any(it.hit for it in failures)


@pytest.mark.parametrize("kind", (*ERRORS, KILL))
@pytest.mark.parametrize("call", CALLS)
def test_store_is_as_its_answers_say(call: str, kind: str, failures: list[Failure]) -> None:
    """(Not each work makes each call.)"""
    assert [it for it in failures if (it.call, it.kind) == (call, kind) and it.why] == []


# --- the reason why a load fails ---


def checked(path: Path, *how: str) -> Ended:
    """Checks a store below strace, which sees the reads of its file."""
    words: list[Word] = ["strace", "-f", "-qq", "-o", f"{path}.trace", "-P", path, "-e", "trace=pread64", *how]
    ended = subprocess.run([*words, built(), "--db", path, "check"], capture_output=True, check=False)
    return Ended(ended.returncode, ended.stdout, ended.stderr)


@pytest.fixture(scope="module")
def large(shared_room: Path) -> tuple[Path, int]:
    """A store whose file has more pages than the program keeps in memory, and the number of reads of a check: the last
    one is the load's, as the pages of the store are the first."""
    path = shared_room / "large.db"
    started(path)
    with contextlib.closing(sqlite3.connect(path)) as base:
        base.executescript("PRAGMA journal_mode = DELETE; PRAGMA page_size = 65536; VACUUM; CREATE TABLE f (b)")
        base.executemany("INSERT INTO f VALUES (zeroblob(?))", [(10_000_000,)] * 30)
        base.commit()
    assert checked(path).status == 0
    return path, trace_of(path).count("pread64(")


@pytest.mark.parametrize(("how", "why"), [("error=EIO", "can't be read"), ("retval=65536", "damaged")])
def test_load_that_fails_says_why(how: str, why: str, large: tuple[Path, int]) -> None:
    """A read that answers without reading leaves other bytes than the page has."""
    path, reads = large
    assert checked(path, "-e", f"inject=pread64:{how}:when={reads}") == fault(path, "Store", why)
