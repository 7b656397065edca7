"""`serve` with 10,000 requests of HTTP, the same in each run, most of them made from whole ones by deleting, doubling
and exchanging bytes. A whole one is answered as by the plain program. Any other is cut, or gets an answer of the table;
it changes what the plain program makes of its body, if its answer says that it was performed; and all views at the end
are those of the plain program. The rows of `http_rows.py` are answered as listed, byte for byte. By hand, the clients
of `http_clients.py` hold nobody up for long; that takes some minutes, and its bounds depend on the machine."""
from __future__ import annotations

import json
import re
import tempfile
from collections.abc import Callable, Iterator
from pathlib import Path
from typing import Any

import http_clients
import http_rows
import pytest
from dice import Requests
from kept import started
from mangling import mangled
from plain import Plain
from plain_postings import import_file
from plain_requests import perform
from program import MEMORY, lines_of, text_of
from serving import Served, serving

Request = dict[str, Any]
# The status and the body of an answer; None for a request that is cut.
Answer = tuple[int, bytes] | None
SENT = 10_000
PHRASES = {
    200: b"OK",
    400: b"Bad Request",
    404: b"Not Found",
    405: b"Method Not Allowed",
    409: b"Conflict",
    411: b"Length Required",
    413: b"Payload Too Large",
    501: b"Not Implemented",
}
FORMS = {"BadTag", "BadText", "BadIri", "BadKey", "BadRecord", "BadNumber", "NotJson", "BadShape"}
# What is bad, by its status.
BAD = {
    400: {"BadHead", "BadQuery", *FORMS},
    404: {"NoSuchPath"},
    405: {"BadMethod"},
    411: {"NoLength"},
    413: {"TooLong"},
    501: {"TransferCoding"},
}
TYPES = {
    "export": b"application/n-triples",
    "display": b"text/plain; charset=utf-8",
    "import": b"text/csv; charset=utf-8",
}
ANSWER = re.compile(
    rb"HTTP/1\.1 (\d{3}) ([A-Za-z ]+)\r\nContent-Type: ([a-z/; =8-]+)\r\nContent-Length: (\d+)\r\nConnection: close\r\n"
    rb"(Allow: (?:GET|POST)\r\n)?\r\n",
)
HEAD = re.compile(rb"\r?\n\r?\n")
LENGTH = re.compile(rb"\ncontent-length:[ \t]*(\d+)[ \t]*\r?\n", re.IGNORECASE)
PATHS = {"totals": "/totals", "concept": "/concepts/{}", "postings": "/concepts/{}/postings", "posting": "/postings/{}"}


class Wrong(Exception):
    """What an answer is not to be."""


def parts_of(answer: bytes) -> tuple[int, bytes, bytes]:
    """The status, the type and the body of an answer."""
    head = ANSWER.match(answer)
    if not head:
        raise Wrong("an answer of no form")
    status, phrase, kind, length, allow = head.groups()
    body = answer[head.end() :]
    if PHRASES.get(int(status)) != phrase or len(body) != int(length) or bool(allow) != (status == b"405"):
        raise Wrong("an answer of no form")
    return int(status), kind, body


def path_of(query: Request) -> str:
    return PATHS[query["get"]].format(query.get("number") or query.get("concept"))


def get(path: str, version: str = "1.1") -> bytes:
    return f"GET {path} HTTP/{version}\r\nHost: localhost\r\n\r\n".encode()


def post(path: str, body: bytes) -> bytes:
    return f"POST {path} HTTP/1.1\r\nHost: localhost\r\nContent-Length: {len(body)}\r\n\r\n".encode() + body


def whole(dice: Requests, plain: Plain) -> tuple[bytes, Answer, Plain]:
    """A whole request, with the status and the body of its answer, or None if the plain program has none; and the state
    after it."""
    drawn = dice.below(12)
    if drawn == 0:
        path = dice.pick(
            ("/export", "/display/alphabetical?scheme=1&lang=en", "/display/hierarchical?lang=en&scheme=1")
        )
        return get(path), None, plain
    request = dice.request(plain)
    if drawn == 1:
        rows = b"key,record,concept\nk%d,r1,%d\n" % (dice.below(1000), dice.between(1, 30))
        after, told = import_file(plain, rows)
        assert told is not None
        return post("/import", rows), (200, told), after
    if "get" in request:
        shown = plain.show(request)
        return (
            get(path_of(request), dice.pick(("1.0", "1.1"))),
            (404 if "no" in shown else 200, lines_of([shown])),
            plain,
        )
    after, answer = plain.perform(request)
    return post("/requests", text_of(request)), (409 if "no" in answer else 200, lines_of([answer])), after


def body_of(sent: bytes) -> bytes:
    """The body of a request whose head was mangled, as its length says."""
    sent = sent.lstrip(b"\r\n")
    head = HEAD.search(sent)
    length = LENGTH.search(sent[: head.end()]) if head else None
    if not head or not length:
        raise Wrong("something was performed that has no length")
    return sent[head.end() :][: int(length[1])]


def state_after(plain: Plain, sent: bytes, answer: bytes) -> Plain:
    """The state after a request that may be mangled; raises what is wrong with its answer."""
    if not answer:
        return plain
    status, kind, body = parts_of(answer)
    is_post = sent.lstrip(b"\r\n").startswith(b"POST")
    if is_post and status in (200, 409):
        asked = body_of(sent)
        after, told = import_file(plain, asked) if kind.startswith(b"text/csv") else perform(plain, asked)
        wanted = told if isinstance(told, bytes) else lines_of([told])
        if body != wanted or (status == 409) != (b'"no"' in body[:6]):
            raise Wrong(f"{wanted!r} is wanted")
        return after
    if status != 200:
        said = json.loads(body)
        if said.get("bad") not in BAD.get(status, ()) and not (status == 404 and "no" in said):
            raise Wrong("no answer of the table")
    return plain


def shown(sent: bytes, answer: bytes) -> str:
    return f"{sent[:300]!r} of {len(sent)} bytes: {answer[:300]!r}"


def bad(name: str) -> bytes:
    return lines_of([{"bad": name}])


def edges() -> Iterator[tuple[bytes, Answer]]:
    """Yields bytes to send, each with its answer."""
    merge = post("/requests", text_of({"do": "merge", "source": 2, "target": 3}))
    for sent in (get("/totals"), merge):
        for size in range(len(sent)):
            yield sent[:size], None

    def lines(count: int) -> bytes:
        return b"GET /totals HTTP/1.1\r\n" + b"A: b\r\n" * count + b"\r\n"

    def fill(size: int) -> bytes:
        return b"GET /totals HTTP/1.1\r\nA: " + b"b" * (size - 29) + b"\r\n\r\n"

    totals = (200, b'{"accepted":0,"standing":0,"withdrawn":0}\n')
    yield lines(64), totals
    yield lines(65), (400, bad("BadHead"))
    yield fill(8192), totals
    yield fill(8193), (400, bad("BadHead"))
    yield b"POST /requests HTTP/1.1\r\nContent-Length: %s\r\n\r\n" % (b"9" * 40), (413, bad("TooLong"))
    yield b"POST /requests HTTP/1.1\r\nContent-Length: 1048577\r\n\r\n", (413, bad("TooLong"))
    yield b"POST /import HTTP/1.1\r\nContent-Length: 16777217\r\n\r\n", (413, bad("TooLong"))
    yield b"POST /requests HTTP/1.1\r\n\r\n", (411, bad("NoLength"))
    yield b"POST /requests HTTP/1.1\r\nContent-Length: 1\r\nContent-Length: 1\r\n\r\n1", (400, bad("BadHead"))
    yield b"POST /requests HTTP/1.1\r\nTransfer-Encoding: chunked\r\n\r\n", (501, bad("TransferCoding"))
    yield post("/requests", b" " * 1_048_576), (400, bad("NotJson"))
    yield post("/requests", text_of({"get": "totals"})), (400, bad("BadShape"))
    yield get("/nothing"), (404, bad("NoSuchPath"))
    yield get("/totals/"), (404, bad("NoSuchPath"))
    yield get("/concepts//postings"), (404, bad("NoSuchPath"))
    yield get("/concepts/0"), (400, bad("BadNumber"))
    yield get("/concepts/4294967295"), (404, lines_of([{"no": "UnknownResource"}]))
    yield get("/concepts/4294967296"), (400, bad("BadNumber"))
    yield get("/totals?a=b"), totals
    yield get("/display/alphabetical?scheme=1"), (400, bad("BadQuery"))
    yield get("/display/alphabetical?scheme=1&lang=en&x=y"), (400, bad("BadQuery"))
    yield get("/display/hierarchical?scheme=2&lang=en"), (404, lines_of([{"no": "WrongKind"}]))


@pytest.fixture
def room() -> Iterator[Path]:
    """A folder in memory."""
    with tempfile.TemporaryDirectory(dir=MEMORY) as place:
        yield Path(place)


def check_views(path: Path, plain: Plain) -> None:
    """Compares all views with the plain program's."""
    asked = plain.queries()
    with serving(path, len(asked)) as served:
        for query in asked:
            wanted = plain.show(query)
            answer = served.answer(get(path_of(query)))
            assert parts_of(answer)[::2] == (404 if "no" in wanted else 200, lines_of([wanted])), query


def test_mangled_requests(room: Path) -> None:
    dice, path = Requests(5), room / "served.db"
    plain, met = started(path), set()
    with serving(path, SENT) as served:
        for _ in range(SENT):
            sent, wanted, after = whole(dice, plain)
            is_whole = dice.one_in(4)
            sent = sent if is_whole else mangled(dice, sent)
            answer = served.answer(sent)
            try:
                assert not is_whole or not wanted or parts_of(answer)[::2] == wanted
                plain = after if is_whole else state_after(plain, sent, answer)
            except Wrong as wrong:
                pytest.fail(f"{wrong}: {shown(sent, answer)}")
            met.add(answer[9:12])
        assert served.end() == (0, b"", b"")
    assert met >= {b"", b"200", b"400", b"404", b"409"}
    check_views(path, plain)


EDGES = list(edges())


@pytest.fixture(scope="module")
def served() -> Iterator[Served]:
    """A server of the small store, for a connection at each edge."""
    with tempfile.TemporaryDirectory(dir=MEMORY) as place:
        path = Path(place) / "edges.db"
        started(path)
        with serving(path, len(EDGES)) as server:
            yield server


@pytest.mark.parametrize("place", range(len(EDGES)))
def test_request_at_an_edge(place: int, served: Served) -> None:
    sent, wanted = EDGES[place]
    answer = served.answer(sent)
    assert (parts_of(answer)[::2] if answer else None) == wanted, shown(sent, answer)


def test_request_that_comes_byte_by_byte(room: Path) -> None:
    """It is answered as one that comes at once, whether or not the client closes."""
    path = room / "slow.db"
    plain = started(path)
    sent = post("/requests", text_of({"do": "merge", "source": 2, "target": 3}))
    with serving(path, 2) as served:
        first = served.answer(*(sent[n : n + 1] for n in range(len(sent))), closes=False)
        assert parts_of(first)[::2] == (200, b'{"moved":0}\n')
        assert parts_of(served.answer(sent, closes=False))[::2] == (409, b'{"no":"NotLive"}\n')
    check_views(path, plain.perform({"do": "merge", "source": 2, "target": 3})[0])


def test_rows_are_answered_as_listed(room: Path) -> None:
    assert not list(http_rows.wrong_answers(room))


@pytest.mark.by_hand
@pytest.mark.parametrize(
    "part",
    [http_clients.unread, http_clients.late_and_unread, http_clients.wrong_answers],
    ids=["unread", "late and unread", "others"],
)
def test_clients(part: Callable[[Path], Iterator[str]], room: Path) -> None:
    assert not list(part(room))
