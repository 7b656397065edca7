"""Clients that send too much, or without end, don't read their answer, or go away: each costs the server its own
answer, some time and little memory, and the next client is answered as usual."""
from __future__ import annotations

import contextlib
import re
import socket
import struct
import time
from collections.abc import Iterator
from concurrent.futures import ThreadPoolExecutor
from pathlib import Path

from http_rows import BAD_HEAD, BROADER, CODING, CONFLICT, CUT, SIZES, START, TOO_LONG, TOTAL, asked, bad, get, post
from program import lines_of, over
from serving import Served, serving

MILLION = 1_000_000
# Bounds on what a server reads after an answer, in bytes and in seconds.
MOST, SECONDS = 2_000 * MILLION, 20
# An answer is given up after 30 seconds, and one more for each 100,000 bytes of it that were taken, some of them by the
# system's buffers.
PATIENCE = 120
# The seconds between bytes that drip, after an answer and within a request; how long a client may take, and what may be
# measured beyond it.
PAUSES = (0.001, 0.0035, 0.01)
SEEN_OFF, ALLOWED, SLACK = 2, 30, 15
# Bounds on the growth of the peak memory, in KiB: without a body, and with a body of 16 MiB.
LITTLE, BODY = 2_000, 64_000
ANNOUNCED = 16_777_216
CONCEPTS = 8_000
GONE = (b"", b"GET /exp", post("/import", b"key,record,concept\n", 60), get("/export"), post("/requests", BROADER))


def long_ones() -> Iterator[tuple[bytes, bytes, bytes]]:
    """Requests with the bytes after their heads: bodies that are too long, bytes after a body, and after a request
    without one."""
    for size in (17, 40, 100):
        for path in ("/import", "/requests"):
            yield post(path, b"", size * MILLION), bytes(size * MILLION), TOO_LONG
    yield get("/totals", f"Content-Length: {100 * MILLION}"), bytes(100 * MILLION), TOTAL
    yield post("/requests", BROADER), bytes(40 * MILLION), CONFLICT
    yield asked("POST /import HTTP/1.1", "Transfer-Encoding: chunked"), bytes(40 * MILLION), CODING
    yield b"", b"x" * (40 * MILLION), BAD_HEAD


# How many clients there are.
CASES = len(list(long_ones())) + 2 + 2 * len(PAUSES) + 10 + 2 * len(GONE) + 1 + 3


def connected(served: Served) -> socket.socket:
    return socket.create_connection(("127.0.0.1", served.port), timeout=PATIENCE)


@contextlib.contextmanager
def told_too_long(served: Served) -> Iterator[socket.socket]:
    """A client that has read its answer, which must say that its body is too long, and can send more."""
    with connected(served) as client:
        client.sendall(post("/import", b"", 17 * MILLION))
        if client.recv(65536) != TOO_LONG:
            raise ConnectionError("another answer")
        with contextlib.suppress(ConnectionResetError, BrokenPipeError):
            yield client


def without_end(served: Served) -> Iterator[str]:
    """A client that sends as fast as it can."""
    sent = 0
    with told_too_long(served) as client:
        while sent < MOST:
            sent += client.send(bytes(MILLION))
    if sent >= MOST:
        yield f"a client that sends without end could send {sent} bytes"


def drip(client: socket.socket, pause: float) -> None:
    """Sends a byte after each pause, until the server closes the connection or a good while has passed."""
    began = time.monotonic()
    while time.monotonic() - began < PATIENCE:
        client.send(b" ")
        time.sleep(pause)


def now_and_then(served: Served) -> Iterator[str]:
    """Clients that send a byte now and then after their answers are seen off in two seconds."""
    for pause in PAUSES:
        began = time.monotonic()
        with told_too_long(served) as client:
            drip(client, pause)
        if time.monotonic() - began >= SEEN_OFF + SLACK:
            yield (
                f"a client that sends a byte each {pause} seconds after its answer holds the server for "
                f"{time.monotonic() - began:.0f}"
            )


def dripping(served: Served) -> Iterator[str]:
    """Clients whose body drips have thirty seconds, and nothing is performed."""
    for pause in PAUSES:
        began = time.monotonic()
        with connected(served) as client, contextlib.suppress(ConnectionResetError, BrokenPipeError):
            client.sendall(post("/import", b"", ANNOUNCED))
            drip(client, pause)
        if not ALLOWED - 1 <= time.monotonic() - began < ALLOWED + SLACK:
            yield (
                f"a body of which a byte comes each {pause} seconds holds the server for "
                f"{time.monotonic() - began:.0f}"
            )


def stays(served: Served) -> Iterator[str]:
    """A client that has its answer, and neither sends nor closes."""
    with told_too_long(served):
        began = time.monotonic()
        told = served.answer(get("/totals"))
        if told != TOTAL or time.monotonic() - began >= SECONDS:
            yield f"a client that stays holds the server: {told!r}"


def announces(served: Served) -> Iterator[str]:
    """Clients that announce a long body and send ten bytes of it."""
    for _ in range(10):
        if served.answer(post("/import", b"key,record", ANNOUNCED)) != CUT:
            yield "a long body of which ten bytes come is not cut"


def goes_away(served: Served) -> Iterator[str]:
    """Clients that go away before, within and after a request, with a close or a reset."""
    for sent in GONE:
        for resets in (0, 1):
            with connected(served) as client:
                client.setsockopt(socket.SOL_SOCKET, socket.SO_LINGER, struct.pack("ii", resets, 0))
                client.sendall(sent)
            if served.answer(get("/totals")) != TOTAL:
                yield f"behind a client that went away, {sent[:40]!r}: another answer"


def peak(served: Served) -> int:
    """The peak of the program's virtual memory, in KiB."""
    status = Path(f"/proc/{served.program.pid}/status").read_text(encoding="ascii")
    found = re.search(r"VmPeak:\s+(\d+) kB", status)
    assert found, status
    return int(found[1])


def memory(served: Served, least: int, most: int) -> Iterator[str]:
    if peak(served) - least > most:
        yield f"the program had {peak(served) - least} KiB more than before"


def next_one(served: Served, name: str) -> Iterator[str]:
    told = served.answer(get("/totals"))
    if told != TOTAL:
        yield f"behind the client {name}: {told!r}"


def patient(served: Served) -> Iterator[str]:
    """Runs each client, and checks what it cost."""
    served.answer(get("/totals"))
    least = peak(served)
    for head, more, wanted in long_ones():
        told = served.answer(head, more)
        if told != wanted:
            yield f"{head[:80]!r} and {len(more)} bytes more: {told[:200]!r}"
        yield from next_one(served, "that sends much")
    for client in (without_end, now_and_then, dripping, stays, announces, goes_away):
        yield from client(served)
        yield from next_one(served, client.__name__)
    yield from memory(served, least, LITTLE)
    if served.answer(post("/import", b"a,b" + b"\n" * (ANNOUNCED - 3))) != bad("BadShape"):
        yield f"a body of {ANNOUNCED} bytes: another answer"
    yield from memory(served, least, BODY)


def unread(room: Path) -> Iterator[str]:
    """A client that doesn't read its answer loses the rest of it, and holds the next one up for no longer than a write
    may wait; so does one that goes away within its answer, at once."""
    path = room / "unread.db"
    over(path, "script", lines_of([START[0], *({**START[1], "text": f"Concept {n}"} for n in range(CONCEPTS))]))
    with serving(path, 5) as served:
        whole = served.answer(get("/export"))
        with socket.socket() as client:
            client.setsockopt(socket.SOL_SOCKET, socket.SO_RCVBUF, 4096)
            client.connect(("127.0.0.1", served.port))
            client.sendall(get("/export"))
            began = time.monotonic()
            if served.answer(get("/totals"), patience=PATIENCE) != TOTAL or time.monotonic() - began >= PATIENCE:
                yield "a client that doesn't read its answer holds the server"
            told = b""
            with contextlib.suppress(ConnectionResetError):
                while more := client.recv(65536):
                    told += more
            if not whole.startswith(told) or len(told) == len(whole):
                yield f"a client that doesn't read its answer got {len(told)} bytes of {len(whole)}"
        with connected(served) as client:
            client.setsockopt(socket.SOL_SOCKET, socket.SO_LINGER, struct.pack("ii", 1, 0))
            client.sendall(get("/export"))
            client.recv(1000)
        if served.answer(get("/totals")) != TOTAL:
            yield "behind a client that went away within its answer: another answer"


def late_and_unread(room: Path) -> Iterator[str]:
    """A client that takes its time for its request, and then doesn't read its answer, holds the next one up for both
    times and a second for each 100,000 bytes that the system took, and no longer."""
    path, late = room / "late.db", ALLOWED - 10
    over(path, "script", lines_of([START[0], *({**START[1], "text": f"Concept {n}"} for n in range(CONCEPTS))]))
    with serving(path, 2) as served, socket.socket() as client, ThreadPoolExecutor(1) as pool:
        client.setsockopt(socket.SOL_SOCKET, socket.SO_RCVBUF, 4096)
        client.connect(("127.0.0.1", served.port))
        client.sendall(get("/export")[:-1])
        began = time.monotonic()
        next_one = pool.submit(served.answer, get("/totals"), patience=PATIENCE)
        time.sleep(late)
        client.sendall(get("/export")[-1:])
        told, waited, taken = next_one.result(), time.monotonic() - began, 0
        with contextlib.suppress(ConnectionResetError):
            while more := client.recv(65536):
                taken += len(more)
        most = late + ALLOWED + taken / 100_000
        print(
            (
                f"a client that is late and doesn't read its answer: {waited:.1f} s, at most {most:.1f}, "
                f"{taken} bytes taken"
            )
        )
        if told != TOTAL or not late + ALLOWED - 1 <= waited < most + SLACK:
            yield (
                "a client that is late and doesn't read its answer holds the next one up for "
                f"{waited:.1f} s, not {most:.1f}: {told!r}"
            )


def wrong_answers(room: Path) -> Iterator[str]:
    """What clients of each kind are answered otherwise, and whether all is left as it was."""
    path = room / "clients.db"
    over(path, "script", lines_of(START))
    with serving(path, 1000) as served:
        yield from patient(served)
    checked = over(path, "check")
    if checked != (0, SIZES, b""):
        yield f"the store of the clients is left otherwise: {checked}"
