"""Measures how long a client that stalls holds up the next one: if it is silent, if its head or its body drips, and if
it stays or drips after its answer. The server must give it up at the deadline that docs/HTTP.md names, neither later
nor sooner, and end with 0 after the count of connections. One more client is late with its request and doesn't read its
answer. Each client has a server of its own, and all stall at the same time, for half a minute, the last one for more
than a minute."""
from __future__ import annotations

import contextlib
import socket
import tempfile
import threading
import time
from concurrent.futures import ThreadPoolExecutor
from pathlib import Path
from typing import NamedTuple

import pytest
from http_clients import ALLOWED, ANNOUNCED, MILLION, PATIENCE, PAUSES, SEEN_OFF, SLACK, connected, late_and_unread
from http_rows import TOO_LONG, TOTAL, get, post
from program import MEMORY, Ended
from serving import serving


class Client(NamedTuple):
    """A client that stalls: what it sends at first, the answer that it waits for, the seconds between the bytes that it
    sends from then on, if it sends any, and the seconds for which it may hold up the next one."""

    what: str
    sent: bytes
    answer: bytes
    pause: float | None
    bound: int


BODY, EARLY = post("/import", b"", ANNOUNCED), post("/import", b"", 17 * MILLION)
CLIENTS = (
    Client("that is silent", b"", b"", None, ALLOWED),
    Client("that stops within its head", b"GET /tot", b"", None, ALLOWED),
    Client("whose head drips", b"GET /totals?", b"", 0.1, ALLOWED),
    Client("that sends a byte of its body each 10 s", BODY, b"", 10, ALLOWED),
    *(Client(f"that sends a byte of its body each {it} s", BODY, b"", it, ALLOWED) for it in PAUSES),
    Client("that stays after its answer", EARLY, TOO_LONG, None, SEEN_OFF),
    *(Client(f"that sends a byte each {it} s after its answer", EARLY, TOO_LONG, it, SEEN_OFF) for it in PAUSES),
)


class Stalled(NamedTuple):
    """How a server fared with a client that stalls: the seconds from before that client came to the answer of the next
    one, those of them for which the next one waited, its answer, and the end."""

    held: float
    waited: float
    told: bytes
    ended: Ended


def hold(client: Client, link: socket.socket, over: threading.Event) -> None:
    """Sends a byte after each pause, until the server closes the connection or the next client has its answer."""
    with contextlib.suppress(ConnectionResetError, BrokenPipeError):
        while not over.wait(client.pause or PATIENCE):
            link.send(b"a")


def stall(client: Client) -> Stalled:
    with tempfile.TemporaryDirectory(dir=MEMORY) as room, serving(Path(room) / "stalls.db", 2) as served:
        came = time.monotonic()
        with connected(served) as link:
            link.sendall(client.sent)
            if client.answer and link.recv(65536) != client.answer:
                raise ConnectionError("another answer")
            over = threading.Event()
            holding = threading.Thread(target=hold, args=(client, link, over))
            holding.start()
            began = time.monotonic()
            told = served.answer(get("/totals"), patience=PATIENCE)
            answered = time.monotonic()
            over.set()
            holding.join()
            return Stalled(answered - came, answered - began, told, served.end())


class AllStalled(NamedTuple):
    """How the servers fared, and what is wrong with how a client that doesn't read its answer is given up."""

    clients: dict[str, Stalled]
    unread: list[str]


@pytest.fixture(scope="module")
def stalled(shared_room: Path) -> AllStalled:
    with ThreadPoolExecutor(len(CLIENTS) + 1) as pool:
        unread = pool.submit(lambda: list(late_and_unread(shared_room)))
        clients = dict(zip((it.what for it in CLIENTS), pool.map(stall, CLIENTS)))
        return AllStalled(clients, unread.result())


@pytest.mark.parametrize("client", CLIENTS, ids=[it.what for it in CLIENTS])
def test_client_holds_up_the_next_one_until_the_deadline(client: Client, stalled: AllStalled) -> None:
    found = stalled.clients[client.what]
    assert client.bound - 1 <= found.held
    assert found.waited < client.bound + SLACK
    assert (found.told, found.ended) == (TOTAL, (0, b"", b""))


def test_client_that_is_late_and_doesnt_read_its_answer(stalled: AllStalled) -> None:
    assert not stalled.unread
