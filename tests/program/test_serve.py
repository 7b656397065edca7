"""A server over a store in a file: connections one after another, on this machine alone, and with few files."""
from __future__ import annotations

import http.client
import resource
import socket
import subprocess
from pathlib import Path

import pytest
from animals import FIRST_TIME, NARROWER, NO_TOTALS, POSTED, START, TERMS, TREE
from ports import free_port
from program import PROGRAM, built, fault, over, run

Answer = tuple[int, bytes]
# Requests of HTTP in their order, each with its answer.
EXCHANGES: list[tuple[str, str, bytes | None, Answer]] = [
    ("GET", "/totals", None, (200, NO_TOTALS)),
    ("POST", "/requests", b'{"do":"post","key":"k1","record":"r1","concept":2}', (200, b'{"ok":1}\n')),
    ("POST", "/requests", b'{"do":"link","kind":"broader","a":2,"b":2}', (409, b'{"no":"SameResource"}\n')),
    ("POST", "/import", POSTED, (200, FIRST_TIME.replace(b"1,new", b"1,again"))),
    ("GET", "/display/hierarchical?scheme=1&lang=en", None, (200, TREE)),
    ("GET", "/display/alphabetical?scheme=1&lang=en", None, (200, TERMS)),
    ("GET", "/display/alphabetical?scheme=2&lang=en", None, (404, b'{"no":"WrongKind"}\n')),
    ("GET", "/concepts/4294967296", None, (400, b'{"bad":"BadNumber"}\n')),
    ("GET", "/nothing", None, (404, b'{"bad":"NoSuchPath"}\n')),
]
SIZES = b"ok resources=5 labels=6 links=3 accepted=2 withdrawn=0 moves=0\n"


def ask(port: int, method: str, path: str, body: bytes | None = None) -> Answer:
    """The status and the body that a request is answered with."""
    connection = http.client.HTTPConnection("127.0.0.1", port, timeout=60)
    connection.request(method, path, body)
    answer = connection.getresponse()
    read = answer.status, answer.read()
    connection.close()
    return read


def listening_addresses(port: int) -> list[str]:
    """The addresses on which somebody listens at the port, as Linux writes them; that of this machine alone is
    0100007F."""
    rows = [
        line.split()
        for table in ("tcp", "tcp6")
        for line in Path(f"/proc/net/{table}").read_text(encoding="ascii").splitlines()[1:]
    ]
    return [row[1].split(":")[0] for row in rows if row[1].endswith(f":{port:04X}") and row[3] == "0A"]


def test_connections_are_served_up_to_the_count(tmp_path: Path) -> None:
    path, port = tmp_path / "served.db", free_port()
    over(path, "script", NARROWER)
    words = ["--db", str(path), "serve", "--port", str(port), "--count", str(len(EXCHANGES) + 2)]
    with subprocess.Popen(
        [PROGRAM, *words], stdin=subprocess.DEVNULL, stdout=subprocess.PIPE, stderr=subprocess.PIPE
    ) as server:
        assert server.stdout
        assert server.stdout.readline() == f"listening on 127.0.0.1:{port}\n".encode()
        assert listening_addresses(port) == ["0100007F"]
        # A client that goes away before it has asked costs nothing.
        socket.create_connection(("127.0.0.1", port)).close()
        with socket.socket() as other:
            assert other.connect_ex(("127.0.0.2", port)), "it is met at another address"
        answers = [ask(port, method, place, body) for method, place, body, _ in EXCHANGES]
        assert answers == [wanted for *_, wanted in EXCHANGES]
        assert run(["serve", "--port", str(port)]) == (3, b"", b"thesaurus: fault Net\n")
        assert over(path, "check") == fault(path, "Store", "in use by another program")
        exported = ask(port, "GET", "/export")
        out, err = server.communicate(timeout=60)
        assert (server.returncode, out, err) == (0, b"", b"")
    assert over(path, "export") == (0, exported[1], b"")
    assert over(path, "check") == (0, SIZES, b"")


def serve_with(path: Path, most: int) -> tuple[Answer | str, int, bytes]:
    """The answer of a server that may open only so many files, its status, and what it wrote of faults."""

    def limit() -> None:
        resource.setrlimit(resource.RLIMIT_NOFILE, (most, most))

    port = free_port()
    words = [built(), "--db", path, "serve", "--port", str(port), "--count", "1"]
    with subprocess.Popen(words, stdout=subprocess.PIPE, stderr=subprocess.PIPE, preexec_fn=limit) as server:
        assert server.stdout
        answer: Answer | str = "it doesn't listen"
        if server.stdout.readline():
            try:
                answer = ask(port, "GET", "/totals")
            except (OSError, http.client.HTTPException) as why:
                answer = repr(why)
        _, err = server.communicate(timeout=60)
    return answer, server.returncode, err


def is_refused(answer: Answer | str, status: int, err: bytes) -> bool:
    is_fault = err.startswith(b"thesaurus: ") and b"\nthesaurus: fault " in err
    return answer == "it doesn't listen" and status == 3 and is_fault


@pytest.fixture(scope="module")
def started(tmp_path_factory: pytest.TempPathFactory) -> Path:
    path = tmp_path_factory.mktemp("few") / "few.db"
    over(path, "script", START)
    return path


@pytest.mark.parametrize("most", range(5, 12))
def test_server_with_few_files_answers_or_does_not_listen(most: int, started: Path) -> None:
    ended = serve_with(started, most)
    assert is_refused(*ended) or ended == ((200, NO_TOTALS), 0, b"")


def test_some_servers_have_too_few_files(started: Path) -> None:
    assert is_refused(*serve_with(started, 5)) and not is_refused(*serve_with(started, 11))
