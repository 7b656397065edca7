"""Nothing is lost on a full disk, if files are moved away or may not grow, if a standard stream fails, if clients go
away, and if a server is killed: answered requests are in the store, with at most one other, whole; and the store can be
used when there is room again."""
from __future__ import annotations

import contextlib
import os
import resource
import shutil
import signal
import socket
import struct
import subprocess
from collections.abc import Callable, Iterator
from pathlib import Path
from typing import Any

import pytest
from kept import Request, performed, stands, started
from plain import Plain
from program import Word, built, lines_of, over, values_of
from serving import serving

FULL = {"fault": "Store"}
STORE = b"thesaurus: fault Store\n"
WRITE = b"thesaurus: fault Write\n"
READ = b"thesaurus: fault Read\n"
MANY = 400
SHOWN = "--scheme 1 --lang en"
TELLINGS = ("check", "export", f"alphabetical {SHOWN}", f"hierarchical {SHOWN}")
CLIENTS = 24
# What clients send before they go away.
GONE = (
    b"",
    b"GET /exp",
    b"GET /export HTTP/1.1\r\n\r\n",
    b"GET /totals HTTP/1.1\r\n\r\n",
    b"POST /import HTTP/1.1\r\nContent-Length: 60\r\n\r\nkey,record,concept\n",
    b'POST /requests HTTP/1.1\r\nContent-Length: 12\r\n\r\n{"do":"fly"}',
)
PIPES: dict[str, Any] = dict.fromkeys(("stdin", "stdout", "stderr"), subprocess.PIPE)


def posts(first: int, count: int) -> list[Request]:
    return [
        {"do": "post", "key": f"k{n}", "record": f"record {n} " * 9, "concept": 2} for n in range(first, first + count)
    ]


def state_in(path: Path, plain: Plain, requests: list[Request], told: list[Request]) -> Plain:
    """Asserts that a store has no request that was answered with Store, all others, and at most one that wasn't
    answered. Returns its state."""
    accepted = [request for request, answer in zip(requests, told) if answer != FULL]
    states, answers = performed(plain, accepted + requests[len(told) : len(told) + 1])
    state, why = stands(path, states, answers, [it for it in told if it != FULL])
    assert state, why
    return state


def assert_goes_on(path: Path, plain: Plain, requests: list[Request]) -> None:
    """Asserts that a store answers as it should when there is room again."""
    assert over(path, "script", lines_of(requests)) == (0, lines_of(performed(plain, requests)[1]), b"")


@contextlib.contextmanager
def talk(path: Path) -> Iterator[Callable[[Request | None], Any]]:
    """Runs a script, and yields a function that sends one request and returns its answer; sent None, it ends the script
    and returns its status and standard error."""
    with subprocess.Popen([built(), "--db", path, "script"], **PIPES) as script:
        assert script.stdin and script.stdout and script.stderr

        def ask(request: Request | None) -> Any:
            assert script.stdin and script.stdout and script.stderr
            if request is None:
                script.stdin.close()
                return script.wait(), script.stderr.read()
            script.stdin.write(lines_of([request]))
            script.stdin.flush()
            return values_of(script.stdout.readline())[0]

        yield ask


# --- disks and files ---


@pytest.fixture
def disk(room: Path) -> Iterator[Path]:
    """A folder on a small disk of its own."""
    place = room / "disk"
    place.mkdir()
    words = ["mount", "-t", "tmpfs", "-o", "size=16m", "tmpfs", str(place)]
    if subprocess.run(words, stderr=subprocess.DEVNULL, check=False).returncode:
        pytest.skip("no disk may be mounted")
    yield place
    subprocess.run(["umount", place], check=True)


def free_of(disk: Path) -> int:
    return os.statvfs(disk).f_bavail * os.statvfs(disk).f_bsize


def test_full_disk(disk: Path) -> None:
    """It is the fault Store, and the script continues when there is room."""
    path, filler, half = disk / "museum.db", disk / "filler", MANY // 2
    plain, requests = started(path), posts(1, MANY)
    filler.write_bytes(bytes(free_of(disk) - 65536))
    with talk(path) as ask:
        told = [ask(it) for it in requests[:half]]
        filler.unlink()
        told += [ask(it) for it in requests[half:]]
        ended = ask(None)
    assert FULL in told[:half] and FULL not in told[half:]
    assert ended == (3, STORE)
    filler.write_bytes(bytes(free_of(disk)))
    plain = state_in(path, plain, requests, told)
    filler.unlink()
    assert_goes_on(path, plain, requests)


@pytest.mark.parametrize("suffix", ["", "-wal"], ids=["the database", "its log"])
def test_file_that_is_moved_away(suffix: str, room: Path) -> None:
    """Requests are answered Store, and change nothing, while a file of the store is away or another has its name."""
    path, requests = room / "moved.db", posts(1, 12)
    plain = started(path)
    file, away = path.with_name(path.name + suffix), path.with_name("away")
    with talk(path) as ask:
        told = [ask(request) for request in requests[:3]]
        file.rename(away)
        told += [ask(request) for request in requests[3:6]]
        shutil.copy(away, file)
        told += [ask(request) for request in requests[6:9]]
        away.rename(file)
        told += [ask(request) for request in requests[9:]]
        ended = ask(None)
    assert [it == FULL for it in told] == [False] * 3 + [True] * 6 + [False] * 3
    assert ended == (3, STORE)
    state_in(path, plain, requests, told)


def bounded(most: int, action: signal.Handlers) -> Callable[[], None]:
    """Bounds the size of a program's files, and sets what a write past the bound does to it."""

    def bound() -> None:
        signal.signal(signal.SIGXFSZ, action)
        resource.setrlimit(resource.RLIMIT_FSIZE, (most, most))

    return bound


@pytest.mark.parametrize(
    ("action", "wanted"),
    [(signal.SIG_IGN, (3, STORE)), (signal.SIG_DFL, (-signal.SIGXFSZ, b""))],
    ids=["refused", "deadly"],
)
def test_files_that_may_not_grow(action: signal.Handlers, wanted: tuple[int, bytes], room: Path) -> None:
    """They are the fault Store; if the write kills the program, answered requests are in the store."""
    path, requests = room / "bounded.db", posts(1, MANY)
    plain = started(path)
    for most in (8192, 65536, 200_000):
        ended = over(path, "script", lines_of(requests), preexec_fn=bounded(most, action))
        assert (ended.status, ended.err) == wanted, most
        plain = state_in(path, plain, requests, values_of(ended.out))
    assert_goes_on(path, plain, requests)


# --- streams ---


def by_shell(path: Path, streams: str, command: str = "script") -> list[Word]:
    """The words that run a command whose streams the shell sets up in this way."""
    return ["sh", "-c", f'exec "$0" --db "$1" {command} {streams}', built(), path]


each_output = pytest.mark.parametrize("stream", [">&-", ">/dev/full"], ids=["closed", "full"])


@each_output
def test_answers_that_cant_be_written(stream: str, room: Path) -> None:
    """The fault is Write, and performed requests are in the store."""
    path, requests = room / "output.db", posts(1, 20)
    plain = started(path)
    ran = subprocess.run(by_shell(path, stream), input=lines_of(requests), capture_output=True, check=False)
    assert (ran.returncode, ran.stderr) == (3, WRITE)
    state_in(path, plain, requests, [])


@pytest.mark.parametrize("action", [signal.SIG_IGN, signal.SIG_DFL], ids=["ignored", "deadly"])
def test_pipe_whose_reader_has_gone(action: signal.Handlers, room: Path) -> None:
    """The fault is Write, whatever the shell says that a write to it does."""
    path, requests = room / "reader.db", posts(1, MANY)
    plain = started(path)
    words = [built(), "--db", path, "script"]
    with subprocess.Popen(words, preexec_fn=lambda: signal.signal(signal.SIGPIPE, action), **PIPES) as script:
        assert script.stdin and script.stdout and script.stderr
        script.stdin.write(lines_of(requests[:10]))
        script.stdin.flush()
        told = [values_of(script.stdout.readline())[0] for _ in range(10)]
        script.stdout.close()
        with contextlib.suppress(BrokenPipeError):
            script.stdin.write(lines_of(requests[10:]))
            script.stdin.close()
        assert (script.wait(), script.stderr.read()) == (3, WRITE)
    state_in(path, plain, requests, told)


LONG = b" " * 1_048_577
# Other streams, with what is given, and the status and the standard error that are wanted.
OTHERS = {"2>&-": (LONG, 3, b""), "2>/dev/full": (LONG, 3, b""), "<&-": (b"", 3, READ), ">&- 2>&-": (LONG, 3, b"")}


@pytest.mark.parametrize("streams", OTHERS)
def test_other_streams_that_fail_change_no_status_and_no_row(streams: str, room: Path) -> None:
    given, status, told = OTHERS[streams]
    path = room / "other.db"
    plain = started(path)
    ran = subprocess.run(by_shell(path, streams), input=given, capture_output=True, check=False)
    assert (ran.returncode, ran.stderr) == (status, told)
    state, why = stands(path, [plain], [], [])
    assert state, why


@each_output
@pytest.mark.parametrize("command", TELLINGS)
def test_command_that_cant_print(command: str, stream: str, room: Path) -> None:
    path = room / "told.db"
    started(path)
    ran = subprocess.run(by_shell(path, stream, command), input=b"", capture_output=True, check=False)
    assert (ran.returncode, ran.stderr) == (3, WRITE)


# --- clients ---

NO_ROOM = (
    b"HTTP/1.1 503 Service Unavailable\r\nContent-Type: application/json\r\nContent-Length: "
    b"18\r\nConnection: close\r\n\r\n"
) + lines_of([FULL])


def go_away(port: int, sent: bytes, resets: bool) -> None:
    """Is a client that sends something and goes away, without a word or with a reset."""
    with socket.create_connection(("127.0.0.1", port), timeout=60) as client:
        if resets:
            client.setsockopt(socket.SOL_SOCKET, socket.SO_LINGER, struct.pack("ii", 1, 0))
        client.sendall(sent)


def posted(request: Request) -> bytes:
    body = lines_of([request])
    return b"POST /requests HTTP/1.1\r\nContent-Length: %d\r\n\r\n" % len(body) + body


def test_clients_that_go_away_stop_no_server(room: Path) -> None:
    """Answered requests are in the store after the server is killed."""
    path, requests = room / "served.db", posts(1, CLIENTS)
    plain, told = started(path), list[Request]()
    with serving(path, 3 * CLIENTS) as served:
        for number, request in enumerate(requests):
            go_away(served.port, GONE[number % len(GONE)], bool(number // len(GONE) % 2))
            told += values_of(served.answer(posted(request)).partition(b"\r\n\r\n")[2])
        served.program.kill()
        served.program.wait()
    assert len(told) == CLIENTS
    state_in(path, plain, requests, told)


def test_server_whose_files_may_not_grow_goes_on(room: Path) -> None:
    """It answers with the fault; requests with other answers are in the store."""
    path, requests = room / "faults.db", posts(1, CLIENTS)
    plain, told = started(path), list[Request]()
    with serving(path, CLIENTS + 1, preexec_fn=bounded(65536, signal.SIG_IGN)) as served:
        for request in requests:
            answer = served.answer(posted(request))
            told += values_of(answer.partition(b"\r\n\r\n")[2])
            assert told[-1] != FULL or answer == NO_ROOM
        assert FULL in told
        assert served.answer(b"GET /totals HTTP/1.1\r\n\r\n")
        assert served.end() == (0, b"", b"")
    state_in(path, plain, requests, told)
