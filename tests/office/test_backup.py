"""tools/backup: fifty backups while clients post; killed at many of its steps it harms nothing; and what it must
refuse."""
from __future__ import annotations

import contextlib
import http.client
import json
import shutil
import signal
import sqlite3
import subprocess
import sys
import tempfile
import threading
import time
from collections.abc import Iterator
from http.server import BaseHTTPRequestHandler, ThreadingHTTPServer
from pathlib import Path
from typing import Any, NamedTuple
from unittest import mock

import pytest
from office import TOOLS
from ports import free_port
from program import MEMORY, built, lines_of, over
from thesaurus_tools.backups import Backups, StoreName, write_sign

TOOL = TOOLS / "backup"
BACKUPS, CLIENTS, KILLS = 50, 2, 40
# How many records a client posts during a backup at most, and how many seconds it rests after each.
POSTS, REST = 20, 0.02
# The program answers a request after that many seconds at the latest, also when a backup was killed. (It would wait for
# 30 for a client.)
SOON = 20
START = [{"do": "scheme", "tag": "en", "text": "Animals"}, {"do": "concept", "scheme": 1, "tag": "en", "text": "Cats"}]
OTHER_BASE = "https://other.example/id/"
# Runs the tool, and kills it before it executes the line of a number of its own code; or says how many lines it
# executed. A line counts once: how often loops repeat that wait or search depends on the machine.
STEPPING = """
import os, runpy, signal, sys
tool, last = sys.argv[1], int(sys.argv[2])
sys.argv = sys.argv[1:2] + sys.argv[3:]
sys.path.insert(0, os.path.dirname(tool))
from thesaurus_tools import backups, program_hold
from thesaurus_tools.commands import backup
own = backup.__file__, backups.__file__, program_hold.__file__
executed = set()
def step(frame, event, _):
    if frame.f_code.co_filename not in own:
        return None
    if event == "line":
        executed.add((frame.f_code.co_filename, frame.f_lineno))
        if len(executed) == last:
            os.kill(os.getpid(), signal.SIGKILL)
    return step
sys.settrace(step)
try:
    runpy.run_path(tool, run_name="__main__")
finally:
    sys.settrace(None)
    print("lines", len(executed))
"""
# Runs the tool as a user who may not see the files of processes, with more time for another server to answer.
BLIND = """
import os, runpy, sys
del sys.argv[0]
sys.path.insert(0, os.path.dirname(sys.argv[0]))
from thesaurus_tools import program_hold
program_hold.files_of = lambda process: {}
program_hold.SECONDS_TO_ANSWER = 5
runpy.run_path(sys.argv[0], run_name="__main__")
"""


Ran = subprocess.CompletedProcess[str]


def run(*words: object) -> Ran:
    call = [*map(str, words), "--program", str(built())]
    return subprocess.run(call, capture_output=True, text=True, check=False)


def back_up(*words: object) -> Ran:
    return run(TOOL, *words)


def back_up_blindly(*words: object) -> Ran:
    """Runs the tool as a user who may not see the files of processes."""
    return run(sys.executable, "-c", BLIND, TOOL, *words)


def back_up_until(last: int, *words: object) -> Ran:
    """Runs the tool, and kills it at a line; or has it print how many lines it executed."""
    return run(sys.executable, "-c", STEPPING, TOOL, last, *words)


@contextlib.contextmanager
def serving_on(path: Path, given: Any = subprocess.DEVNULL) -> Iterator[int]:
    """Serves a store until the end of the block, and gives the port."""
    port = free_port()
    words = [built(), "--db", path, "serve", "--port", str(port)]
    with subprocess.Popen(words, stdin=given, stdout=subprocess.PIPE, stderr=subprocess.PIPE) as program:
        try:
            assert program.stdout and program.stdout.readline() == f"listening on 127.0.0.1:{port}\n".encode()
            yield port
        finally:
            program.kill()


def ask(port: int, path: str, body: object = None) -> Any:
    """Asks the program by a connection of its own, and returns the value that it answers."""
    connection = http.client.HTTPConnection("127.0.0.1", port, timeout=120)
    connection.request("POST" if body else "GET", path, json.dumps(body).encode() if body else None)
    return json.loads(connection.getresponse().read())


def post(port: int, key: str) -> Any:
    return ask(port, "/requests", {"do": "post", "key": key, "record": f"Record {key}", "concept": 2})


class Served(NamedTuple):
    """A store that is served, and the port."""

    path: Path
    port: int


@pytest.fixture(scope="module")
def served(shared_room: Path) -> Iterator[Served]:
    path = shared_room / "store.db"
    over(path, "script", lines_of(START))
    with serving_on(path) as port:
        yield Served(path, port)


def keys_in(backup: Path) -> list[str]:
    """The keys of the postings in a backup, as SQLite reads a copy of it."""
    with tempfile.TemporaryDirectory(dir=MEMORY) as room:
        for file in backup.iterdir():
            shutil.copy(file, room)
        with contextlib.closing(sqlite3.connect(Path(room) / "store.db")) as base:
            assert base.execute("PRAGMA integrity_check").fetchone() == ("ok",)
            return [it[0] for it in base.execute("SELECT pkey FROM posting ORDER BY num")]


# --- while clients post ---


class Poster(threading.Thread):
    """A client that posts records, so many for each backup."""

    def __init__(self, port: int, word: str) -> None:
        super().__init__(daemon=True)
        self.port, self.word = port, word
        self.sent: list[str] = []
        self.answered: list[str] = []
        self.allowed = threading.Semaphore(0)
        self.is_ended = False

    def run(self) -> None:
        while self.allowed.acquire() and not self.is_ended:
            key = f"{self.word}-{len(self.sent)}"
            self.sent.append(key)
            answer = post(self.port, key)
            assert "ok" in answer, answer
            self.answered.append(key)
            time.sleep(REST)

    def end(self) -> None:
        self.is_ended = True
        self.allowed.release()
        self.join(120)


class Made(NamedTuple):
    """A backup under load: how the tool ended, the keys that were answered before it, and those that were sent then."""

    ran: Ran
    before: set[str]
    later: set[str]


class Loaded(NamedTuple):
    """The backups under load, how many posts were answered, and how many the program counts."""

    backups: list[Made]
    answered: int
    counted: int


@pytest.fixture(scope="module")
def loaded(served: Served, shared_room: Path) -> Loaded:
    first = ask(served.port, "/totals")["accepted"]
    posters = [Poster(served.port, f"client{n}") for n in range(CLIENTS)]
    for it in posters:
        it.start()
    backups = []
    for _ in range(BACKUPS):
        for it in posters:
            it.allowed.release(POSTS)
        before = {key for it in posters for key in list(it.answered)}
        ran = back_up(served.path, shared_room / "loaded", "--port", served.port)
        backups.append(Made(ran, before, {key for it in posters for key in list(it.sent)}))
    for it in posters:
        it.end()
    answered = sum(len(it.answered) for it in posters)
    return Loaded(backups, answered, ask(served.port, "/totals")["accepted"] - first)


@pytest.mark.parametrize("number", range(BACKUPS))
def test_backup_has_what_was_answered_before_it_and_nothing_sent_later(number: int, loaded: Loaded) -> None:
    ran, before, later = loaded.backups[number]
    assert not ran.returncode, ran.stderr
    keys = [it for it in keys_in(Path(ran.stdout.partition(": ")[0])) if it.startswith("client")]
    assert before <= set(keys) <= later
    assert len(set(keys)) == len(keys)


def test_all_posts_are_answered_and_counted(loaded: Loaded) -> None:
    assert loaded.counted == loaded.answered


def test_most_backups_are_under_load(loaded: Loaded) -> None:
    assert sum(len(it.later) > len(it.before) for it in loaded.backups) >= BACKUPS * 9 // 10


# --- killed ---


class Killed(NamedTuple):
    """A run that was to be killed at a line: its status, the seconds that a request took after it, and the folders that
    are no backup."""

    line: int
    status: int
    seconds: float
    broken: list[str]


def is_backup(folder: Path) -> bool:
    return {"store.db", "store.db-wal"} <= {file.name for file in folder.iterdir()}


@pytest.fixture(scope="module")
def kill_folder(shared_room: Path) -> Path:
    return shared_room / "killed"


@pytest.fixture(scope="module")
def killed(served: Served, kill_folder: Path) -> list[Killed]:
    """Runs the tool to its end, and kills it at lines from its first to its last."""
    words = (served.path, kill_folder, "--port", served.port, "--keep", 2)
    lines = int(back_up_until(0, *words).stdout.split()[-1])
    found = []
    for number in range(KILLS):
        line = 1 + number * lines // KILLS
        ran = back_up_until(line, *words)
        began = time.monotonic()
        post(served.port, f"kill-{number}")
        seconds = time.monotonic() - began
        shown = [it for it in kill_folder.iterdir() if not it.name.startswith(".")]
        found.append(Killed(line, ran.returncode, seconds, [it.name for it in shown if not is_backup(it)]))
    return found


@pytest.mark.parametrize("number", range(KILLS))
def test_kill_leaves_a_program_that_answers_soon_and_whole_backups(number: int, killed: list[Killed]) -> None:
    assert killed[number].seconds <= SOON, killed[number]
    assert not killed[number].broken, killed[number]


def test_most_kills_come_before_the_end(killed: list[Killed]) -> None:
    assert sum(it.status == -signal.SIGKILL for it in killed) >= KILLS // 2


def test_backup_after_the_kills_removes_what_they_left(killed: list[Killed], served: Served, kill_folder: Path) -> None:
    ran = back_up(served.path, kill_folder, "--port", served.port, "--keep", 2)
    assert not ran.returncode, ran.stderr
    left = sorted(it.name for it in kill_folder.iterdir() if it.name != ".lock")
    assert len(left) == 2 and not any(it.startswith(".") for it in left)
    assert not any(over(kill_folder / it / "store.db", "check").status for it in left)
    assert f"kill-{len(killed) - 1}" in keys_in(kill_folder / left[-1])


def test_of_backups_of_one_second_the_newest_are_kept(room: Path) -> None:
    backups = room / "backups"
    folder, name = Backups(backups), StoreName("/store.db", OTHER_BASE)
    backups.mkdir()
    with mock.patch("time.gmtime", return_value=time.struct_time((2026, 1, 1, 0, 0, 0, 3, 1, 0))):
        for number in range(5):
            with folder.new_room() as place:
                (place / "number").write_text(str(number), encoding="utf-8")
                write_sign(place, name)
                folder.put_away(place, "store.db")
            folder.remove_older("store.db", name, 2)
    assert [(it / "number").read_text(encoding="utf-8") for it in sorted(backups.iterdir())] == ["3", "4"]


# --- refused ---

# The words of a call, with names of places; the status, and a part of what it says.
REFUSED: dict[str, tuple[list[str], int, str]] = {
    "a store that is served, without its port": (["{store}", "{backups}"], 1, "--port"),
    "the port of another store": (["{other}", "{backups}", "--port", "{port}"], 1, "another store"),
    "a port where nobody is": (["{other}", "{backups}", "--port", "{free}"], 1, "nobody answers"),
    "a damaged store": (["{damaged}", "{backups}"], 1, "doesn't pass the check"),
    "no store": (["{room}/none.db", "{backups}"], 3, "no such file"),
    "port 0": (["{store}", "{backups}", "--port", "0"], 2, "1 or more"),
    "no folder for backups": (["{store}"], 2, "BACKUPS"),
}


def assert_end(ran: Ran, status: int, said: str) -> None:
    assert ran.returncode == status and said in ran.stderr and "Traceback" not in ran.stderr, ran


def assert_no_backup(backups: Path) -> None:
    """Asserts that a folder has no backup, and no part of one."""
    assert not backups.exists() or {it.name for it in backups.iterdir()} <= {".lock"}


@pytest.fixture
def places(served: Served, room: Path) -> dict[str, object]:
    """The places of a call: among them another store, and a damaged one."""
    other, damaged = room / "other.db", room / "damaged.db"
    over(other, "script", lines_of([*START, {"do": "concept", "scheme": 1, "tag": "en", "text": "Dogs"}]))
    damaged.write_bytes(other.read_bytes()[:20_000])
    own = {"store": served.path, "port": served.port, "free": free_port()}
    return {**own, "room": room, "backups": room / "backups", "other": other, "damaged": damaged}


@contextlib.contextmanager
def held(path: object) -> Iterator[None]:
    """Has a script hold a store until the end of the block."""
    words = [str(it) for it in (built(), "--db", path, "script")]
    with subprocess.Popen(words, stdin=subprocess.PIPE, stdout=subprocess.PIPE) as script:
        assert script.stdin and script.stdout
        script.stdin.write(lines_of([{"get": "totals"}]))
        script.stdin.flush()
        script.stdout.readline()
        yield
        script.communicate()


@pytest.mark.parametrize("what", REFUSED)
def test_refused(what: str, places: dict[str, object], room: Path) -> None:
    words, status, said = REFUSED[what]
    with held(places["other"]):
        assert_end(back_up(*(it.format(**places) for it in words)), status, said)
    assert_no_backup(room / "backups")


def test_store_that_nobody_has_open_is_backed_up_at_once(places: dict[str, object], room: Path) -> None:
    with held(places["other"]):
        assert_end(back_up(places["other"], room / "backups", "--port", places["free"]), 1, "nobody answers")
    ran = back_up(places["other"], room / "backups", "--port", free_port())
    assert not ran.returncode and "held" not in ran.stdout, ran
    assert not over(room / "other.db", "check").status


# --- other programs ---


class Front(BaseHTTPRequestHandler):
    """A server in front of the program: it reads a request whole before it asks the program."""

    port: int

    def do_GET(self) -> None:
        data = json.dumps(ask(self.port, self.path)).encode()
        self.send_response(200)
        self.end_headers()
        with contextlib.suppress(OSError):
            self.wfile.write(data)

    def log_message(self, *_: object) -> None:
        pass


@contextlib.contextmanager
def fronted_on(port: int) -> Iterator[int]:
    """Has a server stand in front of the program until the end of the block, and gives its port."""
    with ThreadingHTTPServer(("127.0.0.1", 0), type("Fronting", (Front,), {"port": port})) as front:
        threading.Thread(target=front.serve_forever, daemon=True).start()
        yield front.server_port
        front.shutdown()


class Two(NamedTuple):
    """Two stores that are served, one with another base, their ports, and that of a server in front of the first."""

    alike: Path
    other: Path
    port: int
    other_port: int
    front: int


@pytest.fixture(scope="module")
def two(tmp_path_factory: pytest.TempPathFactory) -> Iterator[Two]:
    room = tmp_path_factory.mktemp("two")
    alike, other = room / "alike.db", room / "base.db"
    over(alike, "script", lines_of(START))
    over(other, "script", lines_of(START), "--base", OTHER_BASE)
    with tempfile.TemporaryFile() as gone, serving_on(alike) as port, serving_on(other, gone) as other_port:
        with fronted_on(port) as front:
            yield Two(alike, other, port, other_port, front)


@pytest.mark.parametrize("is_blind", [False, True], ids=["seen", "unseen"])
@pytest.mark.parametrize("is_other", [False, True], ids=["alike", "of another base"])
def test_port_of_another_store_is_refused(is_other: bool, is_blind: bool, two: Two, room: Path) -> None:
    """So it is where this user doesn't see which files the program at the port has open."""
    store, port = (two.other, two.port) if is_other else (two.alike, two.other_port)
    assert_end((back_up_blindly if is_blind else back_up)(store, room / "b", "--port", port), 1, "another store")
    assert_no_backup(room / "b")


def test_server_in_front_of_the_program_is_refused(two: Two, room: Path) -> None:
    assert_end(back_up(two.alike, room / "b", "--port", two.front), 1, "another store")
    assert_end(back_up_blindly(two.alike, room / "b", "--port", two.front), 1, "isn't the program itself")
    assert_no_backup(room / "b")


def test_store_is_backed_up_by_a_user_who_sees_no_files(two: Two, served: Served, room: Path) -> None:
    assert_end(back_up_blindly(two.alike, room / "b", "--port", two.port), 0, "")
    assert_end(back_up_blindly(served.path, room / "b", "--port", served.port), 0, "")
