"""The desk as it is started: what it says of what is missing or in use, its end, and the commands for users."""
from __future__ import annotations

import contextlib
import os
import signal
import socket
import sqlite3
import subprocess
import sys
import time
from collections.abc import Callable
from pathlib import Path

import pytest
from clients import PASSWORD, USERS
from processes import DESK, Running, run_desk, running
from thesaurus_desk.store.plan_execution import Desk

BASE = "https://thesaurus.example/id/"
# Debian's user with the fewest rights.
NOBODY = 65534
# Runs a tool by a Python that lacks waitress, as another installation than the system's may.
WITHOUT = """
import os, runpy, sys
sys.modules["waitress"], sys.executable = None, "another"
del sys.argv[0]
sys.path.insert(0, os.path.dirname(sys.argv[0]))
runpy.run_path(sys.argv[0], run_name="__main__")
"""


def check_error(status: int, part: str, *words: object) -> None:
    """Checks that the desk ends with one line that says why."""
    ran = run_desk(*words, "--no-browser")
    assert ran.returncode == status, ran.stderr
    line = ran.stderr.strip().splitlines()[-1]
    assert line.startswith("desk: ") and part in line and "Traceback" not in ran.stderr, ran.stderr


def alone(program: str, store: Path) -> list[object]:
    """Returns the options of a desk for one person."""
    return ["--db", store, "--alone", "anna", "--program", program]


def test_help_teaches() -> None:
    for words in (["--help"], ["user", "--help"], ["user", "add", "--help"], ["check", "--help"]):
        ran = run_desk(*words)
        assert ran.returncode == 0 and "usage: desk" in ran.stdout, words
    assert "tools/desk --db museum.db --alone anna" in run_desk("--help").stdout


@pytest.mark.parametrize(
    "words, part",
    [
        ([], "--db FILE is needed"),
        (["--db", "x.db"], "who may come in"),
        (["--db", "x.db", "--alone", "anna", "--users", "u.json"], "who may come in"),
        (["--db", "x.db", "--alone", "anna", "--public"], "for one person"),
        (["--db", "x.db", "--users", "u.json", "--remote-user"], "--remote-user needs --proxy"),
        (["--db", "x.db", "--alone", "anna", "--port", "99999"], "no port"),
        (["--db", "x.db", "--alone", "anna", "--host", "https://desk.example/"], "no name of a host"),
        (["--db", "x.db", "--alone", "anna", "--max-postings", "many"], "not a number"),
        (["user", "add", "anna", "--users", "u.json"], "--role"),
        (["--db", "x.db", "--alone", "anna", "--backup-at", "noon"], "no hour"),
        (["check"], "--db"),
    ],
)
def test_usage(words: list[str], part: str, tmp_path: Path) -> None:
    ran = run_desk(*words)
    assert ran.returncode == 2 and part in ran.stderr and "Traceback" not in ran.stderr, ran.stderr


def test_what_is_missing(program: str, store: Path, tmp_path: Path) -> None:
    missing = tmp_path / "typo.db"
    check_error(2, "there is no store; --base IRI makes a new one", *alone(program, missing))
    assert not missing.exists()
    check_error(2, "can't be run", "--db", store, "--alone", "anna", "--program", tmp_path / "nothing")
    check_error(2, "there is no such folder", *alone(program, tmp_path / "no" / "x.db"), "--base", BASE)
    check_error(2, "no users yet", "--db", store, "--program", program, "--users", tmp_path / "none.json")
    check_error(2, "is no name", "--db", store, "--program", program, "--alone", " ")
    empty = tmp_path / "secret"
    empty.write_text("short\n", encoding="utf-8")
    (tmp_path / "users.json").write_text(
        '{"key": "00", "users": {"a": {"role": "head"}}, "ended": {}}', encoding="utf-8"
    )
    users = ["--users", tmp_path / "users.json"]
    check_error(2, "16 ASCII characters", "--db", store, "--program", program, *users, "--proxy", empty)
    check_error(3, "No such file", "--db", store, "--program", program, *users, "--proxy", tmp_path / "none")


def test_another_file_or_version(program: str, store: Path, tmp_path: Path) -> None:
    for version, part in ((1, "migrate"), (99, "older")):
        with contextlib.closing(sqlite3.connect(store)) as tables:
            tables.execute("UPDATE meta SET version = ?", (version,))
            tables.commit()
        check_error(3, part, *alone(program, store))
    text = tmp_path / "text.db"
    text.write_text("This is no store.\n" * 200, encoding="utf-8")
    check_error(3, "text.db", *alone(program, text))
    check_error(2, "not a file", *alone(program, tmp_path))


def test_in_use(program: str, store: Path) -> None:
    with running(*alone(program, store)) as first:
        check_error(3, "open", *alone(program, store))
        port = ["--port", str(first.port)]
        other = store.with_name("other.db")
        other.write_bytes(store.read_bytes())
        check_error(3, "Address already in use", *alone(program, other), *port)
        assert first.ask("GET", first.entrance)[0] == 200


def test_what_root_makes_is_the_folder_owner_s(
    open_desk: Callable[[Path], Desk], store: Path, leave_out: Callable[[str], None]
) -> None:
    """A service, which is another user's, can then open it."""
    if os.geteuid():
        return leave_out("this needs root's rights")
    folder = store.parent
    os.chown(folder, NOBODY, NOBODY)
    open_desk(store).stop()
    words = ["user", "add", "anna", "--role", "head", "--users", folder / "users.json"]
    assert run_desk(*words, given=f"{PASSWORD}\n").returncode == 0
    made = {it.name: it.stat().st_uid for it in folder.iterdir() if not it.name.startswith(store.name)}
    assert {"museum-desk.sqlite", "museum-desk.lock", "users.json", "users.json.lock"} <= made.keys()
    assert set(made.values()) == {NOBODY}, made


def cookie_of(desk: Running) -> str:
    """Returns the cookie of the one person at a desk."""
    return desk.ask("GET", desk.entrance)[2]["Set-Cookie"].partition(";")[0]


def test_alone(program: str, store: Path) -> None:
    with running(*alone(program, store), "--title", "Our <instruments>") as desk:
        assert desk.entrance.startswith("/enter?key=")
        cookie = cookie_of(desk)
        assert cookie.startswith(f"desk-{desk.port}=")
        status, text, _ = desk.ask("GET", "/az", Cookie=cookie)
        assert status == 200 and "Our &lt;instruments&gt;" in text
        assert desk.ask("GET", "/az")[0] == 303
        assert desk.ask("GET", "/az", Cookie=cookie, Host="evil.example")[0] == 421
        assert desk.ask("GET", "/az", Cookie=cookie, Host=f"localhost:{desk.port}")[0] == 200
        assert "Server" not in desk.ask("GET", "/")[2]


def test_it_listens_on_this_machine_alone(program: str, store: Path) -> None:
    with running(*alone(program, store)) as desk:
        addresses = {it[4][0] for it in socket.getaddrinfo(socket.gethostname(), desk.port)} - {"127.0.0.1", "::1"}
        for address in addresses:
            if not str(address).startswith("127."):
                assert socket.socket(socket.AF_INET6 if ":" in str(address) else socket.AF_INET).connect_ex(
                    (address, desk.port)
                )


def children_of(process: subprocess.Popen[str]) -> list[int]:
    """Returns the processes that a process has started."""
    path = Path(f"/proc/{process.pid}/task")
    return [int(it) for task in path.iterdir() for it in (task / "children").read_text(encoding="ascii").split()]


def is_running(pid: int) -> bool:
    """Whether a process runs."""
    with contextlib.suppress(OSError):
        return ") Z" not in Path(f"/proc/{pid}/stat").read_text(encoding="utf-8")
    return False


@pytest.mark.parametrize("how", [signal.SIGTERM, signal.SIGINT, signal.SIGKILL])
def test_the_program_ends_with_the_desk(program: str, store: Path, how: signal.Signals) -> None:
    with running(*alone(program, store)) as desk:
        started = children_of(desk.process)
        assert started and all(map(is_running, started))
        desk.process.send_signal(how)
        assert desk.process.wait(300) == (-how if how == signal.SIGKILL else 0)
        end = time.monotonic() + 120
        while any(map(is_running, started)):
            assert time.monotonic() < end
            time.sleep(0.05)
    with running(*alone(program, store)):
        pass


def test_a_killed_program_is_started_again(program: str, store: Path) -> None:
    """Soon, and not only with the next change; pages are made of the replica meanwhile."""
    with running(*alone(program, store)) as desk:
        (killed,) = children_of(desk.process)
        os.kill(killed, signal.SIGKILL)
        assert desk.ask("GET", "/az", Cookie=cookie_of(desk))[0] == 200
        end = time.monotonic() + 120
        while children_of(desk.process) in ([], [killed]):
            assert time.monotonic() < end
            time.sleep(0.05)


def ports_of(pid: int) -> set[int]:
    """Returns the ports of this machine on which a process listens."""
    ran = subprocess.run(["ss", "-Hltnp"], capture_output=True, text=True, check=True)
    return {int(it.split()[3].rpartition(":")[2]) for it in ran.stdout.splitlines() if f"pid={pid}," in it}


@pytest.mark.needs("ss")
def test_the_program_has_no_port(program: str, store: Path) -> None:
    """No other program of this machine, nor a page in a browser, can talk with it."""
    with running(*alone(program, store)) as desk:
        (child,) = children_of(desk.process)
        assert ports_of(desk.process.pid) == {desk.port} and ports_of(child) == set()
        assert desk.ask("GET", "/", Cookie=cookie_of(desk))[0] == 200


def test_a_new_store(program: str, tmp_path: Path) -> None:
    store = tmp_path / "new.db"
    with running(*alone(program, store), "--base", "https://museum.example/id/") as desk:
        status, text, _ = desk.ask("GET", "/", Cookie=cookie_of(desk))
        assert status == 200 and "An empty thesaurus" in text
    assert store.exists() and store.with_name("new-desk.sqlite").exists()
    assert not list(tmp_path.glob("new.db-desk*"))
    with running(*alone(program, store)):
        pass


def test_a_new_store_whose_making_was_cut_short(program: str, tmp_path: Path) -> None:
    """It is made with the base that the desk is given, and not with the program's own."""
    path, base = tmp_path / "cut.db", "https://museum.example/id/"
    words = [program, "--db", str(path), "import", str(tmp_path / "absent.csv")]
    subprocess.run(words, capture_output=True, check=False)
    assert path.with_name("cut.db-making").exists()
    desk = Desk(path, program, base=base)
    desk.start()
    desk.stop()
    with contextlib.closing(sqlite3.connect(path)) as it:
        assert it.execute("SELECT base FROM meta").fetchone() == (base,)


def test_check(program: str, store: Path, tmp_path: Path) -> None:
    for path, status in ((tmp_path / "no.db", 2), (store, 3)):
        ran = run_desk("check", "--db", path)
        assert ran.returncode == status and ran.stderr.startswith("desk: ") and "Traceback" not in ran.stderr
    with running(*alone(program, store)):
        ran = run_desk("check", "--db", store)
        assert ran.returncode == 3 and "open" in ran.stderr
    ran = run_desk("check", "--db", store)
    assert ran.returncode == 0 and ran.stdout == "the journal and the store agree\n", ran.stderr


def test_users_by_the_command_line(tmp_path: Path) -> None:
    users = ["--users", tmp_path / "users.json"]
    for name, word in USERS.items():
        ran = run_desk("user", "add", name, "--role", word, *users, given=f"{PASSWORD}\n")
        assert ran.returncode == 0 and name in ran.stdout and PASSWORD not in ran.stdout + ran.stderr
    listed = run_desk("user", "list", *users).stdout.splitlines()
    assert listed == sorted(f"{name}\t{word}" for name, word in USERS.items())
    assert (tmp_path / "users.json").stat().st_mode & 0o777 == 0o600
    for words, given in (
        (["role", "ben", "--role", "head"], None),
        (["password", "ben"], "another long one"),
        (["remove", "anna"], None),
    ):
        assert run_desk("user", *words, *users, given=given).returncode == 0, words
    assert "ben\thead" in run_desk("user", "list", *users).stdout
    refused = {
        "short": ["add", "new", "--role", "reader"],
        "another long one": ["add", "ben", "--role", "reader"],
        "": ["remove", "nobody"],
        "x": ["remove", "ben"],
    }
    for given, words in refused.items():
        ran = run_desk("user", *words, *users, given=given)
        assert ran.returncode == 1 and ran.stderr.startswith("desk: ") and "Traceback" not in ran.stderr, words
    assert run_desk("user", "add", "new", "--role", "reader", "--no-password", *users).returncode == 0
    assert "new\treader\tno password" in run_desk("user", "list", *users).stdout


def test_without_flask(tmp_path: Path) -> None:
    def run_bare(*words: object) -> subprocess.CompletedProcess[str]:
        line = [sys.executable, "-S", str(DESK), *map(str, words)]
        environment = {"PATH": os.environ["PATH"], "PYTHONDONTWRITEBYTECODE": "1"}
        return subprocess.run(line, capture_output=True, text=True, check=False, env=environment)

    assert run_bare("--help").returncode == 0
    ran = run_bare("--db", tmp_path / "x.db", "--alone", "anna")
    assert ran.returncode == 2 and "Traceback" not in ran.stderr
    assert "apt-get install" in ran.stderr and "python3-flask" in ran.stderr


@pytest.mark.skipif(Path(sys.executable).resolve() != Path("/usr/bin/python3").resolve(), reason="another Python")
@pytest.mark.parametrize("name", ["desk", "publish"])
def test_python_without_waitress_has_the_systems_do_it(name: str, program: str, store: Path, tmp_path: Path) -> None:
    export = tmp_path / "museum.nt"
    export.write_bytes(subprocess.run([program, "--db", store, "export"], capture_output=True, check=True).stdout)
    words = [*alone(program, store), "--no-browser"] if name == "desk" else [export, "--port", "0"]
    call = [sys.executable, "-c", WITHOUT, DESK.with_name(name), *words]
    with subprocess.Popen(list(map(str, call)), stdout=subprocess.PIPE, text=True) as tool:
        assert tool.stdout
        said = tool.stdout.readline()
        tool.terminate()
    assert "127.0.0.1:" in said
