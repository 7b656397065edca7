"""What the tests of the desk share: the program, a store of musical instruments, and a desk over it."""
from __future__ import annotations

import shutil
import subprocess
import tempfile
from collections.abc import Callable, Iterator
from pathlib import Path
from typing import Any

import pytest
from clients import Site, site_of, write_users
from guide_museum import MUSEUM
from processes import Running, running
from reader import Reader, come_in
from program import MEMORY
from thesaurus_desk.auth import passwords
from thesaurus_desk.store.plan_execution import Desk
from thesaurus_desk.web import background

ROOT = Path(__file__).resolve().parents[2]
BASE = "https://thesaurus.example/id/"


@pytest.fixture(scope="session", autouse=True)
def light_passwords() -> Iterator[None]:
    """Passwords that are hashed in no time, as those of a test are nobody's. (test_passwords says what one costs.)"""
    kept = passwords.ROUNDS, passwords.NOBODY
    passwords.ROUNDS = 1 << 4
    passwords.NOBODY = kept[1].replace(str(kept[0]), str(passwords.ROUNDS))
    yield
    passwords.ROUNDS, passwords.NOBODY = kept


@pytest.fixture(scope="session", autouse=True)
def patient_requests() -> Iterator[None]:
    """Requests that wait for the tables that they begin, on a busy machine, too (those of test_long_tables don't)."""
    kept, background.PATIENCE = background.PATIENCE, 300.0
    yield
    background.PATIENCE = kept


@pytest.fixture(scope="session")
def program() -> str:
    """The program under test."""
    from program import built  # (once tests/conftest.py has said which program is meant)

    return str(built())


def make_store(program: str, path: Path, script: bytes) -> Path:
    """Makes a store by a script of requests."""
    words = [program, "--db", str(path), "--base", BASE, "script"]
    ran = subprocess.run(words, input=script, capture_output=True, check=False)
    assert ran.returncode == 0, ran.stderr.decode() or [it for it in ran.stdout.splitlines() if b'"no"' in it][:3]
    return path


@pytest.fixture(scope="session")
def instruments_store(program: str, tmp_path_factory: pytest.TempPathFactory) -> Path:
    """A store of musical instruments, which is only copied."""
    script = (ROOT / "examples/instruments.jsonl").read_bytes()
    return make_store(program, tmp_path_factory.mktemp("instruments") / "museum.db", script)


@pytest.fixture
def store(instruments_store: Path, tmp_path: Path) -> Path:
    """A copy of the store of musical instruments."""
    return Path(shutil.copy(instruments_store, tmp_path / "museum.db"))


@pytest.fixture
def open_desk(program: str) -> Iterator[Callable[[Path], Desk]]:
    """Opens desks over stores, and stops them after the test."""
    opened: list[Desk] = []

    def open_one(path: Path) -> Desk:
        desk = Desk(path, program, base=BASE)
        opened.append(desk)
        desk.start()
        return desk

    yield open_one
    for desk in opened:
        desk.stop()


@pytest.fixture
def desk(store: Path, open_desk: Callable[[Path], Desk]) -> Desk:
    """A desk over a store of musical instruments."""
    return open_desk(store)


@pytest.fixture(scope="session")
def users_file(tmp_path_factory: pytest.TempPathFactory) -> Path:
    """A users' file with a user for each role, which is only copied."""
    return write_users(tmp_path_factory.mktemp("users") / "users.json")


@pytest.fixture
def users(users_file: Path, tmp_path: Path) -> Path:
    """A copy of the users' file."""
    return Path(shutil.copy(users_file, tmp_path / "users.json"))


@pytest.fixture
def site(desk: Desk, users: Path) -> Site:
    """The pages of a desk over a store of musical instruments, with a user for each role."""
    return site_of(desk, users)


@pytest.fixture(scope="module")
def driver() -> Iterator[Any]:
    """A browser for the tests of a file."""
    from hands import start_browser

    found = start_browser()
    yield found
    found.quit()


@pytest.fixture(scope="module")
def narrow_driver() -> Iterator[Any]:
    """A browser as narrow as a telephone."""
    from browsing import NARROW
    from hands import start_browser

    found = start_browser(NARROW)
    yield found
    found.quit()


@pytest.fixture
def guide_desk(program: str, tmp_path: Path) -> Iterator[Running]:
    """A desk over the guide's thesaurus, with one person."""
    store = make_store(program, tmp_path / "museum.db", MUSEUM.encode())
    with running("--db", store, "--alone", "anna", "--program", program) as found:
        yield found


@pytest.fixture
def shared_desk(program: str, store: Path, users: Path) -> Iterator[Running]:
    """A desk over the store of musical instruments, with a user for each role, as a process of its own."""
    with running("--db", store, "--users", users, "--program", program) as found:
        yield found


@pytest.fixture(params=("keyboard", "mouse"))
def hand(request: pytest.FixtureRequest, driver: Any, guide_desk: Running) -> Any:
    """Someone at the guide's desk, by mouse or by keyboard alone."""
    from hands import come_in

    return come_in(request.param, driver, guide_desk)


@pytest.fixture
def reader(desk: Desk) -> Reader:
    """Someone alone at a desk over the sample."""
    return come_in(desk)


@pytest.fixture
def room() -> Iterator[Path]:
    """A folder in memory: nothing here waits for a disk."""
    with tempfile.TemporaryDirectory(dir=MEMORY) as folder:
        yield Path(folder)
