"""What all tests share: options, which items there are and in what order, which program they run, and when they end.

Tests are files test_*.py in these folders, whose names are also markers:

  program/    over the built program
  reference/  the plain program, and the machine compared with it
  office/     over the tools of tools/ for an office
  desk/       over the desk
  builds/     have rt build something else
  sources/    over the sources and documents
"""
from __future__ import annotations

import functools
import importlib.util
import os
import re
import shutil
import signal
import subprocess
import tempfile
import time
from collections.abc import Callable, Generator, Iterator
from pathlib import Path

import pytest
from _pytest.terminal import TerminalReporter
from pluggy._result import _Result as Result
from xdist.scheduler import LoadScopeScheduling

ROOT = Path(__file__).resolve().parents[1]
FOLDERS = ("program", "reference", "office", "desk", "builds", "sources")
# The tests of these run the program.
NEEDING = ("program", "reference", "office", "desk")
MODULES = [*(str(ROOT / "tests" / it) for it in FOLDERS), *(str(ROOT / it) for it in ("dev", "tools", "desk"))]
# The files that take longest begin first.
LONGEST = (
    "refuse-memory",
    "first-memory",
    "refuse-bodies",
    "launcher",
    "refuse-uncounted",
    "sizes",
    "generated",
    "python",
)
# Of these files each case may run on another processor: no case uses what an earlier one made.
SPREAD = ("test_refuse_bodies.py", "test_sizes.py")
NOT_BUILT = """the program isn't built, or is older than its sources. --build proves and builds it first, which may
take an hour; --program PATH names another build"""
# How a reason to skip a test names a tool that isn't installed. (Other tests are skipped as not applicable.)
LACKING = re.compile(r"skipped without |could not import ")
BEGAN = time.monotonic()


def pytest_addoption(parser: pytest.Parser) -> None:
    group = parser.getgroup("thesaurus")
    group.addoption("--program", type=Path, help="the program to test, in place of the one that ./thesaurus built")
    group.addoption("--built", action="store_true", help="test the programs that `rt ci` has built in crates/*/out")
    group.addoption("--build", action="store_true", help="prove and build the program first, unless it is up to date")
    group.addoption("--minutes", type=float, default=24 * 60, help="end after this time; the tests that are left fail")
    group.addoption("--by-hand", action="store_true", help="also run the tests whose times depend on the machine")
    group.addoption("--write", action="store_true", help="have a test write the page or list that it would compare")
    group.addoption("--no-skips", action="store_true", help="a test fails for which a tool isn't installed")


def pytest_configure(config: pytest.Config) -> None:
    markers = {it: f"a test of tests/{it}" for it in FOLDERS}
    markers["by_hand"] = "run only with --by-hand"
    markers["needs(tool, ..)"] = "skipped where a program, or a module of Python, isn't installed"
    for name, what in markers.items():
        config.addinivalue_line("markers", f"{name}: {what}")
    # (a shell has what it runs in the background ignore interrupts, and programs under test inherit that)
    if signal.getsignal(signal.SIGINT) == signal.SIG_IGN:
        signal.signal(signal.SIGINT, signal.default_int_handler)
    os.environ["PYTHONPATH"] = os.pathsep.join(MODULES)
    os.environ["PYTHONDONTWRITEBYTECODE"] = "1"
    # (no test begins a build of the program; those of the launcher build another one)
    os.environ["THESAURUS_BUILD"] = "no"
    if program := config.getoption("--program"):
        os.environ["THESAURUS_PROGRAM"] = str(program.resolve())
    if config.getoption("--built"):
        os.environ["THESAURUS_BUILT"] = "1"
    if not hasattr(config, "workerinput"):
        os.environ["THESAURUS_TESTS_END"] = str(BEGAN + 60 * config.getoption("--minutes"))


def folder_of(item: pytest.Item) -> str:
    parts = item.path.relative_to(ROOT / "tests").parts
    return parts[0]


def place_of(item: pytest.Item) -> tuple[int, int]:
    """The key by which tests are sorted: the longest first, the others by their folders."""
    name = item.path.stem.removeprefix("test_").replace("_", "-")
    return LONGEST.index(name) if name in LONGEST else len(LONGEST), FOLDERS.index(folder_of(item))


def pytest_collection_modifyitems(config: pytest.Config, items: list[pytest.Item]) -> None:
    for it in items:
        it.add_marker(folder_of(it))
        for tool in tools_of(it):
            config.addinivalue_line("markers", f"{tool}: a test that needs it")
            it.add_marker(tool)
    left_out = [] if config.getoption("--by-hand") else [it for it in items if it.get_closest_marker("by_hand")]
    if left_out:
        config.hook.pytest_deselected(items=left_out)
    items[:] = sorted((it for it in items if it not in left_out), key=place_of)


def pytest_sessionstart(session: pytest.Session) -> None:
    if session.config.getoption("--build") and not hasattr(session.config, "workerinput") and not is_built(True):
        raise pytest.UsageError("the program was not built")


@functools.cache
def is_built(may_build: bool) -> bool:
    """Whether the program is built and no source is newer, after a build if there may be one."""
    environment = {**os.environ, "THESAURUS_BUILD": "yes" if may_build else "no"}
    errors = None if may_build else subprocess.DEVNULL
    ran = subprocess.run(
        [ROOT / "thesaurus", "--help"],
        stdin=subprocess.DEVNULL,
        stdout=subprocess.DEVNULL,
        stderr=errors,
        env=environment,
        check=False,
    )
    return ran.returncode == 0


def tools_of(item: pytest.Item) -> Iterator[str]:
    """Yields the tools that a test needs, by its marks."""
    for mark in item.iter_markers("needs"):
        yield from mark.args


def is_installed(tool: str) -> bool:
    """Whether there is a program of this name, or a module of Python, or a file at this path."""
    if "/" in tool:
        return Path(tool).is_file()
    return bool(shutil.which(tool)) or importlib.util.find_spec(tool) is not None


def pytest_runtest_setup(item: pytest.Item) -> None:
    given = item.config.option
    if folder_of(item) in NEEDING and not given.program and not given.built and not is_built(False):
        pytest.fail(NOT_BUILT, pytrace=False)
    lacking = [it for it in tools_of(item) if not is_installed(it)]
    if lacking:
        pytest.skip(f"skipped without {', '.join(lacking)}")


def left() -> float:
    """The seconds that are left for the tests."""
    return float(os.environ["THESAURUS_TESTS_END"]) - time.monotonic()


@pytest.hookimpl(hookwrapper=True, tryfirst=True)
def pytest_runtest_protocol(item: pytest.Item) -> Iterator[None]:
    """Ends a test when the time for all is over."""
    own = item.get_closest_marker("timeout")
    limit = own.args[0] if own else float(item.config.getini("timeout") or 24 * 3600)
    item.add_marker(pytest.mark.timeout(max(0.1, min(limit, left()))), append=False)
    yield


@pytest.fixture
def room() -> Iterator[Path]:
    """A folder in memory, for files that needn't survive a power cut."""
    yield from room_in_memory()


@pytest.fixture(scope="module")
def shared_room() -> Iterator[Path]:
    """A folder in memory for all tests of a file."""
    yield from room_in_memory()


def room_in_memory() -> Iterator[Path]:
    from program import MEMORY  # (once it is said which program is meant)

    with tempfile.TemporaryDirectory(dir=MEMORY) as place:
        yield Path(place).resolve()


@pytest.fixture
def leave_out(request: pytest.FixtureRequest) -> Callable[[str], None]:
    """Notes why this machine doesn't allow a part of a test; that is listed at the end, and fails nothing."""

    def note(why: str) -> None:
        request.node.user_properties.append(("left out", f"{request.node.name}: left out, since {why}"))

    return note


@pytest.hookimpl(hookwrapper=True)
def pytest_runtest_makereport(item: pytest.Item) -> Generator[None, Result, None]:
    outcome = yield
    report = outcome.get_result()
    if report.skipped and item.config.getoption("--no-skips") and LACKING.search(report.longrepr[2]):
        report.outcome, report.longrepr = "failed", f"all tools are wanted: {report.longrepr[2]}"


def pytest_terminal_summary(terminalreporter: TerminalReporter) -> None:
    """Prints what this machine doesn't allow."""
    reports = [it for kind in ("passed", "skipped") for it in terminalreporter.stats.get(kind, [])]
    for name, line in (pair for it in reports for pair in it.user_properties):
        if name == "left out":
            terminalreporter.write_line(line)


class Scheduler(LoadScopeScheduling):
    """Gives a whole file to a processor, or each case alone of the files that may be spread."""

    def _split_scope(self, nodeid: str) -> str:
        file = nodeid.partition("::")[0]
        return nodeid if Path(file).name in SPREAD else file


def pytest_xdist_make_scheduler(config: pytest.Config, log: object) -> Scheduler:
    return Scheduler(config, log)
