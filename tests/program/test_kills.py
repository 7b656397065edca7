"""Answered requests are in the store after a script is killed at a random time, a hundred times, with at most one
other, whole; and so 300 times with scripts of plans. The rows, as SQLite itself reads them in the files that are left
and after the next run, are compared with those of the plain program. Programs are also killed as they make a store, and
as they import a posting file; and a log is cut or damaged at many places, and copied in part, as after a power cut."""
from __future__ import annotations

import subprocess
import time
from collections.abc import Callable, Iterator, Sequence
from pathlib import Path
from typing import Any, NamedTuple

import pytest
from dice import Requests
from kept import START, Request, performed, rows_beside, stands, started
from plain import Plain
from plain_plans import perform_any
from plain_store import LIMITS, read_rows, rows_of
from program import built, lines_of, over, values_of
from thrown_plans import Plans

KILLS = 100
KILLS_IN_ONE = 10
PLAN_KILLS = 300
PLANS = 12
MAKINGS = 400
IMPORTS = 20
ROWS = 4_000
BLOCK = 1_000
GROUP = 128
BATCH = 80
CUTS = 100
PAGE = 4096
# How many seconds pass at most between the last answer that is waited for and the kill, and between the start and the
# kill.
SHORT, LONG = 0.001, 0.02
# A request or a plan.
Sent = Request | list[Request]


def killed(
    path: Path, requests: Sequence[Sent], answers: int, delay: float, *, ends: bool = True, options: Sequence[str] = ()
) -> list[Request]:
    """Runs a script, kills it some time after its nth answer, maybe as it copies its log at its end, and returns its
    answers. It waits for more requests unless it `ends`."""
    how: dict[str, Any] = {"stdin": subprocess.PIPE, "stdout": subprocess.PIPE, "stderr": subprocess.DEVNULL}
    with subprocess.Popen([built(), "--db", path, "script", *options], **how) as script:
        assert script.stdin and script.stdout
        script.stdin.write(lines_of(requests))
        script.stdin.flush()
        if ends:
            script.stdin.close()
        told = b"".join(script.stdout.readline() for _ in range(answers))
        time.sleep(delay)
        script.kill()
        return values_of(told + script.stdout.read())


# --- scripts, and scripts of plans ---


def batch(dice: Requests, plain: Plain) -> list[Request]:
    """Requests of which most post, merge and split; a concept has many postings at once."""
    requests = []
    for _ in range(BATCH):
        request = dice.making(plain) if dice.one_in(6) else dice.posting(plain)
        if request["do"] == "post":
            request["key"] = f"k{len(plain.postings)}-{dice.below(4)}"
        plain, _ = plain.perform(request)
        requests.append(request)
    return requests


def batch_of_plans(dice: Plans, plain: Plain) -> list[list[Request]]:
    plans = []
    for _ in range(PLANS):
        plans.append(dice.plan(plain, dice.pick((2, 8, 24, 64))))
        plain, _ = perform_any(plain, plans[-1])
    return plans


# What is wrong after each kill, or None; a wrong one is the last.
Outcomes = list[str | None]
# The states after each of the requests of a script that was killed, the answers to them, and those that it printed.
Killed = tuple[list[Plain], list[Request], list[Request]]


def kill_scripts(room: Path, most: int, kill: Callable[[Path, Plain], Killed]) -> Iterator[str | None]:
    """Kills scripts, some over one store, and yields what is wrong after each, or None, until one is wrong."""
    for number in range(most):
        path = room / f"killed{number // KILLS_IN_ONE}.db"
        if number % KILLS_IN_ONE == 0:
            plain: Plain | None = started(path)
        assert plain
        plain, why = stands(path, *kill(path, plain))
        yield why
        if why:
            return


@pytest.fixture(scope="module")
def kills(shared_room: Path) -> Outcomes:
    dice, room = Requests(2), shared_room / "scripts"
    room.mkdir()

    def kill(path: Path, plain: Plain) -> Killed:
        requests = batch(dice, plain)
        answers = min(dice.below(BATCH + BATCH // 4), BATCH)
        told = killed(path, requests, answers, SHORT * dice.below(1000) / 1000)
        return *performed(plain, requests), told

    return list(kill_scripts(room, KILLS, kill))


@pytest.fixture(scope="module")
def plan_kills(shared_room: Path) -> Outcomes:
    dice, room = Plans(7), shared_room / "plans"
    room.mkdir()

    def kill(path: Path, plain: Plain) -> Killed:
        plans = batch_of_plans(dice, plain)
        delay = 3 * SHORT * dice.below(1000) / 1000
        told = killed(path, plans, dice.below(PLANS + 1), delay, options=["--plans"])
        return *performed(plain, plans), told

    return list(kill_scripts(room, PLAN_KILLS, kill))


def assert_right(outcomes: Outcomes, number: int) -> None:
    assert number < len(outcomes), "an earlier kill left another state"
    assert outcomes[number] is None


@pytest.mark.parametrize("number", range(KILLS))
def test_store_has_the_answered_requests_and_at_most_one_more(number: int, kills: Outcomes) -> None:
    assert_right(kills, number)


@pytest.mark.parametrize("number", range(PLAN_KILLS))
def test_store_has_the_answered_plans_and_at_most_one_more_whole(number: int, plan_kills: Outcomes) -> None:
    assert_right(plan_kills, number)


# --- the making of a store, and imports ---


@pytest.mark.parametrize("number", range(MAKINGS))
def test_kill_within_the_making_of_a_store_leaves_nothing_that_is_refused(number: int, room: Path) -> None:
    """The next run makes the store, or has the answered requests, and one more at most. It leaves no mark."""
    dice, path = Requests(3_000 + number), room / "made.db"
    states, answers = performed(Plain(LIMITS), START)
    told = killed(path, START, 0, LONG * dice.below(1000) / 1000)
    assert over(path, "script") == (0, b"", b"")
    state, why = stands(path, states, answers, told)
    assert state, why
    assert not path.with_name(f"{path.name}-making").exists()


def imported(path: Path, file: Path, lines: int, delay: float) -> bytes:
    """Imports a posting file, kills the import some time after its nth line, and returns what it printed."""
    words = [built(), "--db", path, "import", file]
    with subprocess.Popen(words, stdout=subprocess.PIPE, stderr=subprocess.DEVNULL) as work:
        assert work.stdout
        printed = b"".join(work.stdout.readline() for _ in range(lines))
        time.sleep(delay)
        work.kill()
        return printed + work.stdout.read()


def outcomes_of(words: list[bytes]) -> bytes:
    """The outcomes of rows, each of which has the number of its posting."""
    return b"row,outcome,number\n" + b"".join(b"%d,%s,%d\n" % (row, word, row) for row, word in enumerate(words, 1))


@pytest.mark.parametrize("number", range(IMPORTS))
def test_killed_import_has_printed_outcomes_of_rows_that_are_in_the_store(number: int, room: Path) -> None:
    """And of all of these but a block's. The store has whole groups of a block's rows. Imported again, they are
    there."""
    dice, file, path = Requests(5_000 + number), room / "postings.csv", room / "imported.db"
    file.write_bytes(b"key,record,concept\n" + b"".join(b"k%d,r%d,2\n" % (row, row) for row in range(1, 1 + ROWS)))
    started(path)
    lines = dice.pick((0, 1, *(1 + count * BLOCK for count in range(1, ROWS // BLOCK))))
    printed = imported(path, file, lines, LONG * dice.below(1000) / 1000)
    reported = max(printed.count(b"\n") - 1, 0)
    keys = [row[1] for row in rows_beside(path)["posting"]]
    assert outcomes_of([b"new"] * ROWS).startswith(printed)
    assert reported <= len(keys) <= reported + BLOCK
    assert not len(keys) % BLOCK % GROUP, "no whole groups"
    assert sorted(keys) == sorted(f"k{row}" for row in range(1, 1 + len(keys)))
    again = over(path, "import", after=(file,))
    assert (again.status, again.out) == (0, outcomes_of([b"again"] * len(keys) + [b"new"] * (ROWS - len(keys))))


# --- logs that are cut, and files that are torn ---

# A database, and its log.
Files = tuple[bytes, bytes]


def log_of(path: Path) -> Path:
    return path.with_name(f"{path.name}-wal")


def cut_logs(dice: Requests, kept: bytes, log: bytes) -> Iterator[Files]:
    """The two files as a power cut may leave them while the log is written: it is cut anywhere, or a byte of it is
    another."""
    for _ in range(CUTS):
        place = dice.below(len(log))
        yield kept, log[:place]
        yield kept, log[:place] + bytes((log[place] ^ 1 << dice.below(8),)) + log[place + 1 :]


def torn_files(dice: Requests, kept: bytes, copied: bytes, log: bytes) -> Iterator[Files]:
    """The two files as a power cut may leave them while the log is copied: some pages are new."""
    for _ in range(CUTS):
        places = range(0, dice.pick((len(kept), len(copied))), PAGE)
        pages = [(kept[it : it + PAGE], copied[it : it + PAGE]) for it in places]
        yield b"".join(dice.pick((old or new, new)) for old, new in pages), log


class Cut(NamedTuple):
    """A script that was killed at its end: its files, as they were and as power cuts may leave them, and the rows after
    each number of its requests."""

    whole: Files
    left: list[Files]
    fronts: list[Any]
    is_answered: bool


@pytest.fixture(scope="module")
def cut(shared_room: Path) -> Cut:
    path, dice = shared_room / "cut.db", Requests(4)
    plain = started(path)
    requests = batch(dice, plain)
    states, answers = performed(plain, requests)
    told = killed(path, requests, BATCH, 0, ends=False)
    kept, log = path.read_bytes(), log_of(path).read_bytes()
    over(path, "check")
    left = [*cut_logs(dice, kept, log), *torn_files(dice, kept, path.read_bytes(), log)]
    return Cut((kept, log), left, [rows_of(it) for it in states], told == answers)


def front_in(copy: Path, files: Files, fronts: list[Any]) -> int:
    """The number of first requests after which the rows are those of such files, as SQLite and the program read
    them."""
    kept, log = files
    copy.write_bytes(kept)
    log_of(copy).write_bytes(log)
    left = rows_beside(copy)
    ended = over(copy, "check")
    rows = read_rows(copy)
    assert not ended.status, ended
    assert left == rows, "SQLite reads other rows"
    assert rows in fronts
    return fronts.index(rows)


@pytest.mark.parametrize("number", range(3 * CUTS))
def test_power_cut_leaves_the_store_after_some_first_requests(number: int, cut: Cut, room: Path) -> None:
    """A whole log is read whole, whichever pages were copied."""
    front = front_in(room / "copy.db", cut.left[number], cut.fronts)
    assert cut.left[number][1] != cut.whole[1] or front == BATCH


def test_longer_log_leaves_no_fewer_requests(cut: Cut, room: Path) -> None:
    log = cut.whole[1]
    sizes = sorted({len(it) for _, it in cut.left if log.startswith(it)})
    rising = [front_in(room / "copy.db", (cut.whole[0], log[:size]), cut.fronts) for size in sizes]
    assert rising == sorted(rising) and rising[-1] == BATCH


def test_script_that_is_killed_at_its_end_has_answered(cut: Cut) -> None:
    assert cut.is_answered
