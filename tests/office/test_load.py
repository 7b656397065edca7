"""tools/load: what it refuses, where it stops and goes on, and that a hundred kills of it and of the program leave the
store that an undisturbed run makes, over the command line and over HTTP."""
from __future__ import annotations

import contextlib
import json
import os
import pty
import re
import signal
import subprocess
import sys
import time
from collections.abc import Callable, Iterator, Sequence
from pathlib import Path
from typing import Any, NamedTuple

import pytest
from dice import Requests
from kept import rows_beside
from office import TOOLS, Request
from plain import Plain
from plain_store import LIMITS
from ports import free_port
from program import built, lines_of, over
from thesaurus_tools.command_line import ToolError
from thesaurus_tools.program import Script

LOAD = TOOLS / "load"
PROXY = Path(__file__).resolve().with_name("withholding.py")
# How many requests a script has, how many kills there are, and how many records or answers a run gets before one at
# most.
BATCH, KILLS, RECORDS, SERVED = 160, 100, 30, 20
# How many requests take longer than a second.
LONG = 160_000
NUMBERS = ("scheme", "owner", "a", "b", "concept", "source", "target", "posting", "number")
START = [
    '{"as":"s","do":"scheme","tag":"en","text":"Animals"}',
    '{"as":"cats","do":"concept","scheme":"$s","tag":"en","text":"Cats"}',
    '{"as":"dogs","do":"concept","scheme":"$s","tag":"en","text":"Dogs"}',
]
BROADER = '{"do":"link","kind":"broader","a":"$cats","b":"$dogs"}'
ROUND = '{"do":"link","kind":"broader","a":"$dogs","b":"$cats"}'
RELATED = '{"do":"link","kind":"related","a":"$dogs","b":"$cats"}'
GERMAN = '{"do":"addLabel","owner":"$cats","kind":"pref","tag":"de","text":"Katzen"}'


CATS_TOO = '{"as":"more","do":"concept","scheme":"$s","tag":"en","text":"Cats"}'
TOTALS = '{"get":"totals"}'


class Loaded(NamedTuple):
    """How the tool ended: its status, and its lines on both streams."""

    status: int
    out: list[str]
    err: list[str]


def load(*words: str | Path, program: Path | None = None) -> Loaded:
    call: list[str | Path] = [LOAD, "--program", program or built(), *words]
    ran = subprocess.run(call, stdin=subprocess.DEVNULL, capture_output=True, check=False)
    return Loaded(ran.returncode, ran.stdout.decode().splitlines(), ran.stderr.decode().splitlines())


class Store:
    """A store with a script and a journal."""

    def __init__(self, folder: Path, name: str = "store") -> None:
        self.db, self.script, self.journal = (folder / f"{name}.{it}" for it in ("db", "jsonl", "journal"))

    def load(self, lines: list[str], *words: str | Path) -> Loaded:
        """Loads a script of these lines."""
        self.script.write_text("".join(f"{it}\n" for it in lines), encoding="utf-8")
        return load(self.script, "--db", self.db, "--journal", self.journal, *words)

    def sizes(self) -> list[str]:
        """How many resources, labels and links there are."""
        return over(self.db, "check").out.decode().split()[1:4]


@pytest.fixture
def store(room: Path) -> Store:
    return Store(room)


SMALL = ["resources=3", "labels=4", "links=1"]


# --- one line after another ---


def test_run_stops_at_a_refusal_and_goes_on_with_the_line_corrected(store: Store) -> None:
    status, _, errors = store.load([*START, "", BROADER, "# a comment", ROUND, GERMAN])
    assert (status, errors[0]) == (1, f"{store.script}:7: Cycle: {ROUND}")
    corrected = [*START, BROADER, TOTALS, GERMAN]
    assert store.load(corrected)[:2] == (0, ['{"accepted":0,"standing":0,"withdrawn":0}'])
    assert store.sizes() == SMALL
    assert store.load(corrected)[:2] == (0, [])
    status, _, errors = store.load([*START[:2], BROADER.replace("$dogs", "$cats")])
    assert status == 1 and "is no longer in the script" in errors[0]
    assert store.sizes() == SMALL


ALONE = [*START, BROADER, ROUND, GERMAN, '{"do":"deprecate","concept":"$dogs"}']
REFUSING = [*START, BROADER, ROUND, BROADER, GERMAN]


def test_keep_going_prints_every_refusal_but_expected_ones(store: Store) -> None:
    status, _, errors = store.load(REFUSING, "--keep-going", "--ok", "LinkThere,S14")
    assert (status, errors[0], len(errors)) == (1, f"{store.script}:5: Cycle: {ROUND}", 2)
    assert store.sizes() == SMALL
    assert store.load(REFUSING, "--keep-going", "--ok", "LinkThere,Cycle").status == 0


def test_expected_refusals_stop_nothing(store: Store) -> None:
    assert store.load(REFUSING, "--ok", "LinkThere,Cycle").status == 0


def test_limits_are_those_of_the_options(store: Store) -> None:
    """They are the program's own, which tells them apart."""
    status, _, errors = store.load(START, "--max-resources", "2")
    assert (status, errors[0]) == (1, f"{store.script}:3: TooMany: {START[2]}")
    assert store.load([*START, BROADER], "--max-resources", "3", "--max-links", "1").status == 0
    status, _, errors = store.load([*START, BROADER, RELATED, GERMAN], "--ok", "S27", "--max-labels", "3")
    assert (status, errors[0]) == (1, f"{store.script}:6: TooMany: {GERMAN}")


def test_name_without_a_number(store: Store) -> None:
    lines = [*START, CATS_TOO, GERMAN.replace("$cats", "$more"), GERMAN]
    status, _, errors = store.load(lines, "--ok", "PreferredTaken")
    assert (status, errors[0]) == (1, f"{store.script}:5: NoNumber: {lines[4]}")
    assert store.load(lines, "--ok", "PreferredTaken,NoNumber").status == 0
    assert store.sizes() == ["resources=3", "labels=4", "links=0"]


@pytest.mark.parametrize("has_journal", [False, True], ids=["no journal", "a journal"])
def test_all_lines_before_a_refused_one_are_done_and_none_behind_it(has_journal: bool, store: Store) -> None:
    store.script.write_text("\n".join(ALONE), encoding="utf-8")
    words: list[str | Path] = ["--journal", store.journal] if has_journal else []
    assert load(store.script, "--db", store.db, *words).status == 1
    assert store.sizes() == ["resources=3", "labels=3", "links=1"]


def test_no_line_of_one_plan_is_done_if_one_is_refused(store: Store) -> None:
    store.script.write_text("\n".join(ALONE), encoding="utf-8")
    ended = load(store.script, "--db", store.db, "--as-one")
    assert ended == (1, [], [f"{store.script}:5: Cycle: {ROUND}", "load: 7 requests: none done"])
    assert store.sizes() == ["resources=0", "labels=0", "links=0"]


def test_names_stand_for_numbers_and_texts_keep_a_dollar(store: Store, room: Path) -> None:
    """Numbers of outside concepts and postings that are there already go to their names, and --names lists all."""
    outside = '{"as":"q","do":"outside","iri":"http://example.org/q"}'
    post = '{"as":"p","do":"post","key":"$k","record":"$cats","concept":"$cats"}'
    lines = [
        *START,
        outside,
        outside.replace('"q"', '"q2"', 1),
        post,
        post.replace('"p"', '"p2"', 1),
        '{"do":"link","kind":"exact","a":"$cats","b":"$q2"}',
        '{"as":"n","do":"split","source":"$cats","tag":"en","text":"$s","postings":["$p2"]}',
        '{"get":"posting","number":"$p"}',
    ]
    shown = '{"first":2,"key":"$k","moves":[[1,2,5]],"number":1,"place":5,"record":"$cats","withdrawn":false}'
    names = room / "names.csv"
    assert store.load(lines, "--names", names)[:2] == (0, [shown])
    wanted = "name,number\ns,1\ncats,2\ndogs,3\nq,4\nq2,4\np,1\np2,1\nn,5\n"
    assert names.read_text(encoding="utf-8") == wanted


# --- as one plan ---

OUTSIDE, OTHER = ('{"as":"%s","do":"outside","iri":"http://example.org/%s"}' % (it, it) for it in "qr")
ONE = [
    *START,
    "# a comment",
    OUTSIDE,
    OTHER,
    OTHER.replace('"r"', '"r2"', 1),
    *('{"do":"link","kind":"exact","a":"$%s","b":"$%s"}' % it for it in (("cats", "q"), ("dogs", "r2"))),
    '{"as":"p","do":"post","key":"k","record":"r","concept":"$cats"}',
    '{"as":"n","do":"split","source":"$cats","tag":"en","text":"$s","postings":["$p"]}',
    '{"do":"merge","source":"$n","target":"$dogs"}',
]


@pytest.fixture
def known(room: Path) -> Store:
    """A store that has one of the outside concepts, and a script."""
    store = Store(room, "known")
    assert store.load([OUTSIDE]).status == 0
    return store


def load_as_one(store: Store, *more: str, words: Sequence[str | Path] = ()) -> Loaded:
    store.script.write_text("".join(f"{it}\n" for it in [*ONE, *more]), encoding="utf-8")
    return load(store.script, "--db", store.db, "--as-one", *words)


def test_refused_line_of_a_plan_has_its_number(known: Store) -> None:
    refused = '{"do":"withdraw","posting":9}'
    said = [f"{known.script}:13: UnknownPosting: {refused}", "load: 12 requests: none done"]
    assert load_as_one(known, refused) == (1, [], said)
    assert known.sizes() == ["resources=1", "labels=0", "links=0"]


def test_all_lines_are_done_as_one_with_names_and_known_outside_concepts(known: Store, room: Path) -> None:
    names = room / "one.csv"
    assert load_as_one(known, words=["--names", names]) == (0, [], ["load: 11 requests: 11 done as one"])
    assert known.sizes() == ["resources=6", "labels=5", "links=2"]
    wanted = "name,number\ns,2\ncats,3\ndogs,4\nq,1\nr,5\nr2,5\np,1\nn,6\n"
    assert names.read_text(encoding="utf-8") == wanted


def test_plan_that_is_too_long(known: Store) -> None:
    more = [label("3", n) for n in range(129 - 11)]
    wanted = 1, [f"load: {known.script}: it has 129 requests, and --as-one takes 128"]
    assert load_as_one(known, *more)[::2] == wanted


def test_plan_has_no_journal(known: Store) -> None:
    assert load_as_one(known, words=["--journal", known.journal]).status == 2


# --- lines that are none ---

WRONG = {
    '{"do":"scheme","tag":"en"': "Expecting",
    "[1]": "no JSON object",
    '{"as":"s","do":"scheme","tag":"en","text":"A"}': "given twice",
    '{"as":"l","do":"link","kind":"related","a":1,"b":2}': '"as" needs',
    '{"do":"merge","source":"$cats","target":"$birds"}': "no line before this one makes $birds",
    '{"do":"withdraw","posting":"$cats"}': "a resource's name",
    '{"do":"addLabel","owner":"$p","kind":"alt","tag":"en","text":"x"}': "a posting's name",
}


@pytest.fixture(scope="module")
def wrongly_loaded(shared_room: Path) -> tuple[Store, Loaded]:
    """A script with all the wrong lines, and how it was refused."""
    store = Store(shared_room, "wrong")
    post = '{"as":"p","do":"post","key":"k","record":"r","concept":"$cats"}'
    return store, store.load([*START, post, *WRONG])


@pytest.mark.parametrize("number", range(len(WRONG)), ids=list(WRONG.values()))
def test_line_that_is_none_is_reported(number: int, wrongly_loaded: tuple[Store, Loaded]) -> None:
    store, (_, _, errors) = wrongly_loaded
    assert f"{store.script}:{5 + number}: " in errors[number]
    assert list(WRONG.values())[number] in errors[number]


def test_nothing_is_sent_if_a_line_is_none(wrongly_loaded: tuple[Store, Loaded]) -> None:
    store, (status, _, _) = wrongly_loaded
    assert (status, store.db.exists()) == (1, False)


def test_missing_file(store: Store, room: Path) -> None:
    assert load(room / "none.jsonl", "--db", store.db).status == 3


def test_no_store_is_named(store: Store) -> None:
    store.script.write_text("", encoding="utf-8")
    assert load(store.script).status == 2


def test_missing_program(store: Store, room: Path) -> None:
    store.script.write_text("", encoding="utf-8")
    assert load(store.script, "--db", store.db, program=room / "none").status == 2


# --- blocks ---


def label(owner: str, n: int) -> str:
    return '{"do":"addLabel","owner":%s,"kind":"alt","tag":"en","text":"%d"}' % (owner, n)


CONCEPTS = ['{"as":"c%d","do":"concept","scheme":"$s","tag":"en","text":"Ω %d"}' % (n, n) for n in range(100)]
LABELS = [label(f'"$c{n % 100}"', n) for n in range(200)]
NUMBERED = [label(str(n % 100 + 4), n + 1000) for n in range(100)]


def test_lines_that_only_add_are_sent_in_blocks(store: Store) -> None:
    """A refusal among them has its line, and so has a line that another run finds done."""
    lines = [*START, *CONCEPTS, *LABELS, LABELS[70], *NUMBERED, *CONCEPTS[:40:2], GERMAN]
    status, _, errors = store.load(lines)
    twice = f"load: {store.script}:{len(lines) - 20}: the name c0 is given twice"
    assert (status, errors[0]) == (1, twice)
    lines[-21:-1] = [it.replace('"as":"c', '"as":"d') for it in CONCEPTS[:40:2]]
    status, _, errors = store.load(lines)
    assert (status, errors[0]) == (1, f"{store.script}:304: LabelThere: {LABELS[70]}")
    del lines[303]
    lines[150:150] = ["# inserted", label('"$c3"', 5000), ""]
    status, _, errors = store.load(lines)
    assert (status, errors[0]) == (1, f"{store.script}:407: PreferredTaken: {lines[406]}")
    status, _, errors = store.load(lines, "--ok", "PreferredTaken")
    expected = "load: 425 requests: 405 done, 20 refused as expected"
    assert (status, errors[0].partition("; ")[0]) == (0, expected)
    assert store.sizes() == ["resources=103", "labels=405", "links=0"]
    assert store.load(lines, "--ok", "PreferredTaken").status == 0


UNMADE = [*START, CONCEPTS[0], CONCEPTS[1].replace("Ω 1", "Ω 0"), *LABELS[:2], label('"$c0"', 1)]


def test_name_without_a_number_in_a_block(store: Store) -> None:
    status, _, errors = store.load(UNMADE, "--keep-going")
    taken, none = (
        f"{store.script}:{n}: {rule}: {UNMADE[n - 1]}" for n, rule in ((5, "PreferredTaken"), (7, "NoNumber"))
    )
    assert (status, errors[:2]) == (1, [taken, none])


def test_line_that_is_no_utf_8(store: Store) -> None:
    last = label('"$c0"', 2).encode().replace(b'"2"', b'"\xff"')
    store.script.write_bytes("\n".join(UNMADE).encode() + b"\n" + last)
    status, _, errors = load(store.script, "--db", store.db, "--journal", store.journal)
    assert (status, errors) == (1, [f"load: {store.script}:9: no UTF-8"])


def test_dry_run_tells_what_a_run_would_and_leaves_all(store: Store) -> None:
    store.load([*START, BROADER])
    before = rows_beside(store.db), store.journal.read_bytes()
    status, _, errors = store.load([*START, BROADER, GERMAN, ROUND], "--dry")
    assert (status, errors[0]) == (1, f"{store.script}:6: Cycle: {ROUND}")
    assert (rows_beside(store.db), store.journal.read_bytes()) == before
    assert load(store.script, "--dry", "--keep-going").status == 1, "in memory"


def test_long_run_on_a_terminal(room: Path) -> None:
    """A store without a base of its own is announced, and one line says how far a long run is, and is gone at the
    end."""
    script, path = room / "long.jsonl", room / "long.db"
    script.write_bytes(lines_of([{"get": "totals"}] * LONG))
    ours, theirs = pty.openpty()
    words = [LOAD, "--program", built(), "--db", path, script]
    with subprocess.Popen(words, stdout=subprocess.DEVNULL, stderr=theirs) as run:
        os.close(theirs)
        said = b""
        with contextlib.suppress(OSError):
            while more := os.read(ours, 4096):
                said += more
        os.close(ours)
    new, _, said = said.partition(b"\r\n")
    assert new.startswith(b"load: %s is new, and its IRIs will begin with https://thesaurus.example/id/ " % bytes(path))
    _, *shown, last = said.split(b"\r\x1b[K")
    assert (run.returncode, last) == (0, b"load: %d requests: %d done\r\n" % (LONG, LONG))
    assert shown and all(re.fullmatch(b"load: \\d+ of %d requests" % LONG, it) for it in shown if it)


# --- kills ---


# A request with numbers, and with names.
Pair = tuple[Request, Request]


def named(seed: int) -> Iterator[Pair]:
    """Requests that are likely to be accepted, or to be refused for some reason: with numbers, and with names in place
    of most."""
    dice, plain = Requests(seed), Plain(LIMITS)
    made: dict[tuple[bool, Any], str] = {}
    for number in range(1, BATCH + 1):
        request = dice.request(plain, 40)
        plain, answer = plain.perform(request) if "do" in request else (plain, {})

        def has_name(key: str, it: Any) -> bool:
            return "do" in request and key in NUMBERS and (key == "posting", it) in made

        line = {key: f"${made[key == 'posting', it]}" if has_name(key, it) else it for key, it in request.items()}
        if "ok" in answer:
            line["as"] = made[request["do"] == "post", answer["ok"]] = f"n{number}"
        yield request, line


def in_runs(seed: int) -> Iterator[Pair]:
    """Requests of a kind one after another, as converters write them, a few of them refused: with numbers, and with
    names."""
    dice, plain = Requests(seed), Plain(LIMITS)
    made: dict[str, int] = {}

    def lines() -> Iterator[Request]:
        yield {"as": "s", "do": "scheme", "tag": "en", "text": "Animals"}
        for n in range(50):
            yield {
                "as": f"c{n}",
                "do": "concept",
                "scheme": "$s",
                "tag": "en",
                "text": f"Concept {n - dice.one_in(15)}",
            }

        def concept() -> str:
            return f"${dice.pick(sorted(made)[:-1])}"

        for n in range(70):
            yield {
                "do": "addLabel",
                "owner": concept(),
                "kind": dice.pick(("alt", "hidden")),
                "tag": "en",
                "text": f"Label {dice.below(60)}",
            }
        for n in range(40):
            yield {"do": "link", "kind": dice.pick(("broader", "related")), "a": concept(), "b": concept()}
        for n in range(60):
            yield {"do": "post", "key": f"key {n - dice.one_in(15)}", "record": f"Record {n}", "concept": concept()}

    for line in lines():
        request = {
            key: made[it[1:]] if isinstance(it, str) and it.startswith("$") else it
            for key, it in line.items()
            if key != "as"
        }
        plain, answer = plain.perform(request)
        if "as" in line and "ok" in answer:
            made[line["as"]] = answer["ok"]
        yield request, line


def script_of(lines: list[Request]) -> bytes:
    """A script with names, what is made and what is done first in each line."""

    def first(line: Request) -> list[tuple[str, Any]]:
        return sorted(line.items(), key=lambda it: (("as", "do").index(it[0]) if it[0] in ("as", "do") else 2, it[0]))

    return "".join(json.dumps(dict(first(it)), ensure_ascii=False) + "\n" for it in lines).encode()


class Victim:
    """Runs of the tool over a store, with a program that notes its process or is a proxy that withholds answers."""

    def __init__(self, room: Path, dice: Requests, words: list[str | Path]) -> None:
        self.room, self.dice, self.words = room, dice, words
        self.journal, self.pid, self.program = room / "journal", room / "pid", room / "program"

    def start(self, command: str) -> None:
        """Starts the tool over a program that is run by this command of the shell."""
        self.program.write_text(
            f'#!/bin/sh\necho $$ > "{self.pid}"\nexec {command} "{built()}" "$@"\n', encoding="utf-8"
        )
        self.program.chmod(0o755)
        self.pid.unlink(missing_ok=True)
        words: list[str | Path] = [
            LOAD,
            "--program",
            self.program,
            "--journal",
            self.journal,
            "--keep-going",
            *self.words,
        ]
        self.run = subprocess.Popen(words, stdout=subprocess.DEVNULL, stderr=subprocess.PIPE)

    def end(self) -> tuple[int, str]:
        """Waits for the end of the tool, and returns its status and what it reported."""
        error = self.run.communicate()[1].decode()
        return self.run.returncode, error

    def run_through(self) -> tuple[int, str]:
        self.start("")
        return self.end()

    def wait_for_records(self) -> None:
        """Starts the tool, and waits until it has written some records of its journal."""
        self.start("")
        count = self.records() + self.dice.between(1, RECORDS)
        while self.records() < count and self.run.poll() is None:
            time.sleep(0.0005)

    def kill_at_random(self) -> tuple[int, str]:
        """Kills the tool or the program a while after it wrote some records of its journal, and maybe both."""
        self.wait_for_records()
        time.sleep(self.dice.below(1000) / 1e6)
        victims = self.dice.pick((["tool"], ["program"], ["tool", "program"]))
        with contextlib.suppress(FileNotFoundError, ValueError, ProcessLookupError):
            for it in victims if self.run.poll() is None else ():
                os.kill(self.run.pid if it == "tool" else int(self.pid.read_text(encoding="ascii")), signal.SIGKILL)
        return self.end()

    def kill_unanswered(self) -> tuple[int, str]:
        """Kills the tool or the program when some requests were performed whose answers the tool didn't get."""
        passed, withheld = self.dice.between(6, 6 + RECORDS), self.dice.between(1, 24)
        self.start(f'"{sys.executable}" "{PROXY}" {passed} {withheld} {self.dice.pick(("client", "program"))}')
        return self.end()

    def records(self) -> int:
        return self.journal.read_bytes().count(b"\n") if self.journal.exists() else 0


class Kills(NamedTuple):
    """A script that was loaded while the tool and the program were killed again and again: how often, how the last run
    ended, and whether the rows are those of an undisturbed run."""

    times: int
    status: int
    error: str
    is_same: bool


def kill_again_and_again(place: Path, dice: Requests, pairs: list[Pair], most: int) -> Kills:
    """Loads a script while the tool and the program are killed, until it ends otherwise or they were killed `most`
    times."""
    over(place / "plain.db", "script", lines_of([it for it, _ in pairs]))
    (place / "named.jsonl").write_bytes(script_of([it for _, it in pairs]))
    victim = Victim(place, dice, [place / "named.jsonl", "--db", place / "killed.db"])
    count = 0
    while count < most:
        status, error = victim.dice.pick((victim.kill_at_random, victim.kill_unanswered))()
        if status not in (-signal.SIGKILL, 3) or "Traceback" in error:
            break
        count += 1
    else:
        status, error = victim.run_through()
    return Kills(count, status, error, rows_beside(place / "plain.db") == rows_beside(place / "killed.db"))


@pytest.fixture(scope="module")
def killed(shared_room: Path) -> list[Kills]:
    """Scripts that were killed, until there were enough kills of them all, or one is wrong."""
    dice, found = Requests(41), list[Kills]()
    kinds: tuple[Callable[[int], Iterator[Pair]], ...] = (named, in_runs)
    while sum(it.times for it in found) < KILLS and all(it.status == 1 and it.is_same for it in found):
        number = len(found) + 1
        place = shared_room / f"kills{number}"
        place.mkdir()
        most = KILLS - sum(it.times for it in found)
        found.append(kill_again_and_again(place, dice, list(kinds[number % 2](number)), most))
    return found


@pytest.mark.parametrize("number", range(KILLS))
def test_store_is_that_of_an_undisturbed_run_however_often_it_is_killed(number: int, killed: list[Kills]) -> None:
    """A kill counts for the script in which it was; where there were too few, one before them was wrong."""
    ends = [it for it in killed for _ in range(it.times)]
    assert number < len(ends), killed[-1]
    assert (ends[number].status, ends[number].is_same) == (1, True), ends[number]


class Serving:
    """A server over a store, at one port."""

    def __init__(self, path: Path) -> None:
        self.words: list[str | Path] = [built(), "--db", path, "serve", "--port", str(free_port())]
        self.url = f"http://127.0.0.1:{self.words[-1]}"

    def start(self) -> None:
        self.run = subprocess.Popen(self.words, stdout=subprocess.PIPE)
        assert self.run.stdout and self.run.stdout.readline().startswith(b"listening"), "no server"

    def kill(self) -> None:
        self.run.kill()
        self.run.communicate()


class Served(NamedTuple):
    """A script that was loaded over HTTP while the tool or the server was killed: the ends that were wrong, the status
    of the last run, and whether the rows are those of an undisturbed run."""

    wrong: dict[int, str]
    status: int
    error: str
    is_same: bool


@pytest.fixture(scope="module")
def served(shared_room: Path) -> Served:
    room = shared_room / "served"
    room.mkdir()
    dice, pairs = Requests(43), list(named(99))
    over(room / "plain.db", "script", lines_of([it for it, _ in pairs]))
    (room / "served.jsonl").write_bytes(lines_of([it for _, it in pairs]))
    server, wrong = Serving(room / "served.db"), {}
    server.start()
    victim = Victim(room, dice, [room / "served.jsonl", "--http", server.url])
    for number in range(SERVED):
        victim.wait_for_records()
        if dice.one_in(2):
            victim.run.kill()
            victim.end()
        else:
            server.kill()
            status, error = victim.end()
            if status != 3 and victim.records() < 2 * BATCH:
                wrong[number] = f"status {status}, {error}"
            server.start()
    status, error = victim.run_through()
    server.kill()
    return Served(wrong, status, error, rows_beside(room / "plain.db") == rows_beside(room / "served.db"))


@pytest.mark.parametrize("number", range(SERVED))
def test_server_that_is_killed_is_reported(number: int, served: Served) -> None:
    assert number not in served.wrong, served.wrong[number]


def test_store_is_that_of_an_undisturbed_run_over_http(served: Served) -> None:
    assert (served.status, served.is_same) == (1, True), served.error


def test_run_that_begins_anew_makes_no_store(room: Path) -> None:
    """The store is moved away while a tool works, as when a volume is unmounted."""
    path = room / "moved.db"
    script = Script(str(built()), path, may_be_new=True).open()
    script.close()
    for end in ("", "-wal"):
        if (it := Path(f"{path}{end}")).exists():
            it.rename(room / f"elsewhere.db{end}")
    with pytest.raises(ToolError, match="no such file"):
        script.open()
    assert not path.exists()


def test_run_over_a_store_that_must_be_there_makes_none(room: Path) -> None:
    path = room / "mistyped.db"
    with pytest.raises(ToolError, match="no such file"):
        Script(str(built()), path).open()
    assert not path.exists()
