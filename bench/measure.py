"""What the benchmarks share: the built program, scripts of requests, the clock, and what becomes of the figures."""
from __future__ import annotations

import datetime
import http.client
import json
import math
import os
import pathlib
import platform
import re
import resource
import subprocess
import sys
import tempfile
from collections.abc import Iterable, Iterator, Sequence
from typing import Any, NamedTuple

HOME = pathlib.Path(__file__).resolve().parent.parent
sys.path.append(str(HOME / "tests" / "program"))
from ports import free_port  # noqa: E402
from program import built  # noqa: E402

# A request over HTTP: its method, its path and its body.
Asked = tuple[str, str, bytes | None]

RESULTS = HOME / "bench" / "RESULTS.md"
RUNS = 5
# Runs a program, and has valgrind count its instructions.
COUNTER = ["valgrind", "--tool=cachegrind", "--cache-sim=no", "--cachegrind-out-file=/dev/null"]
# The decimals of a value by its unit.
DECIMALS = {"s": 3, "ms": 1, "times": 2, "microseconds": 1, "MB": 1, "bytes": 1, "instructions": 0, "misses": 0, "%": 1}


class Measured(NamedTuple):
    """A figure with its unit, and the most that it may be, if there is a bound."""

    name: str
    value: float
    unit: str = "s"
    most: float | None = None

    def is_held(self) -> bool:
        return self.most is None or self.value <= self.most

    def text(self) -> str:
        return f"{self.value:,.{DECIMALS[self.unit]}f} {self.unit}"

    def bound(self) -> str:
        return "" if self.most is None else f"{self.most:,g}: {'held' if self.is_held() else 'missed'}"


def words() -> list[str]:
    """The arguments of the script but --write. With --help its description is printed."""
    if "--help" in sys.argv[1:]:
        print(
            f"{sys.modules['__main__'].__doc__}"
            "\nWith --write the figures also replace the script's section of bench/RESULTS.md."
        )
        sys.exit(0)
    return [it for it in sys.argv[1:] if it != "--write"]


def numbers(*defaults: int) -> list[int]:
    """The arguments of the script as numbers, with defaults for those that are missing."""
    given = list(map(int, words()))
    return given[: len(defaults)] + list(defaults[len(given) :])


def line(**members: object) -> str:
    """A request as a line."""
    return json.dumps(members, separators=(",", ":")) + "\n"


def scheme_with(concepts: int) -> Iterator[str]:
    """Requests that make scheme 1 and this number of concepts, from number 2 on."""
    yield line(do="scheme", tag="en", text="Bench")
    for number in range(2, 2 + concepts):
        yield line(do="concept", scheme=1, tag="en", text=f"Concept {number}")


def posts(count: int, concepts: int) -> Iterator[str]:
    """Requests that post this number of records to the concepts in turn, from posting 1 on."""
    for number in range(1, 1 + count):
        yield line(do="post", key=f"k{number}", record=f"r{number}", concept=2 + (number - 1) % concepts)


def spent() -> float:
    """The seconds of CPU, user and system together, of all runs so far."""
    usage = resource.getrusage(resource.RUSAGE_CHILDREN)
    return usage.ru_utime + usage.ru_stime


def spent_by(pid: int) -> float:
    """The seconds of CPU that a running program of one thread has spent."""
    return int(pathlib.Path(f"/proc/{pid}/schedstat").read_text(encoding="ascii").split()[0]) / 1e9


def run(script: bytes) -> tuple[float, bytes]:
    """The seconds of CPU of one run, and what the program wrote."""
    before = spent()
    ran = subprocess.run([built(), "script"], input=script, stdout=subprocess.PIPE, check=False)
    seconds = spent() - before
    if ran.returncode != 0:
        refused = next((it for it in ran.stdout.splitlines() if it[2:4] in (b"no", b"ba", b"fa")), b"")
        sys.exit(f"{built()} script ended with {ran.returncode}: {refused.decode()}")
    return seconds, ran.stdout


def counted(program: str | pathlib.Path, given: Iterable[object], script: bytes = b"") -> tuple[int, list[bytes]]:
    """The instructions of a run of a program, and the lines that it wrote. It may refuse a request, but meets no
    fault."""
    ran = subprocess.run([*COUNTER, program, *map(str, given)], input=script, capture_output=True, check=False)
    found = re.search(rb"I\s+refs:\s+([\d,]+)", ran.stderr)
    if ran.returncode > 1 or not found:
        sys.exit(
            f"valgrind {program} {' '.join(map(str, given))} ended with {ran.returncode}: {ran.stderr.decode()[-300:]}"
        )
    return int(found[1].replace(b",", b"")), ran.stdout.splitlines()


def counted_within(
    program: str | pathlib.Path, given: Iterable[object], script: bytes, function: str
) -> tuple[int, int]:
    """The instructions of a run of a program, and those of them in a function and what it calls."""
    with tempfile.NamedTemporaryFile() as file:
        words = ["valgrind", "--tool=callgrind", f"--callgrind-out-file={file.name}", program, *map(str, given)]
        ran = subprocess.run(words, input=script, capture_output=True, check=False)
        found = re.search(rb"Collected : (\d+)", ran.stderr)
        if ran.returncode > 1 or not found:
            sys.exit(f"{' '.join(map(str, words))} ended with {ran.returncode}: {ran.stderr.decode()[-300:]}")
        listed = ["callgrind_annotate", "--inclusive=yes", "--threshold=100", file.name]
        lines = subprocess.run(listed, capture_output=True, text=True, check=True).stdout.splitlines()
    within = [re.match(r"\s*([\d,]+) .*:" + re.escape(function) + r"(?:::<\S+)?(?: \[.*)?$", it) for it in lines]
    return int(found[1]), sum(int(it[1].replace(",", "")) for it in within if it)


def seconds_of(requests: Iterable[str]) -> float:
    """The seconds of CPU of the fastest of several runs. Each request must be accepted."""
    requests = list(requests)
    script = "".join(requests).encode()
    best = math.inf
    for _ in range(RUNS):
        seconds, answers = run(script)
        if answers.count(b"\n") != len(requests):
            sys.exit(f"{len(requests)} requests, and {answers.count(10)} answers")
        best = min(best, seconds)
    return best


def least(words: Iterable[object], runs: int = RUNS, **streams: Any) -> float:
    """The seconds of CPU of the fastest of several runs of the program, none of which may meet a fault."""
    best = math.inf
    for _ in range(runs):
        before = spent()
        ran = subprocess.run([built(), *map(str, words)], stdout=subprocess.DEVNULL, check=False, **streams)
        seconds = spent() - before
        if ran.returncode > 1:
            sys.exit(f"{built()} {' '.join(map(str, words))} ended with {ran.returncode}")
        best = min(best, seconds)
    return best


def store_of(requests: Iterable[str], path: pathlib.Path) -> float:
    """Makes a store in a file by these requests, none of which may be refused, and returns the seconds of CPU."""
    script = "".join(requests).encode()
    before = spent()
    ran = subprocess.run([built(), "--db", path, "script"], input=script, stdout=subprocess.DEVNULL, check=False)
    if ran.returncode != 0:
        sys.exit(f"the requests of {path} were not all performed: status {ran.returncode}")
    return spent() - before


def ask(port: int, method: str, path: str, body: bytes | None = None) -> None:
    """One connection: a request, and its whole answer."""
    client = http.client.HTTPConnection("127.0.0.1", port, timeout=600)
    client.request(method, path, body)
    answer = client.getresponse()
    answer.read()
    client.close()
    if answer.status >= 400:
        sys.exit(f"{method} {path} was answered with {answer.status}")


def serving(store: pathlib.Path, asked: Sequence[Asked]) -> float:
    """The seconds of CPU of the program that serves these requests, with its start."""
    port = free_port()
    server = subprocess.Popen(
        [built(), "--db", store, "serve", "--port", str(port), "--count", str(len(asked))], stdout=subprocess.PIPE
    )
    assert server.stdout
    if server.stdout.readline() != f"listening on 127.0.0.1:{port}\n".encode():
        sys.exit("serve did not listen")
    for method, path, body in asked:
        ask(port, method, path, body)
    _, status, used = os.wait4(server.pid, 0)
    if status != 0:
        sys.exit(f"serve ended with {os.waitstatus_to_exitcode(status)}")
    return used.ru_utime + used.ru_stime


def machine() -> str:
    """The processor and the system of this machine."""
    model = re.search(r"^model name\s*: (.*)$", pathlib.Path("/proc/cpuinfo").read_text(encoding="utf-8"), re.M)
    return f"{os.cpu_count()} cores of {model[1] if model else platform.machine()}, {platform.system()}"


def commit() -> str:
    """The commit of the sources, and whether a crate differs from it."""

    def git(*words: str) -> str:
        return subprocess.run(["git", "-C", HOME, *words], capture_output=True, text=True, check=False).stdout.strip()

    changed = " with changes" if git("status", "--porcelain", "--", "crates", "crates.txt") else ""
    return f"commit {git('rev-parse', '--short=8', 'HEAD')}{changed}"


def with_section(page: str, command: str, text: str) -> str:
    """A page of results with this text as the section of a command: in the place of its former one, or else by its
    name."""
    head, *sections = re.split(r"^(?=## )", page, flags=re.M)
    found = {it.partition("`")[2].partition("`")[0]: it.rstrip("\n") for it in sections}
    found[command] = f"## `{command}`\n\n{text.strip()}"
    return "\n\n".join([head.rstrip("\n"), *(found[it] for it in sorted(found))]) + "\n"


def section(measured: Iterable[Measured], load: float) -> str:
    """The section of a script: when, of which program and where it was measured; and a row for each figure."""
    today = datetime.datetime.now(datetime.timezone.utc).date()
    rows = [f"| {it.name} | {it.text()} | {it.bound()} |" for it in measured]
    head = f"{today}, {commit()}; {machine()}; {load:.1f} other programs at work."
    return "\n".join([head, "", "| What | Measured | At most |", "|---|---|---|", *rows])


def report(measured: Sequence[Measured]) -> None:
    """Prints what was measured, writes it into RESULTS.md with --write, and ends with 1 if a bound isn't held."""
    for it in measured:
        print(f"{it.name}: {it.text()}{f' (at most {it.bound()})' if it.bound() else ''}")
    if "--write" in sys.argv[1:]:
        # (the benchmark itself is one of the programs at work)
        load = max(0, os.getloadavg()[1] - 1)
        option = next((f" {it}" for it in ("--db", "--seconds") if it in sys.argv[1:]), "")
        command = f"bench/{pathlib.Path(sys.argv[0]).name}{option}"
        RESULTS.write_text(
            with_section(RESULTS.read_text(encoding="utf-8"), command, section(measured, load)), encoding="utf-8"
        )
    sys.exit(0 if all(it.is_held() for it in measured) else 1)
