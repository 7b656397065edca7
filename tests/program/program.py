"""Runs the built program for the tests: the one that the variable THESAURUS_PROGRAM names, or else `./thesaurus`.
`tests/run` sets it."""
from __future__ import annotations

import functools
import json
import os
import re
import subprocess
import sys
import tempfile
from collections.abc import Iterable, Sequence
from pathlib import Path
from typing import Any, NamedTuple

ROOT = Path(__file__).resolve().parents[2]
LAUNCHER = ROOT / "thesaurus"
# A word of a command line.
Word = str | bytes | Path


def program_of(crate: str) -> Path | None:
    """The program of a crate that `rt ci` built, or None if it isn't known to have done so (`tests/run --built`)."""
    return ROOT / "crates" / crate / "out" / crate if os.environ.get("THESAURUS_BUILT") else None


PROGRAM = Path(os.environ.get("THESAURUS_PROGRAM") or program_of("thes_cli") or LAUNCHER).resolve()
# A folder in memory, for files that needn't survive a power cut; or None for the usual folder of temporary files.
MEMORY = next((it for it in ("/dev/shm",) if Path(it).is_dir()), None)


class Ended(NamedTuple):
    status: int
    out: bytes
    err: bytes


@functools.cache
def built() -> Any:
    """The path of the program itself, built by the launcher if need be; `tests/run` lets it build nothing. (mypy
    takes a list of paths and texts for one of objects.)"""
    if PROGRAM != LAUNCHER:
        return PROGRAM
    if status := subprocess.run([LAUNCHER, "--help"], stdout=subprocess.DEVNULL, check=False).returncode:
        sys.exit(status)
    return ROOT / "crates" / "thes_cli" / "out" / "thes_cli"


def run(words: Sequence[Word], given: bytes = b"", program: Path = PROGRAM, **streams: Any) -> Ended:
    """Runs the program with these words and this standard input, or other streams, and returns how it ended."""
    how: dict[str, Any] = {
        "stdout": subprocess.PIPE,
        "stderr": subprocess.PIPE,
        **({} if "stdin" in streams else {"input": given}),
    }
    ran = subprocess.run([program, *words], check=False, **{**how, **streams})
    return Ended(ran.returncode, ran.stdout or b"", ran.stderr or b"")


class Use(NamedTuple):
    """What a run took: seconds of a processor, and the most memory, in bytes."""

    seconds: float
    memory: int


# Runs the rest of its words, and writes the exit status and what that took to a file. (The memory of a process begins
# with that of the one which starts it, so a small one starts it, and not the tests.)
MEASURING = """
import os, resource, subprocess, sys
status = subprocess.call(sys.argv[2:])
used = resource.getrusage(resource.RUSAGE_CHILDREN)
os.write(int(sys.argv[1]), b"%d %f %d" % (status, used.ru_utime + used.ru_stime, used.ru_maxrss * 1024))
"""


def measured(call: Sequence[Word], **streams: Any) -> tuple[int, Use]:
    """Runs a command with these streams, and returns its exit status and what it took."""
    with tempfile.TemporaryFile() as said:
        words = [sys.executable, "-S", "-c", MEASURING, str(said.fileno()), *call]
        subprocess.run(words, check=True, pass_fds=[said.fileno()], **streams)
        said.seek(0)
        status, seconds, memory = said.read().split()
    return int(status), Use(float(seconds), int(memory))


def over(path: Word, command: str, given: bytes = b"", *options: Word, after: Iterable[Word] = (), **how: Any) -> Ended:
    """Runs a command of the program itself over the store in a file, with options before the command, or after it."""
    return run(["--db", path, *options, command, *after], given, built(), **how)


def fault(path: Path | str, name: str, why: str = "") -> Ended:
    """How the program ends if the store in a file has a fault; Store has a reason."""
    return Ended(3, b"", f"thesaurus: store {path}{why and f': {why}'}\nthesaurus: fault {name}\n".encode())


def text_of(value: object) -> bytes:
    """A value as the program writes it: compact JSON, its members in order."""
    return json.dumps(value, ensure_ascii=False, separators=(",", ":"), sort_keys=True).encode()


def lines_of(values: Iterable[object]) -> bytes:
    """The lines of a script, or of its answers."""
    return b"".join(text_of(it) + b"\n" for it in values)


def values_of(out: bytes) -> list[Any]:
    """The answers in an output, without a last one that was cut."""
    return [json.loads(it) for it in out.splitlines(keepends=True) if it.endswith(b"\n")]


def answers_to(requests: Iterable[object]) -> list[str]:
    """Returns the answers to a script, line for line. A request is a text, or a value to write as JSON."""
    texts = [it if isinstance(it, str) else json.dumps(it, ensure_ascii=False) for it in requests]
    ended = run(["script"], "".join(f"{it}\n" for it in texts).encode())
    return ended.out.decode().split("\n")[:-1]


def version() -> str:
    """The version of the program, by the first heading of CHANGELOG.md that has a number."""
    return re.findall(r"^## \[?(\d+(?:\.\d+)+)", (ROOT / "CHANGELOG.md").read_text(encoding="utf-8"), re.M)[0]
