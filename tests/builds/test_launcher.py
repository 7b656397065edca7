"""The launcher ./thesaurus, in a small repository of three crates, whose program prints its arguments and a number of
the lowest crate."""
from __future__ import annotations

import contextlib
import os
import pty
import random
import shutil
import signal
import subprocess
from pathlib import Path
from typing import Any, NamedTuple

import pytest
from program import ROOT

pytestmark = pytest.mark.needs("rt")
NUMBER = """//! A number.
#![tactic(auto)]

ghost use Rattle.std.specs.Prelude.{◌≡◌};

/// Returns the number.
pub fn number() -> u64
    ensures { result ≡ 5 }
{
    5
}
"""
FILES = {
    "crates.txt": "thes_base:\nthes_core: thes_base\nthes_cli: thes_base thes_core\n",
    "HANDLES": "Handles allowed: none.\n",
    "crates/thes_base/src/lib.rt": NUMBER,
    "crates/thes_core/src/lib.rt": NUMBER.replace("{\n    5\n}", "{\n    thes_base::number()\n}"),
    "crates/thes_cli/stdout": "5\n",
    "crates/thes_cli/src/main.rt": """//! Prints its arguments and a number.
#![tactic(auto)]

use std::{env, io};
use thes_core::number;

fn main(rt: HostRuntime) -> io::Result<()> {
    for word in env::args(&rt)?.skip(1) {
        println!(&rt; "{word}")?;
    }
    let number = number();
    println!(&rt; "{number}")
}
""",
}
# The text of the lowest crate with another number, and with one that its contract forbids.
OTHER = NUMBER.replace("5", "6")
WRONG = NUMBER.replace("    5", "    7")
OUT = "one\ntwo words\n5\n"
PROVED = [f"{it} is proved" for it in ("thes_base", "thes_core", "thes_cli")]
BUILT = [*PROVED, "thesaurus: built"]
NO_PROVER = {"PATH": "/usr/bin:/bin"}
UNBUILT = {"THESAURUS_BUILD": "no"}
# The calls, one after another, each with the status and the output that are wanted, and parts of its standard error,
# which is empty where there are none. (That after an interruption prints the number that was proved then.)
CALLS: dict[str, tuple[int, str, list[str]]] = {
    "without the prover": (127, "", ["is not installed"]),
    "if nothing may be built": (126, "", ["isn't built"]),
    "the first call": (0, OUT, BUILT),
    "the second call": (0, OUT, []),
    "the built program without the prover": (0, OUT, []),
    "a body that its contract forbids": (126, "", ["was not built", "launcher.log says why", "thes_base::number"]),
    "after a change": (0, OUT.replace("5", "6"), BUILT),
    "after an interruption": (0, OUT.replace("5", "NUMBER"), BUILT),
}


class Called(NamedTuple):
    """How a call of the launcher ended."""

    status: int
    out: str
    err: str


class Repository:
    """A repository of three crates."""

    def __init__(self, root: Path) -> None:
        self.root = root

    def make(self) -> None:
        """Writes its files."""
        for path, text in FILES.items():
            (self.root / path).parent.mkdir(parents=True, exist_ok=True)
            (self.root / path).write_text(text, encoding="utf-8")
        (self.root / "dev").mkdir()
        for path in ("thesaurus", "dev/build", "dev/libraries.py"):
            shutil.copy(ROOT / path, self.root / path)

    def set_number(self, text: str, other: int) -> None:
        """Gives the lowest crate this text, and the one above it the same contract."""
        (self.root / "crates/thes_base/src/lib.rt").write_text(text, encoding="utf-8")
        above = FILES["crates/thes_core/src/lib.rt"].replace("≡ 5", f"≡ {other}")
        (self.root / "crates/thes_core/src/lib.rt").write_text(above, encoding="utf-8")
        (self.root / "crates/thes_cli/stdout").write_text(f"{other}\n", encoding="utf-8")

    def call(self, elsewhere: Path, **variables: str) -> Called:
        """Calls the launcher in another folder."""
        words: list[str | Path] = [self.root / "thesaurus", "one", "two words"]
        environment = {**os.environ, **variables}
        ran = subprocess.run(words, cwd=elsewhere, env=environment, capture_output=True, text=True, check=False)
        return Called(ran.returncode, ran.stdout, ran.stderr)

    def interrupt(self) -> Called:
        """Interrupts a build once the lowest crate is proved."""
        streams: dict[str, Any] = {"stdout": subprocess.DEVNULL, "stderr": subprocess.PIPE, "text": True}
        with subprocess.Popen([self.root / "thesaurus"], start_new_session=True, **streams) as ran:
            assert ran.stderr
            began = next((it for it in ran.stderr if "thes_base is proved" in it), "")
            os.killpg(ran.pid, signal.SIGINT)
            return Called(ran.wait(), "", began + ran.stderr.read())

    def log(self) -> str:
        return (self.root / "crates/thes_cli/out/launcher.log").read_text(encoding="utf-8")

    def call_on_terminal(self) -> Called:
        """Calls the launcher with its errors on a terminal."""
        ours, its = pty.openpty()
        with subprocess.Popen([self.root / "thesaurus"], stdout=subprocess.DEVNULL, stderr=its) as ran:
            os.close(its)
            told = b""
            # (an error is how a terminal ends that nothing holds open)
            with contextlib.suppress(OSError):
                while part := os.read(ours, 4096):
                    told += part
        os.close(ours)
        return Called(ran.returncode, "", told.decode())


def test_no_python(tmp_path: Path) -> None:
    """The status isn't that of a machine without the prover."""
    repository = Repository(tmp_path / "repository")
    repository.make()
    programs = tmp_path / "programs"
    programs.mkdir()
    for name in ("dirname", "find", "head", "readlink", "rt", "sh"):
        (programs / name).symlink_to(shutil.which(name) or "")
    called = repository.call(tmp_path, PATH=str(programs), THESAURUS_BUILD="")
    assert called.status == 126 and "Python 3.11" in called.err, called


class Story(NamedTuple):
    """The calls, by what they are; and the number, the interrupted build and the log of the one after it."""

    calls: dict[str, Called]
    number: int
    interrupted: Called
    log: str
    on_terminal: Called


@pytest.fixture(scope="module")
def story(tmp_path_factory: pytest.TempPathFactory) -> Story:
    elsewhere = tmp_path_factory.mktemp("elsewhere")
    it, calls = Repository(tmp_path_factory.mktemp("launcher")), {}
    it.make()
    with pytest.MonkeyPatch.context() as patch:
        # (tests/run has the other tests build nothing)
        patch.delenv("THESAURUS_BUILD", raising=False)
        calls["without the prover"] = it.call(elsewhere, **NO_PROVER)
        calls["if nothing may be built"] = it.call(elsewhere, **UNBUILT)
        calls["the first call"] = it.call(elsewhere)
        calls["the second call"] = it.call(elsewhere)
        calls["the built program without the prover"] = it.call(elsewhere, **NO_PROVER, **UNBUILT)
        it.set_number(WRONG, 5)
        calls["a body that its contract forbids"] = it.call(elsewhere)
        it.set_number(OTHER, 6)
        calls["after a change"] = it.call(elsewhere)
        # (a number that no earlier run has proved)
        number = random.randrange(10, 1 << 40)
        it.set_number(NUMBER.replace("5", str(number)), number)
        interrupted = it.interrupt()
        calls["after an interruption"] = it.call(elsewhere)
        log = it.log()
        it.set_number(NUMBER, 5)
        return Story(calls, number, interrupted, log, it.call_on_terminal())


def test_a_prover_that_is_no_text(tmp_path: Path, monkeypatch: pytest.MonkeyPatch) -> None:
    """What it keeps is looked for in its files, and then it is called."""
    monkeypatch.delenv("THESAURUS_BUILD", raising=False)
    it = Repository(tmp_path / "repository")
    it.make()
    prover = tmp_path / "kit/bin/rt"
    prover.parent.mkdir(parents=True)
    prover.write_bytes(b"#!/bin/sh\n# \xff\necho there is no proof of this\nexit 1\n")
    prover.chmod(0o755)
    found = it.call(tmp_path, PATH=f"{prover.parent}:{NO_PROVER['PATH']}")
    assert found.status == 126 and "there is no proof of this" in found.err and "Traceback" not in found.err


def is_told(told: list[str], errors: str) -> bool:
    return all(it in errors for it in told) if told else not errors


@pytest.mark.parametrize("what", CALLS)
def test_call(what: str, story: Story) -> None:
    status, out, told = CALLS[what]
    found = story.calls[what]
    assert (found.status, found.out) == (status, out.replace("NUMBER", str(story.number)))
    assert is_told(told, found.err), found.err


def test_interrupted_build_says_whether_what_is_proved_is_kept(story: Story) -> None:
    assert story.interrupted.status in (130, -signal.SIGINT)
    said = [f"interrupted; what is proved is {it}" in story.interrupted.err for it in ("kept", "lost")]
    assert sum(said) == 1


def test_build_after_an_interruption_begins_with_what_was_kept(story: Story) -> None:
    is_kept = "interrupted; what is proved is kept" in story.interrupted.err
    assert ("rt: thes_base is kept" in story.log) == is_kept


def test_build_on_a_terminal_rewrites_one_line(story: Story) -> None:
    status, _, told = story.on_terminal
    assert not status
    assert "\r\x1b[Kthesaurus: " in told and "crates proved, about" in told
    assert "is proved" not in told
