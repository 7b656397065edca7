"""Each tool, each benchmark, the launcher's build and tests/run say what they do with --help; with an option that it
lacks a tool says so. None begins its work, or writes anything."""
from __future__ import annotations

import os
import subprocess
import sys
from pathlib import Path

import pytest
from program import ROOT

HELP, USAGE = 0, 2
# (what pytest answers to an option that it lacks)
USAGE_OF_PYTEST = 4
# A tool that begins its work in place of printing its help takes longer.
PATIENCE = 60
COMMANDS = [
    *(
        it
        for folder in ("dev", "tools", "bench")
        for it in sorted((ROOT / folder).iterdir())
        if it.is_file() and os.access(it, os.X_OK)
    ),
    ROOT / "tests" / "run",
]


def call(path: Path, word: str, room: Path) -> subprocess.CompletedProcess[str]:
    """How a command ends that gets this word alone, in an empty folder, without a prover or another program of its
    own."""
    environment = {
        **os.environ,
        "PATH": f"{Path(sys.executable).parent}:/usr/bin:/bin",
        "THESAURUS_PROGRAM": "/bin/false",
    }
    return subprocess.run(
        [path, word],
        cwd=room,
        env=environment,
        stdin=subprocess.DEVNULL,
        capture_output=True,
        text=True,
        timeout=PATIENCE,
        check=False,
    )


@pytest.mark.parametrize("path", COMMANDS, ids=lambda it: str(it.relative_to(ROOT)))
def test_help_says_what_it_does(path: Path, tmp_path: Path) -> None:
    ran = call(path, "--help", tmp_path)
    assert (ran.returncode, bool(ran.stdout.strip())) == (HELP, True), ran.stderr
    assert "Traceback" not in ran.stderr and not os.listdir(tmp_path)


@pytest.mark.parametrize(
    "path", [it for it in COMMANDS if it.parent.name != "bench"], ids=lambda it: str(it.relative_to(ROOT))
)
def test_unknown_option_is_refused(path: Path, tmp_path: Path) -> None:
    ran = call(path, "--none-such", tmp_path)
    status = USAGE_OF_PYTEST if path.name == "run" else USAGE
    assert (ran.returncode, bool(ran.stderr.strip())) == (status, True), ran.stdout
    assert "Traceback" not in ran.stderr and not os.listdir(tmp_path)
