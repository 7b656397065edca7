"""The program reports that its first request for memory was refused."""
from __future__ import annotations

import subprocess

import pytest
from program import ROOT


@pytest.mark.needs("rt")
def test_first_request_for_memory_is_refused() -> None:
    tried = ["rt", "try", "--fail-alloc", "1", "--", "script"]
    ran = subprocess.run(
        tried,
        cwd=ROOT / "crates" / "thes_cli",
        stdin=subprocess.DEVNULL,
        stdout=subprocess.PIPE,
        stderr=subprocess.STDOUT,
        check=False,
    )
    assert ran.returncode == 3 and b"thesaurus: fault OutOfMemory" in ran.stdout.splitlines(), ran.stdout[-300:]
