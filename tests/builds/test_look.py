"""dev/look: what it prints of the sample before the proof, and what it says where rt lacks or fails."""
from __future__ import annotations

import os
import re
import shutil
import subprocess
import sys
from pathlib import Path

import pytest
from program import ROOT

FAULT, NO_RT = 3, 127
# The first lines of the tree, as README has them.
TREE = re.search(r"```\n(Musical instruments\n.*?)```", (ROOT / "README.md").read_text(encoding="utf-8"), re.S)
# Stands in for rt: it says that each run printed its name.
RT = """#!/bin/sh
for it in "$3"/*.args; do
    name=$(basename "$it" .args)
    printf '== %s\\n%s and "%s"\\n' "$name" "$name" "$(tr '\\n' ' ' < "$it" | sed 's/.*[.]db //')"
done
"""


def look(path: str = os.environ["PATH"], home: Path = ROOT) -> subprocess.CompletedProcess[str]:
    call = [sys.executable, str(home / "dev" / "look")]
    where = {**os.environ, "PATH": path, "PYTHONDONTWRITEBYTECODE": "1"}
    return subprocess.run(call, capture_output=True, text=True, check=False, env=where)


def write_rt(folder: Path, text: str) -> str:
    """Writes a program rt to a folder, and returns a PATH that has it."""
    (folder / "rt").write_text(text, encoding="utf-8")
    (folder / "rt").chmod(0o755)
    return f"{folder}:{os.environ['PATH']}"


def test_without_rt(tmp_path: Path) -> None:
    ran = look(str(tmp_path))
    assert (ran.returncode, ran.stdout, ran.stderr.count("\n")) == (NO_RT, "", 1)
    assert "not installed" in ran.stderr


@pytest.mark.parametrize("text", ["#!/bin/sh\necho no memory >&2\nexit 1\n", "#!/bin/sh\necho == 1-script\n"])
def test_an_rt_that_fails(tmp_path: Path, text: str) -> None:
    ran = look(write_rt(tmp_path, text))
    assert (ran.returncode, ran.stdout) == (FAULT, "")
    assert "rt couldn't run the program" in ran.stderr and "Traceback" not in ran.stderr


def test_the_display_is_printed_and_nothing_else(tmp_path: Path) -> None:
    ran = look(write_rt(tmp_path, RT))
    assert (ran.returncode, ran.stdout) == (0, '2-tree and "hierarchical --scheme 1 --lang en "\n')
    first, last = ran.stderr.splitlines()
    assert "not proved yet" in first and "half an hour" in last


def copy_sources(folder: Path) -> Path:
    """Copies the files that git follows, so that what other tests write meanwhile isn't beside them."""
    listed = subprocess.run(["git", "ls-files", "-z"], cwd=ROOT, capture_output=True, text=True, check=True)
    for name in filter(None, listed.stdout.split("\0")):
        (folder / name).parent.mkdir(parents=True, exist_ok=True)
        shutil.copy2(ROOT / name, folder / name)
    return folder


def files_of(folder: Path) -> dict[Path, bytes]:
    return {it: it.read_bytes() for it in folder.rglob("*") if it.is_file()}


@pytest.mark.needs("rt")
def test_the_sample_is_shown(tmp_path: Path) -> None:
    home = copy_sources(tmp_path / "copy")
    before = files_of(home)
    ran = look(home=home)
    assert ran.returncode == 0, ran.stderr
    assert TREE and ran.stdout.startswith(TREE[1])
    assert files_of(home) == before
