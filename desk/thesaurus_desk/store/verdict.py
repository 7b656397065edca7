"""What a prover said of the program: the file PROVED, which an archive of a release has."""
from __future__ import annotations

import hashlib
from dataclasses import dataclass
from functools import cache
from pathlib import Path

# Where the file is in an archive, and in what is installed of it.
PATH = Path(__file__).resolve().parents[3] / "PROVED"


@dataclass(frozen=True, slots=True)
class Verdict:
    """Which source was proved, by which prover, and how many libraries it has; and whether the program that runs is the
    one that was built of it."""

    commit: str
    kit: str
    libraries: int
    is_this: bool


def read_verdict(path: Path, program: Path) -> Verdict | None:
    """Returns what a file says of a program; None if there is no file."""
    if not path.is_file():
        return None
    lines = path.read_text(encoding="utf-8").splitlines()
    said = dict(it.split(" ", 1) for it in lines if " " in it)
    state = program.stat()
    digest = digest_of(program, state.st_mtime_ns, state.st_size)
    return Verdict(
        said.get("commit", ""),
        said.get("kit", ""),
        sum(it.endswith(" proved") for it in lines),
        said.get("program") == f"sha256 {digest}",
    )


@cache
def digest_of(program: Path, changed: int, size: int) -> str:
    """Returns the SHA-256 of a program, which is read once for each change of its file."""
    return hashlib.sha256(program.read_bytes()).hexdigest()
