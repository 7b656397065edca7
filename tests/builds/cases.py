"""Runs a crate's program in many cases over builds that aren't proved."""
from __future__ import annotations

import subprocess
import tempfile
from concurrent.futures import ThreadPoolExecutor
from pathlib import Path

from program import ROOT

# The arguments of each case, by its name.
Cases = dict[str, list[object]]


def run_cases(crate: str, cases: Cases, *options: object, lanes: int = 1) -> dict[str, str]:
    """Has `rt try` build the program once for each lane, and run it in each case, a name with arguments. Returns the
    first line of each case's output."""
    shares = [dict(list(cases.items())[lane::lanes]) for lane in range(lanes)]
    with ThreadPoolExecutor(lanes) as pool:
        printed = list(pool.map(lambda share: run_in_lane(crate, share, options), shares))
    return {case: line for lines in printed for case, line in lines.items()}


def run_in_lane(crate: str, cases: Cases, options: tuple[object, ...]) -> dict[str, str]:
    with tempfile.TemporaryDirectory() as folder:
        for name, arguments in cases.items():
            Path(folder, name).touch()
            Path(folder, f"{name}.args").write_text("".join(f"{it}\n" for it in arguments), encoding="utf-8")
        words = ["rt", "try", *map(str, options), "--cases", folder]
        ran = subprocess.run(
            words, cwd=ROOT / "crates" / crate, stdout=subprocess.PIPE, stderr=subprocess.STDOUT, text=True, check=False
        )
    assert not ran.returncode, ran.stdout
    lines = ran.stdout.splitlines()
    return {head.split()[1]: line for head, line in zip(lines, lines[1:]) if head.startswith("== ")}
