"""A program between the desk and the program, which passes lines on, and once does something else with a line that
changes something."""
from __future__ import annotations

import json
import subprocess
import sys
import time
from pathlib import Path

HOWS = ("answer", "request", "half an answer")


class Between:
    """Such a program in a folder. `how` says what it does once: it drops the answer or the request and ends, or sends
    half an answer and ends, or is `silent`."""

    def __init__(self, folder: Path, program: str) -> None:
        self.path, self.control = folder / "between", folder / "between.json"
        self.path.write_text(
            f"#!{sys.executable}\nimport sys\nsys.path.insert(0, {str(Path(__file__).parent)!r})\n"
            f"from between import run\nrun({program!r}, {str(self.control)!r})\n",
            encoding="utf-8",
        )
        self.path.chmod(0o755)
        self.once("pass")

    def once(self, how: str) -> None:
        """Says what is done with the next line that changes something."""
        self.control.write_text(json.dumps(how), encoding="utf-8")


def run(program: str, control: str) -> None:
    """Passes lines on, until it is to do something else."""
    words = [program, *sys.argv[1:]]
    if "script" not in words or "--plans" not in words:
        sys.exit(subprocess.run(words, check=False).returncode)
    with subprocess.Popen(words, stdin=subprocess.PIPE, stdout=subprocess.PIPE) as child:
        assert child.stdin and child.stdout
        for line in sys.stdin.buffer:
            how = (
                json.loads(Path(control).read_text(encoding="utf-8"))
                if line.startswith((b'{"perform"', b'{"each"'))
                else "pass"
            )
            if how != "pass":
                Path(control).write_text('"pass"', encoding="utf-8")
            if how == "request":
                break
            child.stdin.write(line)
            child.stdin.flush()
            answer = child.stdout.readline()
            if how == "silent":
                time.sleep(600)
            if how == "answer":
                break
            sys.stdout.buffer.write(answer[: len(answer) // 2] if how == "half an answer" else answer)
            sys.stdout.buffer.flush()
            if how == "half an answer":
                break
        child.stdin.close()
    sys.exit(child.returncode)
