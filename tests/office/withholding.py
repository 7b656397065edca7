"""Runs the program for a client as a proxy that passes some answers on, withholds the next ones, and then kills the
program or the client: what was performed, and what the client knows of it, differ most then.

withholding.py PASSED WITHHELD client|program PROGRAM WORD.."""
from __future__ import annotations

import os
import select
import signal
import subprocess
import sys

# How many seconds an answer is waited for before the kill.
PATIENCE = 0.5


def main() -> int:
    passed, withheld = map(int, sys.argv[1:3])
    victim, program, *words = sys.argv[3:]
    client = os.getppid()
    if "script" not in words:
        os.execv(program, [program, *words])
    with subprocess.Popen([program, *words], stdout=subprocess.PIPE, bufsize=0) as run:
        assert run.stdout
        answers = b""
        while answers.count(b"\n") < passed + withheld:
            is_kept = answers.count(b"\n") >= passed
            if is_kept and not select.select([run.stdout], [], [], PATIENCE)[0]:
                break
            data = os.read(run.stdout.fileno(), 1)
            if not data:
                break
            answers += data
            if not is_kept:
                os.write(1, data)
        if victim == "client":
            os.kill(client, signal.SIGKILL)
            # The program goes on with what it was sent.
            while os.read(run.stdout.fileno(), 65536):
                pass
        else:
            run.kill()
    return run.returncode if run.returncode >= 0 else 137


if __name__ == "__main__":
    sys.exit(main())
