"""The desk as a process of its own, as tools/desk starts it."""
from __future__ import annotations

import contextlib
import http.client
import re
import signal
import subprocess
import sys
from collections.abc import Iterator
from dataclasses import dataclass
from pathlib import Path

ROOT = Path(__file__).resolve().parents[2]
DESK = ROOT / "tools" / "desk"
PATIENCE = 300


@dataclass
class Running:
    """A desk that listens: its process, its port, and the path by which one comes in."""

    process: subprocess.Popen[str]
    port: int
    entrance: str

    def ask(self, method: str, path: str, body: str | None = None, **fields: str) -> tuple[int, str, dict[str, str]]:
        """Returns the status, the text and the fields of an answer; _ in names of fields stands for -."""
        client = http.client.HTTPConnection("127.0.0.1", self.port, timeout=PATIENCE)
        with contextlib.closing(client):
            client.request(method, path, body, {it.replace("_", "-"): value for it, value in fields.items()})
            answer = client.getresponse()
            return answer.status, answer.read().decode(errors="replace"), dict(answer.getheaders())


def run_desk(*words: object, given: str | None = None) -> subprocess.CompletedProcess[str]:
    """Runs a command of the desk that ends by itself."""
    line = [sys.executable, str(DESK), *map(str, words)]
    return subprocess.run(line, input=given, capture_output=True, text=True, check=False, timeout=PATIENCE)


@contextlib.contextmanager
def running(*words: object) -> Iterator[Running]:
    """Runs a desk until the end of the block."""
    line = [sys.executable, str(DESK), *map(str, words), "--no-browser"]
    with subprocess.Popen(line, stdout=subprocess.PIPE, stderr=subprocess.PIPE, text=True) as process:
        assert process.stdout and process.stderr
        try:
            said = process.stdout.readline()
            found = re.match(r"desk: http://127\.0\.0\.1:(\d+)(/\S*)", said)
            assert found, said + (process.stderr.read() if process.poll() is not None or not said else "")
            yield Running(process, int(found[1]), found[2])
        finally:
            process.send_signal(signal.SIGTERM)
            try:
                process.wait(PATIENCE)
            except subprocess.TimeoutExpired:
                process.kill()
                raise
