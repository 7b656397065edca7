"""Runs the program as it serves a store in a file on a port of this machine."""
from __future__ import annotations

import contextlib
import socket
import subprocess
from collections.abc import Iterable, Iterator
from pathlib import Path
from typing import Any

from ports import free_port
from program import Ended, built


class Served:
    """A program that listens on a port."""

    def __init__(self, program: subprocess.Popen[bytes], port: int) -> None:
        self.program, self.port = program, port

    def answer(self, *parts: bytes, closes: bool = True, patience: float = 60) -> bytes:
        """Sends bytes, in one part or more, and returns the whole answer. Closes the sending side unless `closes` is
        false."""
        with socket.create_connection(("127.0.0.1", self.port), timeout=patience) as client:
            with contextlib.suppress(ConnectionResetError, BrokenPipeError):
                for part in parts:
                    client.sendall(part)
                if closes:
                    client.shutdown(socket.SHUT_WR)
            told = b""
            with contextlib.suppress(ConnectionResetError):
                while more := client.recv(65536):
                    told += more
            return told

    def end(self) -> Ended:
        """Waits for the program's end, and returns it."""
        out, err = self.program.communicate(timeout=60)
        return Ended(self.program.returncode, out, err)


@contextlib.contextmanager
def serving(path: Path | str, count: int, *options: str, after: Iterable[str] = (), **how: Any) -> Iterator[Served]:
    """Runs the program as it serves `count` connections over the store in a file, with options before the command, or
    after it; `how` goes to Popen."""
    port = free_port()
    words = [built(), "--db", path, *options, "serve", "--port", str(port), "--count", str(count), *after]
    with subprocess.Popen(words, stdout=subprocess.PIPE, stderr=subprocess.PIPE, **how) as program:
        try:
            assert program.stdout and program.stderr
            said = program.stdout.readline()
            assert said == f"listening on 127.0.0.1:{port}\n".encode(), said + program.stderr.read()
            yield Served(program, port)
        finally:
            program.kill()
