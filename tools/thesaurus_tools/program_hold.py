"""Holds a program that serves a store on this machine, while the store is copied."""
from __future__ import annotations

import contextlib
import http.client
import json
import os
import select
import socket
import time
from pathlib import Path

from thesaurus_tools.command_line import REFUSED, ToolError

# The program waits 30 seconds for a client that sends nothing.
SECONDS_OF_SILENCE = 5
# A program that is not held answers a second client within this time, in seconds.
SECONDS_TO_ANSWER = 2
TOTALS = {"accepted", "standing", "withdrawn"}
LONGEST_LINE = 1 << 16


class Hold:
    """A connection that holds the program which serves a store: a request that isn't whole yet.

    It ends with this process at the latest."""

    def __init__(self, port: int, connection: socket.socket):
        self.port, self.connection = port, connection
        # When the program began to wait, and when something was last sent.
        self.since = self.sent = time.monotonic()
        # The number by which the system knows the connection.
        self.inode = "0"

    def begin(self, patience: float) -> None:
        """Sends the beginning of the request, and waits until the program serves it."""
        self.send(b"GET /totals HTTP/1.0\r\nX-Backup: ")
        end = time.monotonic() + patience
        while not self.is_served():
            if time.monotonic() > end:
                raise ToolError(
                    f"the program at port {self.port} serves others for more than {patience:.0f} seconds; "
                    "try again, or raise --wait",
                    REFUSED,
                )
            time.sleep(0.002)
        self.since = time.monotonic()

    def send(self, data: bytes) -> None:
        try:
            self.connection.sendall(data)
        except OSError as error:
            raise ToolError(
                f"the program at port {self.port} went on before the copy was whole: {error.strerror}; try again"
            ) from None
        self.sent = time.monotonic()

    def is_served(self) -> bool:
        """Returns whether the program has accepted the connection and read all that was sent.

        Then it has answered those before, and waits."""
        self.inode = "0"
        here = f"{self.connection.getsockname()[1]:04X}"
        for line in Path("/proc/net/tcp").read_text(encoding="ascii").splitlines()[1:]:
            words = line.split()
            if words[1].endswith(f":{self.port:04X}") and words[2].endswith(f":{here}") and words[3] == "01":
                self.inode = words[9]
                return self.inode != "0" and words[4].endswith(":00000000")
        return False

    def has_open(self, store: Path) -> bool | None:
        """Returns whether the program at the other end has the store open, or None if this user may not see that."""
        found = None
        for process in Path("/proc").glob("[0-9]*"):
            files = files_of(process)
            if f"socket:[{self.inode}]" in files.values():
                found = bool(found) or any(is_same(it, store) for it in files)
        return found

    def is_alone(self) -> bool:
        """Returns whether the program answers no other client meanwhile, as a server behind which it is would."""
        with connect(self.port) as other:
            other.sendall(b"GET /totals HTTP/1.0\r\n\r\n")
            return not select.select([other], [], [], SECONDS_TO_ANSWER)[0]

    def stay(self) -> None:
        """Sends something now and then, so that the program goes on waiting."""
        if time.monotonic() - self.sent > SECONDS_OF_SILENCE:
            self.send(b"x")

    def end(self) -> tuple[dict, float]:
        """Ends the request. Returns the counts of postings, as they were all the time, and how many seconds it held."""
        self.send(b"\r\n\r\n")
        answer = b""
        with contextlib.suppress(OSError), self.connection:
            while more := self.connection.recv(65536):
                answer += more
        held = time.monotonic() - self.since
        with contextlib.suppress(ValueError):
            counts = json.loads(answer.partition(b"\r\n\r\n")[2])
            if isinstance(counts, dict) and counts.keys() == TOTALS:
                return counts, held
        if not answer:
            raise ToolError(f"the program at port {self.port} went on before the copy was whole; try again")
        raise ToolError(f"what answers at port {self.port} doesn't serve a thesaurus", REFUSED)


def take_hold(port: int, patience: float) -> Hold:
    """Holds the program at a port. Raises ToolError if it serves others for longer than the patience, in seconds."""
    hold = Hold(port, connect(port))
    hold.begin(patience)
    return hold


def connect(port: int) -> socket.socket:
    """Connects to a port of this machine."""
    try:
        return socket.create_connection(("127.0.0.1", port), timeout=60)
    except OSError as error:
        raise ToolError(
            f"nobody answers at port {port}, and the store is in use: {error.strerror or error}", REFUSED
        ) from None


def files_of(process: Path) -> dict[Path, str]:
    """Returns the open files of a process with their names, as far as this user may see them."""
    found = {}
    with contextlib.suppress(OSError):
        for it in (process / "fd").iterdir():
            with contextlib.suppress(OSError):
                found[it] = os.readlink(it)
    return found


def is_same(file: Path, store: Path) -> bool:
    """Returns whether an open file is the store."""
    with contextlib.suppress(OSError):
        return os.path.samefile(file, store)
    return False


def serves_base(port: int, base: str) -> bool:
    """Returns whether the program at a port serves a store with a base, by the first line of its export.

    An empty export shows no base."""
    client = http.client.HTTPConnection("127.0.0.1", port, timeout=60)
    try:
        client.request("GET", "/export")
        answer = client.getresponse()
        line = answer.readline(LONGEST_LINE) if answer.status == 200 else b""
    except (OSError, http.client.HTTPException):
        return False
    finally:
        client.close()
    subject, _, more = line.decode(errors="replace").partition("> ")
    return bool(more) and subject.startswith(f"<{base}") and subject[len(base) + 1 :].isdecimal()
