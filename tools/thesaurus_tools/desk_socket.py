"""The socket of a running desk, by which tools on its machine get its store as it is at one moment."""
from __future__ import annotations

import contextlib
import json
import os
import socket
import tempfile
from collections.abc import Iterator
from dataclasses import dataclass
from pathlib import Path
from typing import Any

from thesaurus_tools.command_line import REFUSED, ToolError

# How many seconds the desk may take, and the most files and bytes of an answer.
PATIENCE, MOST_FILES, MOST_BYTES = 600.0, 8, 1 << 16
NAME = "socket"


def folder_of(store: Path) -> Path:
    """Returns the folder of the socket of a store's desk, which only the desk's user opens."""
    return store.with_name(f"{store.stem}-desk.run")


@contextlib.contextmanager
def address_in(folder: Path, name: str = NAME) -> Iterator[str]:
    """Gives the address of a socket in a folder, also if the folder's path is longer than that of a socket may be.
    Raises OSError."""
    opened = os.open(folder, os.O_RDONLY | os.O_DIRECTORY | os.O_NOFOLLOW | os.O_CLOEXEC)
    try:
        yield f"/proc/self/fd/{opened}/{name}"
    finally:
        os.close(opened)


@dataclass(frozen=True)
class DeskSnapshot:
    """What a desk has sent: its files by their names, open for reading, and its counts of postings."""

    files: dict[str, int]
    counts: dict[str, int]

    def write_to(self, folder: Path) -> None:
        """Writes the files to a folder, for its owner alone."""
        for name, file in self.files.items():
            with open(os.open(folder / name, os.O_WRONLY | os.O_CREAT | os.O_EXCL, 0o600), "wb") as target:
                size, done = os.fstat(file).st_size, 0
                while done < size:
                    done += os.sendfile(target.fileno(), file, done, size - done)


@contextlib.contextmanager
def ask_desk(store: Path, what: str) -> Iterator[DeskSnapshot | None]:
    """Asks the desk of a store for the files of the store (`store`), or for those of a backup (`backup`). Gives None if
    no desk is running, or another user's. Raises ToolError if the desk doesn't answer."""
    with contextlib.ExitStack() as stack:
        connection = stack.enter_context(contextlib.closing(socket.socket(socket.AF_UNIX, socket.SOCK_STREAM)))
        connection.settimeout(PATIENCE)
        try:
            with address_in(folder_of(store)) as address:
                connection.connect(address)
        except OSError:
            yield None
            return
        try:
            connection.sendall(json.dumps({"get": what}).encode() + b"\n")
            data, files, _, _ = socket.recv_fds(connection, MOST_BYTES, MOST_FILES)
        except OSError as error:
            raise ToolError(f"{store}: its desk doesn't answer: {error}") from None
        for it in files:
            stack.callback(os.close, it)
        answer: dict[str, Any] = json.loads(data) if data.endswith(b"\n") else {"busy": "the desk has ended"}
        if "busy" in answer:
            raise ToolError(f"{store}: {answer['busy']}; try again", REFUSED)
        yield DeskSnapshot(dict(zip(answer["files"], files, strict=True)), answer["counts"])


@contextlib.contextmanager
def copy_of(store: Path, *, with_journal: bool = False) -> Iterator[Path]:
    """Gives a copy of the store of a running desk, with its journal beside it if that is asked for; or the store
    itself, which no other program may have open."""
    with ask_desk(store, "backup" if with_journal else "store") as moment, tempfile.TemporaryDirectory() as folder:
        if moment is None:
            yield store
            return
        moment.write_to(Path(folder))
        yield Path(folder, store.name)
