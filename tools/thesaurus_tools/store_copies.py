"""Copies the files of a store, also while a program on this machine serves it, which waits meanwhile."""
from __future__ import annotations

import contextlib
import os
import sqlite3
import tempfile
from collections.abc import Iterator
from pathlib import Path
from typing import Any

from thesaurus_tools.command_line import ToolError
from thesaurus_tools.program_hold import Hold, files_of, take_hold
from thesaurus_tools.server import Server
from thesaurus_tools.table_store import TableStore

CHUNK = 4 << 20
# How many seconds others may be served before the copy is made.
PATIENCE = 120
HERE = ("127.0.0.1", "localhost")
# The addresses at which a program listens for this machine, as /proc/net/tcp has them, and its mark of listening.
LOOPBACK, ANY, LISTENING = "0100007F", "00000000", "0A"


def log_of(store: Path) -> Path:
    return store.with_name(f"{store.name}-wal")


def copy_file(source: Path, target: Path, hold: Hold | None) -> None:
    """Copies a file, and sees to it that the program is held."""
    with open(source, "rb") as given, open(target, "xb") as taken:
        place = 0
        while count := os.sendfile(taken.fileno(), given.fileno(), place, CHUNK):
            place += count
            if hold:
                hold.stay()


def copy_store(store: Path, room: Path, hold: Hold | None) -> None:
    """Copies both files of a store."""
    for source in (store, log_of(store)):
        if source == store or source.exists():
            copy_file(source, room / source.name, hold)


def listener_at(port: int) -> str | None:
    """Returns the inode of the socket that listens at a port of this machine, or None."""
    with contextlib.suppress(OSError):
        for line in Path("/proc/net/tcp").read_text(encoding="ascii").splitlines()[1:]:
            words = line.split()
            address, _, number = words[1].partition(":")
            if address in (LOOPBACK, ANY) and int(number, 16) == port and words[3] == LISTENING:
                return words[9]
    return None


def store_served_at(port: int) -> Path | None:
    """Returns the one store that the program at a port of this machine has open with its log, or None if there is
    another number of them, or this user may not see them."""
    inode = listener_at(port)
    found: set[str] = set()
    for process in Path("/proc").glob("[0-9]*") if inode else ():
        files = set(files_of(process).values())
        if f"socket:[{inode}]" in files:
            found |= {it for it in files if f"{it}-wal" in files}
    return Path(found.pop()) if len(found) == 1 else None


def copy_served(server: Server, room: Path, patience: float = PATIENCE) -> Path | None:
    """Copies the store that a program on this machine serves. Returns its copy, or None if that can't be had."""
    port = server.port or 80
    is_program_itself = server.host in HERE and not (server.is_secret or server.path or server.headers)
    store = store_served_at(port) if is_program_itself else None
    if store is None:
        return None
    try:
        hold = take_hold(port, patience)
        is_right = hold.has_open(store)
        if is_right:
            copy_store(store, room, hold)
        hold.end()
    except (ToolError, OSError):
        return None
    return room / store.name if is_right else None


@contextlib.contextmanager
def open_copy_of_served(server: Server) -> Iterator[TableStore | None]:
    """Opens a copy of the store that a program on this machine serves; gives None if that can't be had."""
    with contextlib.ExitStack() as stack:
        copy = copy_served(server, Path(stack.enter_context(tempfile.TemporaryDirectory())))
        tables: Any = copy and stack.enter_context(contextlib.closing(sqlite3.connect(copy)))
        yield TableStore(server.name, tables).read_base() if copy else None
