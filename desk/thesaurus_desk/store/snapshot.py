"""A desk's files as they are at one moment, and the socket by which tools on this machine get them."""
from __future__ import annotations

import contextlib
import json
import logging
import os
import shutil
import socket
import socketserver
import struct
import tempfile
import threading
from pathlib import Path
from typing import TYPE_CHECKING

from thesaurus_desk.store.copies import StoreBusy, copy_files
from thesaurus_tools.desk_socket import address_in, folder_of
from thesaurus_tools.files import give_copy_to_owner

if TYPE_CHECKING:
    from thesaurus_desk.store.plan_execution import Desk

log = logging.getLogger("desk")
BUSY = "something long is under way, such as an import"
# How many seconds a tool may take to ask.
PATIENCE = 10.0
MOST_OF_LINE = 1 << 10
ROOT = 0


def copy_store(desk: Desk, room: Path) -> dict[str, int]:
    """Copies the store to a folder, and returns its counts of postings. Raises StoreBusy."""
    with desk.alone() as is_free:
        if not is_free:
            raise StoreBusy
        copy_files(desk.db, room / desk.db.name)
        return desk.replica.postings.totals()


def copy_all(desk: Desk, users: Path | None, room: Path) -> dict[str, int]:
    """Copies the store, the journal and the users' file to a folder, all of one moment, and returns the store's counts
    of postings. Raises StoreBusy."""
    with desk.alone() as is_free, desk.journal.lock:
        if not is_free:
            raise StoreBusy
        desk.journal.copy_to(room / desk.journal.path.name)
        if users is not None and users.exists():
            shutil.copy(users, room)
        return copy_store(desk, room)


class SnapshotSender(socketserver.StreamRequestHandler):
    """Sends a tool the files for which it asks."""

    server: SnapshotServer
    timeout = PATIENCE

    def handle(self) -> None:
        try:
            what = json.loads(self.rfile.readline(MOST_OF_LINE))["get"]
        except (OSError, ValueError, KeyError, TypeError):
            return
        with tempfile.TemporaryDirectory(prefix="desk-") as folder, contextlib.ExitStack() as stack:
            room = Path(folder)
            try:
                counts = copy_all(self.server.desk, self.server.users, room) if what == "backup" else None
                counts = counts or copy_store(self.server.desk, room)
            except StoreBusy:
                self.wfile.write(json.dumps({"busy": BUSY}).encode() + b"\n")
                return
            paths = sorted(room.iterdir())
            files = [stack.enter_context(open(it, "rb")) for it in paths]
            answer = json.dumps({"files": [it.name for it in paths], "counts": counts}).encode() + b"\n"
            socket.send_fds(self.request, [answer], [it.fileno() for it in files])


class SnapshotServer(socketserver.UnixStreamServer):
    """Answers tools at a socket in a folder that only the desk's user opens, one at a time."""

    def __init__(self, desk: Desk, users: Path | None) -> None:
        self.desk, self.users, self.folder = desk, users, folder_of(desk.db)
        # (the journal's lock says that no other desk is running)
        make_own_folder(self.folder)
        with address_in(self.folder) as address:
            super().__init__(address, SnapshotSender)
        threading.Thread(target=self.serve_forever, name="snapshots", daemon=True).start()

    def verify_request(self, request: object, client_address: object) -> bool:
        """Whether it is the desk's own user who asks, or root."""
        assert isinstance(request, socket.socket)
        given = request.getsockopt(socket.SOL_SOCKET, socket.SO_PEERCRED, struct.calcsize("3i"))
        return struct.unpack("3i", given)[1] in (ROOT, os.geteuid())

    def handle_error(self, request: object, client_address: object) -> None:
        """Notes what went wrong."""
        log.exception("a tool that asked for the desk's files wasn't answered")

    def end(self) -> None:
        """Ends it, and removes the socket."""
        self.shutdown()
        self.server_close()
        shutil.rmtree(self.folder, ignore_errors=True)


def make_own_folder(folder: Path) -> None:
    """Makes a folder that only this user opens, or the owner of the folder that it is in. Raises OSError."""
    # (what a killed desk has left)
    if folder.is_symlink() or folder.exists():
        for it in folder.iterdir():
            it.unlink()
        folder.rmdir()
    folder.mkdir(mode=0o700)
    give_copy_to_owner(folder, folder.parent)
