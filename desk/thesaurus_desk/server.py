"""Serves the desk: checks what it was started with, opens the store, and listens on this machine."""
from __future__ import annotations

import argparse
import contextlib
import logging
import os
import signal
import socket
import sys
import tempfile
import threading
import webbrowser
from functools import partial
from pathlib import Path
from types import FrameType
from typing import TYPE_CHECKING, Any, NoReturn

import waitress  # type: ignore[import]
from flask import Flask

from thesaurus_desk.auth.accounts import Accounts, fault_of_name
from thesaurus_desk.auth.authentication import SingleUserEntry, PasswordEntry, ProxyEntry, Entry, Proxy
from thesaurus_desk.command_line import LIMITS
from thesaurus_desk.page_processes import PageProcesses, usual_count
from thesaurus_desk.sample import GUEST, make_sample
from thesaurus_desk.settings import Settings
from thesaurus_desk.store.background_tasks import BackgroundTask
from thesaurus_desk.store.backups import BackupSettings, DeskBackups
from thesaurus_desk.store.health import Health
from thesaurus_desk.store.open_store import has_store
from thesaurus_desk.store.open_store import SOON, is_large
from thesaurus_desk.store.plan_execution import Desk
from thesaurus_desk.store.snapshot import SnapshotServer
from thesaurus_desk.web.app import create_app
from thesaurus_desk.web.office_link import PAGES, PageConnections
from thesaurus_desk.web.watch_mail import WatchMail
from thesaurus_tools.command_line import DONE, REFUSED, USAGE, ToolError
from thesaurus_tools.desk_socket import address_in
from thesaurus_tools.program import find_program

if TYPE_CHECKING:
    from _typeshed.wsgi import WSGIApplication

HOST = "127.0.0.1"
# The most bytes of any body: a posting file and its form.
MOST_BYTES = 17 << 20
SHORTEST_SECRET = 16


def options_of(given: argparse.Namespace) -> tuple[str, ...]:
    """Returns the options of the program."""
    limits = ((it, getattr(given, f"max_{it}")) for it in LIMITS)
    return tuple(word for it, most in limits if most for word in (f"--max-{it}", str(most)))


def find_store(db: Path) -> bool:
    """Returns whether there is a store. Raises ToolError where there can't be one."""
    if not db.parent.is_dir():
        raise ToolError(f"{db.parent}: there is no such folder", USAGE)
    if db.exists() and not db.is_file():
        raise ToolError(f"{db}: not a file", USAGE)
    return has_store(db)


def open_desk(given: argparse.Namespace) -> Desk:
    """Returns the desk of a store. Raises ToolError if there is no store and no base for a new one, or no program."""
    program, is_there = find_program(given.program), find_store(given.db)
    if not is_there and not given.base:
        raise ToolError(f"{given.db}: there is no store; --base IRI makes a new one", USAGE)
    base = None if is_there else given.base
    return Desk(given.db, program, base=base, options=options_of(given), patience=given.patience)


def read_secret(path: Path) -> str:
    """Returns the secret of the server in front. Raises ToolError if it is too short."""
    secret = path.read_text(encoding="utf-8").strip()
    if len(secret) < SHORTEST_SECRET or not secret.isascii():
        raise ToolError(
            f"{path}: a secret has {SHORTEST_SECRET} ASCII characters or more: openssl rand -hex 24 > {path}", USAGE
        )
    return secret


def entry_of(given: argparse.Namespace) -> Entry:
    """Returns the way in. Raises ToolError if nobody could come in."""
    if given.alone:
        if fault_of_name(given.alone):
            raise ToolError(f"{given.alone!r} is no name: 1 to 64 visible characters", USAGE)
        return SingleUserEntry(given.alone)
    accounts = Accounts(given.users)
    if not given.users.exists() or not accounts.all():
        raise ToolError(
            f"{given.users}: there are no users yet: tools/desk user add NAME --role head --users {given.users}", USAGE
        )
    proxy = Proxy(read_secret(given.proxy)) if given.proxy else None
    return (
        ProxyEntry(accounts, proxy, dict(given.group))
        if proxy and given.remote_user
        else PasswordEntry(accounts, proxy)
    )


def listen(port: int) -> socket.socket:
    """Returns a socket that is bound to a port. Raises ToolError if it is in use."""
    bound = socket.socket(socket.AF_INET, socket.SOCK_STREAM)
    bound.setsockopt(socket.SOL_SOCKET, socket.SO_REUSEADDR, 1)
    try:
        bound.bind((HOST, port))
    except OSError as error:
        bound.close()
        raise ToolError(f"port {port}: {error.strerror}") from None
    return bound


def settings_of(given: argparse.Namespace, port: int) -> Settings:
    """Returns what pages need of the arguments."""
    hosts = frozenset({*given.host} if given.host else {f"{HOST}:{port}", f"localhost:{port}"})
    # (cookies know no ports, so desks on one machine have names of their own)
    cookie = "__Host-desk" if given.secure else f"desk-{port}"
    return Settings(hosts, given.secure, given.public, given.title, cookie)


def end(signal_number: int, frame: FrameType | None) -> NoReturn:
    """Ends the desk as an interruption does."""
    raise SystemExit(DONE)


def log_to_stderr() -> None:
    """Has warnings and errors written to standard error."""
    logging.basicConfig(level=logging.WARNING, format="desk: %(message)s", stream=sys.stderr)
    logging.getLogger("waitress.queue").setLevel(logging.ERROR)


def serve(given: argparse.Namespace) -> int:
    """Serves until it is ended by a signal, and returns the exit status."""
    log_to_stderr()
    entry = entry_of(given)
    desk = open_desk(given)
    bound = listen(given.port)
    signal.signal(signal.SIGTERM, end)
    count = 0 if given.alone else usual_count() if given.workers is None else given.workers
    processes = PageProcesses(count, given.words, bound)
    with contextlib.closing(bound):
        try:
            processes.start()
            desk.start(patience=SOON if is_large(desk.db) else None)
            try:
                serve_started(desk, entry, given, bound, processes)
            finally:
                desk.stop()
        finally:
            processes.end()
    return DONE


def serve_sample(given: argparse.Namespace) -> int:
    """Makes the sample in a folder of its own, serves it to one person, and returns the exit status."""
    signal.signal(signal.SIGTERM, end)
    given.alone = given.alone or GUEST
    with tempfile.TemporaryDirectory(prefix="thesaurus-sample-") as folder:
        given.db = make_sample(find_program(given.program), Path(folder), given.alone)
        return serve(given)


def serve_started(
    desk: Desk, entry: Entry, given: argparse.Namespace, bound: socket.socket, processes: PageProcesses
) -> None:
    """Serves the pages, answers tools, and does what is done beside, until it is ended."""
    backups = DeskBackups(desk, given.users, backup_settings(given)) if given.backups else None
    health = Health(desk, backups)
    background_tasks = [
        BackgroundTask("renewal", desk.renew),
        BackgroundTask("names", desk.decisions.note_lacking),
        BackgroundTask("errors", health.errors.write),
        BackgroundTask("counts", desk.below.bring_up),
        BackgroundTask("daily counts", desk.daily_counts.note_if_due),
    ]
    background_tasks += [BackgroundTask("backups", backups.make_if_due)] if backups else []
    snapshots = SnapshotServer(desk, given.users)
    settings = settings_of(given, bound.getsockname()[1])
    if entry.accounts is not None:
        background_tasks.append(
            BackgroundTask("mail", WatchMail(desk, entry.accounts, min(settings.origins)).send_if_due)
        )
    app = create_app(desk, entry, settings, health)
    for it in background_tasks:
        it.start()
    try:
        with contextlib.suppress(KeyboardInterrupt, SystemExit):
            if processes.all:
                run_office(app, given, snapshots.folder)
                processes.serve(health.errors.add)
                print(f"desk: {address_of(bound)}", flush=True)
                threading.Event().wait()
            else:
                run_alone(app, entry, given, bound)
    finally:
        # (who has sent something gets the answer: the office goes on until they have ended)
        processes.end()
        snapshots.end()
        for it in background_tasks:
            it.end()
        health.errors.write()


def backup_settings(given: argparse.Namespace) -> BackupSettings:
    """Returns where backups are put, and when."""
    return BackupSettings(given.backups, given.keep, given.backup_at)


def server_of(app: WSGIApplication, given: argparse.Namespace, bound: socket.socket) -> Any:
    """Returns the server of an application, which listens."""
    return waitress.create_server(
        app,
        sockets=[bound],
        threads=given.threads,
        ident=None,
        max_request_body_size=MOST_BYTES,
        max_request_header_size=64 << 10,
        clear_untrusted_proxy_headers=False,
        # (other programs are told whole addresses: those by which readers come)
        url_scheme="https" if given.secure else "http",
    )


def address_of(bound: socket.socket) -> str:
    """Returns the address of the first page."""
    return f"http://{HOST}:{bound.getsockname()[1]}/"


def run_alone(app: Flask, entry: Entry, given: argparse.Namespace, bound: socket.socket) -> None:
    """Serves the pages by this process alone, and says where once it listens."""
    server = server_of(app, given, bound)
    address = address_of(bound)
    if isinstance(entry, SingleUserEntry):
        entry.announce = partial(print_entrance, f"{address}enter?key=")
        address += f"enter?key={entry.key}"
    with contextlib.suppress(KeyboardInterrupt, SystemExit):
        print(f"desk: {address}", flush=True)
        if isinstance(entry, SingleUserEntry) and not given.no_browser and has_screen():
            webbrowser.open(address)
        server.run()
    server.close()


def run_office(app: Flask, given: argparse.Namespace, folder: Path) -> None:
    """Answers what other processes pass on, by a thread of its own."""
    passed = socket.socket(socket.AF_UNIX, socket.SOCK_STREAM)
    with address_in(folder, PAGES) as address:
        passed.bind(address)
    server = server_of(PageConnections(app), given, passed)
    threading.Thread(target=server.run, name="office", daemon=True).start()


def print_entrance(address: str, key: str) -> None:
    """Prints by which address one comes in the next time, as in another browser."""
    with contextlib.suppress(OSError):
        print(f"desk: the next time: {address}{key}", flush=True)


def has_screen() -> bool:
    """Whether a browser has a screen to open a window on; one in the terminal would be in the way."""
    return sys.platform != "linux" or any(it in os.environ for it in ("DISPLAY", "WAYLAND_DISPLAY"))


def check_journal(given: argparse.Namespace) -> int:
    """Compares the journal with the store, prints what differs and the last digest, and returns the exit status."""
    from thesaurus_desk.journal.consistency import check, last_digest

    if not find_store(given.db):
        raise ToolError(f"{given.db}: there is no store", USAGE)
    differences = check(given.db, given.digest)
    print(*differences or ["the journal and the store agree"], sep="\n")
    if digest := last_digest(given.db):
        print(digest)
    return REFUSED if differences else DONE
