"""Makes a backup of a store, also while the program serves it or its desk runs, and checks the backup.

A desk that runs sends its store, its journal and its users' file as they are at one moment, by a socket that only its
own user and root may open.

The two files of the store are copied to a new folder BACKUPS/NAME-TIME, and the program reads the copy whole. While the
copy is made, a connection to the program holds it, as it serves one connection after another: so the copy has what was
answered before, and nothing of what is answered later. Others wait for that time. If this tool is killed, the
connection ends and the program continues; what the tool left is a folder `.new-..`, which the next run removes. A store
that nobody has open is locked while it is copied.

The program at the port must have the store open. A user who may not see that of another user's program gets a backup if
the program serves the store's base and answers nobody else meanwhile, and if the copy has its counts of postings.

Several stores may share BACKUPS. A backup has a file backup.json with the path and the base of its store, and --keep
counts and removes only backups of this store.

Examples:
  tools/backup museum.db backups                            the store is not in use, or its desk runs
  tools/backup museum.db backups --port 8080 --keep 30      the program serves it at this port, or it is not in use

To restore: end the program, move museum.db and museum.db-wal away, copy these two of a backup there, and run `check`.
Exit status: 0 done; 1 the store is in use otherwise, or its copy doesn't pass the check; 2 usage; 3 a fault.
"""
from __future__ import annotations

import argparse
import contextlib
import fcntl
import os
import struct
from collections.abc import Iterator
from pathlib import Path

from thesaurus_tools.backups import SIGN, Backups, StoreName, base_in_database, base_of, check_copy, write_sign
from thesaurus_tools.command_line import DONE, REFUSED, ToolError, parser_of, run, say
from thesaurus_tools.store_copies import copy_store
from thesaurus_tools.desk_socket import ask_desk
from thesaurus_tools.program_hold import Hold, serves_base, take_hold
from thesaurus_tools.program import find_program

# The bytes of a store that the program locks as long as it runs.
LOCK_START, LOCK_SIZE = 1 << 30, 512


@contextlib.contextmanager
def lock_store(store: Path) -> Iterator[bool]:
    """Locks a store, so that no program opens it; gives False if one has it open."""
    with open(store, "rb") as file:
        try:
            fcntl.fcntl(
                file, fcntl.F_OFD_SETLK, struct.pack("hhqqi4x", fcntl.F_RDLCK, os.SEEK_SET, LOCK_START, LOCK_SIZE, 0)
            )
        except BlockingIOError:
            yield False
            return
        yield True


def hold_store(store: Path, port: int, patience: float) -> Hold:
    """Holds the program that serves a store at a port. Raises ToolError for one that serves another, or may do so."""
    hold = take_hold(port, patience)
    has_open = hold.has_open(store)
    if has_open is None:
        # This user may not see its files, so its answers must do.
        hold.end()
        base = base_in_database(store)
        has_open = base is not None and serves_base(port, base)
        hold = take_hold(port, patience)
        if not hold.is_alone():
            raise ToolError(
                f"port {port} answers others while it is held: it isn't the program itself, whose port is needed",
                REFUSED,
            )
    if not has_open:
        raise ToolError(
            f"the program at port {port} serves another store than {store}, as far as this user may see", REFUSED
        )
    return hold


def copy_in_use(store: Path, room: Path, port: int, patience: float) -> tuple[dict, float]:
    """Copies a store that a program serves at a port. Returns the counts that it reports, and the seconds."""
    hold = hold_store(store, port, patience)
    copy_store(store, room, hold)
    return hold.end()


def copy_checked(given: argparse.Namespace, program: str, room: Path) -> tuple[str, float]:
    """Copies a store, and has the copy checked. Returns what the check printed, and how long a program was held."""
    counts: dict[str, int] = {}
    held = 0.0
    with lock_store(given.store) as is_free, ask_desk(given.store, "backup") as moment:
        if is_free:
            copy_store(given.store, room, None)
        elif moment is not None:
            moment.write_to(room)
            counts = moment.counts
        elif given.port is None:
            raise ToolError(
                f"{given.store}: a program has it open; if it serves, give its --port, or else wait until it ends",
                REFUSED,
            )
        else:
            counts, held = copy_in_use(given.store, room, given.port, given.wait)
    return check_copy(program, room / given.store.name, counts), held


def back_up(given: argparse.Namespace) -> str:
    """Makes a backup. Returns what is to be said of it."""
    store, program, backups = given.store, find_program(given.program), Backups(given.backups)
    if not store.is_file():
        raise ToolError(f"{store}: there is no such file")
    if store.name == SIGN:
        raise ToolError(f"{store}: in a backup a file of this name says which store it is; rename the store", REFUSED)
    with backups.locked():
        for other in backups.remove_left():
            say("backup", f"{other} is left alone: it isn't this tool's, and has a name of the kind that it uses")
        with backups.new_room() as room:
            said, held = copy_checked(given, program, room)
            name = StoreName(str(store.resolve()), base_of(room / store.name))
            write_sign(room, name)
            place = backups.put_away(room, store.stem)
        if given.keep:
            backups.remove_older(store.stem, name, given.keep)
    return f"{place}: {said}" + (f"; the program was held for {held:.3f} seconds" if held else "")


def positive(text: str) -> int:
    number = int(text)
    if number < 1:
        raise argparse.ArgumentTypeError(f"not 1 or more: {text}")
    return number


def arguments() -> argparse.Namespace:
    parser = parser_of("backup", __doc__)
    parser.add_argument("store", type=Path, metavar="STORE", help="the store, a file")
    parser.add_argument(
        "backups", type=Path, metavar="BACKUPS", help="the folder of the backups; it is made if need be"
    )
    parser.add_argument(
        "--port",
        type=positive,
        metavar="N",
        help="the port at which a program serves the store on this machine, if one does",
    )
    parser.add_argument(
        "--keep", type=positive, metavar="N", help="remove older backups of this store but for N, this one counted"
    )
    parser.add_argument(
        "--wait",
        type=float,
        default=600,
        metavar="S",
        help="for how many seconds to wait until it is this tool's turn (600)",
    )
    parser.add_argument(
        "--program", metavar="PATH", help="the program that checks the copy; `thesaurus` in PATH if left out"
    )
    return parser.parse_args()


def main() -> int:
    print(back_up(arguments()))
    return DONE


def command() -> None:
    """Runs it, and ends with its exit status."""
    run("backup", main)
