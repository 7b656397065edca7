"""Opens the store that a tool's options name."""
from __future__ import annotations

import argparse
import contextlib
from collections.abc import Iterator
from pathlib import Path
from typing import Any

from thesaurus_tools.command_line import USAGE, ToolError, languages
from thesaurus_tools.desk_values import add_values, journal_of
from thesaurus_tools.store import Store
from thesaurus_tools.table_store import TableStore, open_tables


def add_store_arguments(parser: argparse.ArgumentParser, default: Any = None) -> None:
    """Adds the options that say which store is read, and in which languages its terms are shown."""
    add = parser.add_argument
    add(
        "--db",
        metavar="FILE",
        type=Path,
        default=default,
        help="the store, or a copy of it; no program may have it open",
    )
    add("--desk", metavar="FILE", type=Path, default=default, help="the store of a desk that runs on this machine")
    add("--http", metavar="URL", default=default, help="a program that serves the store, as http://127.0.0.1:8080")
    add(
        "--langs",
        metavar="TAG,..",
        type=languages,
        default=default or [],
        help="languages of terms, the first that a concept has; else the commonest",
    )


def add_journal_argument(parser: argparse.ArgumentParser, default: Any = None) -> None:
    """Adds the option that says where the values of fields are, for a tool that shows them."""
    parser.add_argument(
        "--journal",
        metavar="FILE",
        type=Path,
        default=default,
        help="the journal of the store's desk: definitions, notes, notations and other fields that everybody may see; "
        "candidates are left out (--desk does both)",
    )


@contextlib.contextmanager
def open_file(path: Path) -> Iterator[Store]:
    """Opens a store or a copy of one."""
    with open_tables(path) as tables:
        yield TableStore(path, tables).read_base()


@contextlib.contextmanager
def open_store(given: argparse.Namespace) -> Iterator[Store]:
    """Opens the store that the options name."""
    if sum(map(bool, (given.db, given.desk, given.http))) != 1:
        raise ToolError("one of --db FILE, --desk FILE and --http URL is needed", USAGE)
    has_values = "journal" in given
    with open_named(given.db, given.desk, given.http, has_values) as store:
        if has_values and given.journal:
            add_values(store, given.journal)
        yield store


def open_named(
    file: Path | None, desk: Path | None, url: str | None, has_values: bool = False
) -> contextlib.AbstractContextManager[Store]:
    """Returns what opens the one of these that is given; that of a desk with the values of its fields, if they are
    asked for."""
    if desk is not None:
        return open_of_desk(desk, has_values)
    assert file is not None or url
    return open_file(file) if file is not None else open_served(str(url))


@contextlib.contextmanager
def open_of_desk(path: Path, has_values: bool = False) -> Iterator[Store]:
    """Opens a copy of the store that a desk has open, as it is at one moment; or the store, if no desk is running."""
    from thesaurus_tools.desk_socket import copy_of  # (other systems have no such sockets)

    with copy_of(path, with_journal=has_values) as copy, open_tables(copy) as tables:
        store = TableStore(path, tables).read_base()
        if has_values and journal_of(copy).is_file():
            add_values(store, journal_of(copy))
        yield store


@contextlib.contextmanager
def open_served(url: str) -> Iterator[Store]:
    """Opens the store of a program that serves: a copy where that can be had, which takes far less time; or else by
    asking it for each thing."""
    from thesaurus_tools.store_copies import open_copy_of_served  # (a tool starts faster without what talks HTTP)
    from thesaurus_tools.program_store import read_served
    from thesaurus_tools.server import Server

    server = Server(url)
    with open_copy_of_served(server) as copy:
        yield copy or read_served(server)
