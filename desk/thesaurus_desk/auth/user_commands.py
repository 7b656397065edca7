"""The commands that keep the users' file from the command line."""
from __future__ import annotations

import argparse
import getpass
import sys
from collections.abc import Iterable
from contextlib import closing
from pathlib import Path

from thesaurus_desk.auth.accounts import AccountError, Accounts
from thesaurus_desk.auth.passwords import fault_of
from thesaurus_desk.auth.roles import role_named
from thesaurus_desk.journal import Journal, journal_of
from thesaurus_desk.journal.forgotten_users import forget, has_name
from thesaurus_desk.words import Words
from thesaurus_tools.command_line import DONE, REFUSED, ToolError


def ask_password(name: str) -> str:
    """Returns what is typed twice at a terminal. Raises ToolError at the end of input (Ctrl+D)."""
    try:
        password = getpass.getpass(f"Password of {name}: ")
        if getpass.getpass("The same password again: ") != password:
            raise AccountError("people.password_differs")
    except EOFError:
        print(file=sys.stderr)  # (the question has no end of line yet)
        raise ToolError("no password was given", REFUSED) from None
    return password


def read_password(name: str) -> str:
    """Returns a new password: asked for at a terminal, or the first line of standard input."""
    password = ask_password(name) if sys.stdin.isatty() else sys.stdin.readline().rstrip("\r\n")
    fault = fault_of(password, name)
    if fault:
        raise AccountError(fault)
    return password


def change_users(given: argparse.Namespace) -> int:
    """Carries out a command, and returns the exit status."""
    accounts = Accounts(given.users)
    try:
        return carry_out(accounts, given)
    except AccountError as error:
        raise ToolError(Words("en")(error.key, **error.values), REFUSED) from None


def carry_out(accounts: Accounts, given: argparse.Namespace) -> int:
    """Carries out a command. Raises AccountError if it is refused."""
    if given.command == "list":
        if not given.users.exists():
            raise ToolError(f"{given.users}: there is no such file", REFUSED)
        for it in accounts.all():
            print(f"{it.name}\t{it.role}{'' if it.password else chr(9) + 'no password'}")
        return DONE
    if given.command == "add":
        accounts.add(given.name, role_named(given.role), None if given.no_password else read_password(given.name))
    elif given.command == "role":
        accounts.set_role(given.name, role_named(given.role))
    elif given.command == "password":
        accounts.known(accounts.read(), given.name)
        accounts.set_password(given.name, read_password(given.name))
    elif given.command == "token" and not given.remove:
        # (alone on standard output, so that it can be written to a file)
        print(accounts.make_token(given.name))
        return DONE
    elif given.command == "token":
        accounts.remove_token(given.name)
    elif given.command == "forget":
        forget_user(accounts, given)
    else:
        accounts.remove(given.name)
    print(f"{given.users}: {given.name}: {'removed' if given.command in ('remove', 'forget') else 'done'}")
    return DONE


def copies_of(name: str, backups: Path | None) -> Iterable[Path]:
    """Returns the files of this name in backups, if there are any."""
    return backups.glob(f"*/{name}") if backups else ()


def forget_user(accounts: Accounts, given: argparse.Namespace) -> None:
    """Removes a user, if there is an account, and takes the name out of the journal. Prints where else it may be.

    Raises AccountError if nobody has the name, and ToolError if the journal can't be opened, or there is no such folder
    of backups."""
    path = journal_of(given.db)
    if not path.exists():
        raise ToolError(f"{path}: there is no journal", REFUSED)
    if given.backups and not given.backups.is_dir():
        raise ToolError(f"{given.backups}: there is no such folder", REFUSED)
    with closing(Journal(path).open()) as journal:
        if accounts.find(given.name) or not has_name(journal, given.name):
            accounts.remove(given.name)
        number, count = forget(journal, given.name)
    print(f"{path}: {number} takes the place of {given.name} in {count} places")
    earlier = path.parent.glob(f"{path.stem}-[0-9]*.sqlite")
    copies = [it for name in (path.name, accounts.path.name) for it in copies_of(name, given.backups)]
    for it in sorted([*earlier, *copies]):
        print(f"{it}: may have the name still")
