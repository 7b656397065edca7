"""The users' file: names, roles and hashed passwords. It is read again when it was changed, and written atomically."""
from __future__ import annotations

import fcntl
import hashlib
import hmac
import json
import logging
import os
import secrets
import threading
import unicodedata
from collections.abc import Callable, Iterator
from contextlib import contextmanager
from dataclasses import asdict, dataclass, field, replace
from pathlib import Path
from typing import Any

from thesaurus_desk.auth.passwords import hash_password, is_right
from thesaurus_desk.auth.roles import Role, role_named
from thesaurus_tools.command_line import ToolError
from thesaurus_tools.files import give_to_owner, open_without_links

LONGEST_NAME = 64
LOG = logging.getLogger("desk")


@dataclass(frozen=True)
class Account:
    """A user: the role, the hashed password (none where a server in front asks for it), and ends of sessions."""

    name: str
    role: str
    password: str = ""
    sessions: int = 0
    # The digest of the token by which a program is this user, if there is one.
    token: str = ""

    @property
    def mark(self) -> str:
        """Changes with the password, and when the sessions are ended; the cookie of a session keeps it."""
        return hashlib.sha256(f"{self.name} {self.sessions} {self.password}".encode()).hexdigest()[:16]


@dataclass
class UsersFile:
    """What the file holds: the key that signs cookies, the accounts by name, and sessions that were left."""

    key: str = field(default_factory=lambda: secrets.token_hex(32))
    accounts: dict[str, Account] = field(default_factory=dict)
    ended: dict[str, int] = field(default_factory=dict)


class AccountError(Exception):
    """What can't be done with an account: the key of its words, and their values."""

    def __init__(self, key: str, **values: str):
        super().__init__(key)
        self.key, self.values = key, values


def fault_of_name(name: str) -> str:
    """Returns the key of the words for what is wrong with a new name, or nothing."""
    if not name or len(name) > LONGEST_NAME or name != name.strip() or name != unicodedata.normalize("NFC", name):
        return "people.name_wrong"
    # (a number with # stands for a user who was forgotten)
    if name.startswith("#") or any(unicodedata.category(it)[0] in "CZ" and it != " " for it in name):
        return "people.name_wrong"
    return ""


def account_of(name: str, found: dict[str, Any]) -> Account:
    """Returns an account of a users' file. Raises ValueError, TypeError or KeyError for one that is none.

    A password that is no text is nobody's: only that account can't be used."""
    password = found.get("password", "")
    is_text = isinstance(password, str)
    if not is_text:
        LOG.warning("the password of %r in the users' file isn't one that was hashed", name)
    word, sessions, token = role_named(found["role"]).word, int(found.get("sessions", 0)), str(found.get("token", ""))
    return Account(name, word, password if is_text else "-", sessions, token)


def digest_of_token(token: str) -> str:
    """Returns what the users' file has of a token, which nobody can guess: it needs no salt, and no slow hash."""
    return hashlib.sha256(token.encode(errors="replace")).hexdigest()


def parse_users(path: Path, data: str) -> UsersFile:
    """Returns what a users' file holds. Raises ToolError for another file."""
    try:
        found = json.loads(data)
        accounts = {name: account_of(name, it) for name, it in found["users"].items()}
        return UsersFile(str(found["key"]), accounts, {str(id): int(until) for id, until in found["ended"].items()})
    except (ValueError, TypeError, KeyError, AttributeError):
        raise ToolError(f"{path}: not a users' file of the desk") from None


class Accounts:
    """The accounts of a users' file."""

    def __init__(self, path: Path):
        self.path = path
        self.lock = threading.RLock()
        self.stamp: tuple[int, int] | None = None
        self.kept = UsersFile()
        # What is wrong with the file now, while what it held before is used; nothing if all is well.
        self.fault = ""

    def read(self) -> UsersFile:
        """Returns what the file holds now; if it was damaged or removed since it was read, what it held before. Raises
        ToolError for a file that can't be read at first."""
        with self.lock:
            try:
                self.load()
                self.fault = ""
            except ToolError as error:
                if self.stamp is None:
                    raise
                if self.fault != str(error):
                    LOG.error("%s; the users are those of before", error)
                self.fault = str(error)
            return self.kept

    def load(self, anew: bool = False) -> None:
        """Reads the file if it was changed since, or anew. One that was never there has no users. Raises ToolError if
        it can't be read."""
        try:
            state = self.path.stat()
            stamp = (state.st_mtime_ns, state.st_ino)
            if anew or stamp != self.stamp:
                self.kept = parse_users(self.path, self.path.read_text(encoding="utf-8"))
                self.stamp = stamp
        except FileNotFoundError:
            if self.stamp is not None:
                raise ToolError(f"{self.path}: there is no such file") from None
            self.kept = UsersFile()
        except UnicodeDecodeError:
            raise ToolError(f"{self.path}: not a users' file of the desk") from None
        except OSError as error:
            raise ToolError(f"{self.path}: {error.strerror}") from None

    def load_to_change(self) -> None:
        """Reads the file anew. Raises ToolError if it can't be read; AccountError if it could before, so that nobody's
        account is lost."""
        try:
            self.load(anew=True)
        except ToolError as error:
            if self.stamp is None:
                raise
            raise AccountError("people.file_damaged", reason=str(error)) from None

    def find(self, name: str) -> Account | None:
        """Returns the account of a name, if there is one."""
        return self.read().accounts.get(name)

    def find_by_token(self, token: str) -> Account | None:
        """Returns the account of a token, if there is one."""
        digest = digest_of_token(token)
        return next((it for it in self.read().accounts.values() if hmac.compare_digest(it.token, digest)), None)

    def all(self) -> list[Account]:
        """Returns the accounts by their names."""
        return [it for _, it in sorted(self.read().accounts.items())]

    def check(self, name: str, password: str) -> Account | None:
        """Returns the account whose name and password these are. An unknown name takes as long as a known one."""
        account = self.find(name)
        is_known = is_right(password, account.password if account else "")
        return account if account and account.password and is_known else None

    @contextmanager
    def change(self) -> Iterator[UsersFile]:
        """Locks the file, yields what it holds, and writes it afterwards, unless an exception is raised. Raises
        AccountError if it is damaged, and ToolError if it can't be locked."""
        lock_path = self.path.with_name(f"{self.path.name}.lock")
        # (whoever may write in the folder could have root open another file by a link)
        with self.lock, open(open_without_links(lock_path, os.O_RDWR), "rb") as lock:
            fcntl.flock(lock, fcntl.LOCK_EX)
            self.load_to_change()
            kept = self.kept
            changed = UsersFile(kept.key, dict(kept.accounts), dict(kept.ended))
            yield changed
            self.write(changed)

    def write(self, users: UsersFile) -> None:
        """Writes the file: a new one, which takes the old one's place when it is whole."""
        accounts = {name: {k: v for k, v in asdict(it).items() if k != "name"} for name, it in users.accounts.items()}
        data = json.dumps({"key": users.key, "users": accounts, "ended": users.ended}, ensure_ascii=False, indent=1)
        new = self.path.with_name(f".{self.path.name}.new")
        new.unlink(missing_ok=True)
        with open(os.open(new, os.O_WRONLY | os.O_CREAT | os.O_EXCL, 0o600), "w", encoding="utf-8") as file:
            give_to_owner(file.fileno(), self.path.parent)
            file.write(data + "\n")
            file.flush()
            os.fsync(file.fileno())
            state = os.fstat(file.fileno())
        os.replace(new, self.path)
        self.kept, self.stamp = users, (state.st_mtime_ns, state.st_ino)

    def add(self, name: str, role: Role, password: str | None) -> None:
        """Adds a user; without a password, one whom a server in front knows. Raises AccountError for a taken name."""
        fault = fault_of_name(name)
        if fault:
            raise AccountError(fault, name=name)
        hashed = hash_password(password) if password is not None else ""
        with self.change() as users:
            if name in users.accounts:
                raise AccountError("people.name_taken", name=name)
            users.accounts[name] = Account(name, role.word, hashed)

    def edit(self, name: str, new: Callable[[Account], Account]) -> None:
        """Changes an account. Raises AccountError if there is none, or if no head would be left."""
        with self.change() as users:
            users.accounts[name] = new(self.known(users, name))
            self.check_head(users)

    def set_role(self, name: str, role: Role) -> None:
        """Gives a user another role."""
        self.edit(name, lambda it: replace(it, role=role.word))

    def set_password(self, name: str, password: str) -> None:
        """Gives a user another password. All sessions of the user end."""
        hashed = hash_password(password)
        self.edit(name, lambda it: replace(it, password=hashed))

    def make_token(self, name: str) -> str:
        """Gives a user a new token, and returns it; the one before isn't good any more."""
        token = secrets.token_urlsafe(32)
        self.edit(name, lambda it: replace(it, token=digest_of_token(token)))
        return token

    def remove_token(self, name: str) -> None:
        """Takes a user's token away."""
        self.edit(name, lambda it: replace(it, token=""))

    def end_sessions(self, name: str) -> None:
        """Ends all sessions of a user."""
        self.edit(name, lambda it: replace(it, sessions=it.sessions + 1))

    def remove(self, name: str) -> None:
        """Removes a user, whose sessions end. Raises AccountError if there is none, or if no head would be left."""
        with self.change() as users:
            del users.accounts[self.known(users, name).name]
            self.check_head(users)

    def note_ended(self, ended: dict[str, int]) -> None:
        """Keeps the sessions that were left; while the file is damaged they are ended until the desk ends."""
        try:
            with self.change() as users:
                users.ended = ended
        except AccountError as error:
            LOG.error("%s: it isn't noted who has left", error.values["reason"])

    def known(self, users: UsersFile, name: str) -> Account:
        """Returns the account of a name. Raises AccountError if there is none."""
        if name not in users.accounts:
            raise AccountError("people.name_unknown", name=name)
        return users.accounts[name]

    def check_head(self, users: UsersFile) -> None:
        """Raises AccountError if there was a head, and there would be none."""
        had_head = any(it.role == "head" for it in self.kept.accounts.values())
        if had_head and not any(it.role == "head" for it in users.accounts.values()):
            raise AccountError("people.last_head")
