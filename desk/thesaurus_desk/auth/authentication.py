"""The ways in: one person alone, by a name and a password, or by the name that a server in front sends."""
from __future__ import annotations

import hashlib
import hmac
import secrets
import threading
from abc import ABC, abstractmethod
from collections.abc import Callable, Mapping

from flask import Request

from thesaurus_desk.auth.accounts import Accounts, fault_of_name
from thesaurus_desk.auth.devices import Devices
from thesaurus_desk.auth.limits import Limits
from thesaurus_desk.auth.roles import VISITOR, Person, Role, role_named
from thesaurus_desk.auth.sessions import Session, Sessions
from thesaurus_desk.auth.sign_in_log import EntryLog
from thesaurus_desk.journal.schema import Database


class Proxy:
    """A server in front, which sends its secret with each request, and the browser's address."""

    def __init__(self, secret: str):
        self.secret = secret.encode()

    def is_sender(self, request: Request) -> bool:
        """Whether a request has the secret."""
        return hmac.compare_digest(request.headers.get("X-Desk-Proxy", "").encode(), self.secret)

    def key(self) -> bytes:
        """Returns a key that stays the same as long as the secret does."""
        return hmac.new(self.secret, b"desk sessions", hashlib.sha256).digest()


class Entry(ABC):
    """How people come in. `kind`: alone, password or proxy; `accounts`: the users' file, if there is one."""

    kind = ""

    def __init__(self, sessions: Sessions, accounts: Accounts | None = None, proxy: Proxy | None = None):
        self.sessions, self.accounts, self.proxy = sessions, accounts, proxy
        self.devices = Devices(sessions.key)

    def keep_in(self, journal: Database) -> None:
        """Keeps in the desk's file how many passwords were wrong, and who came in."""
        self.limits, self.log = Limits(journal), EntryLog(journal)

    def is_admitted(self, request: Request) -> bool:
        """Whether a request came the way it must: through the server in front, if there is one."""
        return self.proxy is None or self.proxy.is_sender(request)

    def address(self, request: Request) -> str:
        """Returns the address that a request came from; a server in front sends the browser's."""
        sent = request.headers.get("X-Real-IP", "") if self.proxy else ""
        return sent or request.remote_addr or ""

    @abstractmethod
    def person(self, request: Request, session: Session | None) -> Person:
        """Returns who asks."""

    def person_of_token(self, request: Request) -> Person:
        """Returns the user whose token a program sends."""
        scheme, _, token = request.headers.get("Authorization", "").partition(" ")
        account = self.accounts.find_by_token(token) if self.accounts and scheme.lower() == "bearer" else None
        return Person(account.name, role_named(account.role)) if account else VISITOR


class SingleUserEntry(Entry):
    """One person at this machine, who comes in by an address with a key.

    A key is good once: an address stays in a browser's history, and other users of the machine may see it in the list
    of processes. `announce` gets each new one."""

    kind = "alone"

    def __init__(self, name: str):
        super().__init__(Sessions(secrets.token_bytes(32)))
        self.name, self.key = name, secrets.token_urlsafe(24)
        self.used: set[str] = set()
        self.announce: Callable[[str], None] = lambda key: None
        self.lock = threading.Lock()

    def use_key(self, key: str) -> bool:
        """Whether the key is that of the address that the desk printed last; another takes its place then."""
        with self.lock:
            if not hmac.compare_digest(key.encode(errors="replace"), self.key.encode()):
                return False
            self.used.add(self.key)
            self.key = secrets.token_urlsafe(24)
        self.announce(self.key)
        return True

    def person(self, request: Request, session: Session | None) -> Person:
        return Person(self.name, Role.HEAD) if session and session.user == self.name else VISITOR


class PasswordEntry(Entry):
    """Several people with names and passwords, perhaps behind a server that only passes requests on."""

    kind = "password"

    def __init__(self, accounts: Accounts, proxy: Proxy | None = None):
        kept = accounts.read()
        super().__init__(Sessions(bytes.fromhex(kept.key), lambda: accounts.read().ended), accounts, proxy)
        self.users = accounts

    def person(self, request: Request, session: Session | None) -> Person:
        account = self.users.find(session.user) if session and session.user else None
        if session is None or account is None or not hmac.compare_digest(account.mark, session.mark):
            return VISITOR
        return Person(account.name, role_named(account.role))


class ProxyEntry(Entry):
    """Several people whose names a server in front sends; the users' file has their roles, or else the groups that it
    sends with a name."""

    kind = "proxy"

    def __init__(self, accounts: Accounts, proxy: Proxy, groups: Mapping[str, Role] | None = None):
        super().__init__(Sessions(proxy.key()), accounts, proxy)
        self.users, self.groups = accounts, groups or {}

    def person(self, request: Request, session: Session | None) -> Person:
        name = sent_text(request, "X-Remote-User")
        account = self.users.find(name)
        if account:
            return Person(account.name, role_named(account.role))
        sent = sent_text(request, "X-Remote-Groups").split(",") if self.groups and not fault_of_name(name) else ()
        roles = [self.groups[it.strip()] for it in sent if it.strip() in self.groups]
        return Person(name, max(roles)) if roles else VISITOR


def sent_text(request: Request, name: str) -> str:
    """Returns a field of a request as the UTF-8 that it is."""
    return request.headers.get(name, "").encode("latin-1", "replace").decode("utf-8", "replace")
