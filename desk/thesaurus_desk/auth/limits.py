"""Slows wrong passwords down, by address and name and by address, so that nobody can lock a colleague out."""
from __future__ import annotations

import ipaddress
import threading
import time
from collections.abc import Iterable
from dataclasses import dataclass

from thesaurus_desk.journal.schema import Database

# Wrong passwords that cost nothing yet: for one name from an address, and for all names from it.
FREE_FOR_NAME, FREE_FOR_ADDRESS = 4, 30
# The longest wait in seconds, and how long a failure counts.
LONGEST_WAIT, MEMORY = 60, 900
# The most addresses and names that are kept.
MOST_KEPT = 20_000
# Who has an address of IPv6 usually has all that begin with the same 64 bits.
SHARED_BITS = 64


def counted_as(address: str) -> str:
    """Returns what is counted for an address: for one of IPv6 its network, for anything else the text itself."""
    try:
        found = ipaddress.ip_address(address.partition("%")[0])
    except ValueError:
        return address
    if isinstance(found, ipaddress.IPv4Address):
        return str(found)
    return str(found.ipv4_mapped or ipaddress.ip_network((found, SHARED_BITS), strict=False))


@dataclass
class Failures:
    """Wrong passwords: their number, and the time of the last."""

    count: int
    last: float


Key = tuple[str, str]


class Limits:
    """Counts passwords that are tried: as wrong ones, until one has turned out to be right. The desk's file has the
    counts, too, so that a restart forgets none."""

    def __init__(self, journal: Database | None = None) -> None:
        self.lock = threading.Lock()
        self.journal = journal
        rows = journal.all("SELECT address, name, count, last FROM failure") if journal else []
        self.failures = {(it["address"], it["name"]): Failures(it["count"], it["last"]) for it in rows}

    def write(self, keys: Iterable[Key]) -> None:
        """Writes some counts to the desk's file."""
        if self.journal is None:
            return
        statements: list[tuple[object, ...]] = [("DELETE FROM failure WHERE last < ?", time.time() - MEMORY)]
        for key in keys:
            if it := self.failures.get(key):
                statements.append(("INSERT OR REPLACE INTO failure VALUES (?, ?, ?, ?)", *key, it.count, it.last))
            else:
                statements.append(("DELETE FROM failure WHERE address = ? AND name = ?", *key))
        self.journal.note(*statements)

    def try_one(self, address: str, name: str) -> int:
        """Counts a password that is to be tried as a wrong one, and returns 0; or the seconds to wait before it.

        It is counted before it is compared, so that many at once count as many one after another."""
        keys, now = keys_of(address, name), time.time()
        with self.lock:
            wait = max(self.rest(key, free) for key, free in zip(keys, (FREE_FOR_NAME, FREE_FOR_ADDRESS)))
            if not wait:
                self.forget_old(now)
                for key in keys:
                    found = self.failures.get(key)
                    count = found.count if found and found.last + MEMORY >= now else 0
                    self.failures[key] = Failures(count + 1, now)
                self.write(keys)
            return wait

    def rest(self, key: tuple[str, str], free: int) -> int:
        """Returns the seconds left for one count: a second at first, then twice as long each time."""
        found, now = self.failures.get(key), time.time()
        if not found or found.last + MEMORY < now or found.count < free:
            return 0
        wait = min(2 ** min(found.count - free, 10), LONGEST_WAIT)
        # (a clock may be set back)
        return max(0, min(LONGEST_WAIT, int(found.last + wait - now + 0.999)))

    def forget_old(self, now: float) -> None:
        """Makes room for what is counted next."""
        if len(self.failures) >= MOST_KEPT:
            self.failures = {key: it for key, it in self.failures.items() if it.last + LONGEST_WAIT > now}
        if len(self.failures) >= MOST_KEPT:
            self.failures.clear()
            if self.journal is not None:
                self.journal.note(("DELETE FROM failure",))

    def forgive(self, address: str, name: str) -> None:
        """Forgets the wrong passwords of a name from an address, after a right one."""
        key, of_address = keys_of(address, name)
        with self.lock:
            self.failures.pop(key, None)
            self.write([key])
        self.uncount([of_address])

    def take_back(self, address: str, name: str) -> None:
        """Takes back what was counted for a password that wasn't compared after all."""
        self.uncount(keys_of(address, name))

    def uncount(self, keys: list[Key]) -> None:
        """Counts one wrong password less."""
        with self.lock:
            for key in keys:
                found = self.failures.get(key)
                if found:
                    self.failures[key] = Failures(max(0, found.count - 1), found.last)
            self.write(keys)


def keys_of(address: str, name: str) -> list[Key]:
    """Returns by what a password is counted: the address and the name, and the address alone."""
    counted = counted_as(address)
    return [(counted, name), (counted, "")]
