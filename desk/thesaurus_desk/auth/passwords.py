"""Passwords: hashed by scrypt, and compared in equal time."""
from __future__ import annotations

import hashlib
import hmac
import secrets
import threading

SHORTEST, LONGEST = 10, 1024
LENGTH, ROUNDS, BLOCK, LANES, MEMORY = 32, 1 << 15, 8, 3, 64 << 20
# scrypt takes 32 MB each time: not more than two at once.
GATE = threading.Semaphore(2)


class TooManyHashes(Exception):
    """As many passwords are hashed now as may be at once."""


def scrypt(password: str, salt: bytes, rounds: int, lanes: int) -> bytes:
    """Returns the hash of a password. Raises TooManyHashes, and never waits: a page's thread would wait with it."""
    if not GATE.acquire(blocking=False):
        raise TooManyHashes
    try:
        return hashlib.scrypt(
            password.encode("utf-8", "surrogatepass"),
            salt=salt,
            n=rounds,
            r=BLOCK,
            p=lanes,
            maxmem=MEMORY,
            dklen=LENGTH,
        )
    finally:
        GATE.release()


def hash_password(password: str) -> str:
    """Returns what the users' file keeps of a password. Raises TooManyHashes."""
    salt = secrets.token_bytes(16)
    return f"scrypt${ROUNDS}${LANES}${salt.hex()}${scrypt(password, salt, ROUNDS, LANES).hex()}"


# What is compared for a name that nobody has, so that it takes as long as a known one.
NOBODY = f"scrypt${ROUNDS}${LANES}${secrets.token_hex(16)}${secrets.token_hex(LENGTH)}"


def is_right(password: str, hashed: str) -> bool:
    """Whether a password is the one that was hashed. A hash that can't be read is nobody's. Raises TooManyHashes."""
    try:
        rounds, lanes, salt, digest = fields_of(hashed or NOBODY)
        found = scrypt(password[:LONGEST], salt, rounds, lanes)
        if lanes < LANES:
            # (else a name whose password is an old one would be known by the shorter time)
            scrypt(password[:LONGEST], salt, rounds, LANES - lanes)
        return hmac.compare_digest(found.hex(), digest)
    except ValueError:
        return False


def fields_of(hashed: str) -> tuple[int, int, bytes, str]:
    """Returns the rounds, the lanes, the salt and the hash. Raises ValueError. Older hashes have one lane."""
    method, rounds, *lanes, salt, digest = hashed.split("$")
    if method != "scrypt" or len(lanes) > 1:
        raise ValueError(hashed)
    return int(rounds), int(lanes[0]) if lanes else 1, bytes.fromhex(salt), digest


def fault_of(password: str, name: str) -> str:
    """Returns the key of the words for what is wrong with a new password, or nothing."""
    if len(password) < SHORTEST:
        return "people.password_short"
    if len(password) > LONGEST:
        return "people.password_long"
    if password.strip().casefold() == name.casefold() or len(set(password)) < 4:
        return "people.password_plain"
    return ""
