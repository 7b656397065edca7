"""Browsers in which somebody has come in before: wrong passwords from elsewhere don't slow that person down."""
from __future__ import annotations

import hashlib
import secrets

from itsdangerous import BadData, URLSafeSerializer

# How many seconds a browser is known.
KNOWN = 180 * 86400


class Devices:
    """Writes and reads the cookie by which a browser is known for one name."""

    def __init__(self, key: bytes):
        self.serializer = URLSafeSerializer(key, salt="desk device")

    def write(self, name: str) -> str:
        """Returns the cookie for a browser in which a name has come in."""
        return str(self.serializer.dumps([digest(name), secrets.token_urlsafe(12)]))

    def find(self, cookie: str | None, name: str) -> str:
        """Returns what is counted in place of the address, if the cookie is one for the name; nothing otherwise."""
        try:
            named, device = self.serializer.loads(cookie or "")
        except (BadData, ValueError, TypeError):
            return ""
        return f"browser {device}" if named == digest(name) else ""


def digest(name: str) -> str:
    """Returns what the cookie has of a name."""
    return hashlib.sha256(name.encode("utf-8", "surrogatepass")).hexdigest()[:24]
