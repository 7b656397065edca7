"""Sessions: a signed cookie that names a person, with an age and an end, and the token of that session's forms."""
from __future__ import annotations

import hashlib
import hmac
import secrets
import threading
import time
from collections.abc import Callable
from dataclasses import dataclass

from itsdangerous import BadData, URLSafeSerializer

# A session ends after this many seconds without a request, and after this many in all.
IDLE, WHOLE = 12 * 3600, 7 * 86400
# A cookie is written again when it is this many seconds old.
RENEWAL = 300


@dataclass(frozen=True)
class Session:
    """One session: its name, its user (none before one has come in), the mark of the account then, and two times."""

    id: str
    user: str
    mark: str
    since: int
    last: int


class Sessions:
    """Writes and reads the cookies. A session that was ended is refused although its cookie is signed."""

    def __init__(self, key: bytes, noted: Callable[[], dict[str, int]] = dict):
        self.key = key
        self.serializer = URLSafeSerializer(key, salt="desk session")
        # Those that were left here; and those that were noted as left, by whichever process and run.
        self.left: dict[str, int] = {}
        self.noted = noted
        self.lock = threading.Lock()

    @property
    def ended(self) -> dict[str, int]:
        """Sessions that were left, with the time from which their cookies are too old anyway."""
        return self.noted() | self.left

    def begin(self, user: str = "", mark: str = "") -> Session:
        """Returns a new session."""
        now = int(time.time())
        return Session(secrets.token_urlsafe(16), user, mark, now, now)

    def read(self, cookie: str | None) -> Session | None:
        """Returns the session of a cookie, unless it is forged, too old or ended."""
        try:
            found = Session(*self.serializer.loads(cookie or ""))
        except (BadData, TypeError):
            return None
        now = time.time()
        if found.last + IDLE < now or found.since + WHOLE < now or found.id in self.left or found.id in self.noted():
            return None
        return found

    def write(self, session: Session) -> str:
        """Returns the cookie of a session as of now."""
        return str(self.serializer.dumps([session.id, session.user, session.mark, session.since, int(time.time())]))

    def end(self, session: Session) -> dict[str, int]:
        """Ends a session, and returns those that have been ended and whose cookies aren't too old yet."""
        with self.lock:
            now = int(time.time())
            self.left = {id: until for id, until in self.left.items() if until > now}
            self.left[session.id] = session.since + WHOLE
            return {id: until for id, until in self.ended.items() if until > now}

    def token(self, session: Session) -> str:
        """Returns the token that each form of a session carries."""
        return hmac.new(self.key, f"form {session.id} {session.user}".encode(), hashlib.sha256).hexdigest()[:32]

    def is_token(self, session: Session, token: str) -> bool:
        """Whether a form carries the token of a session."""
        return hmac.compare_digest(self.token(session).encode(), token.encode(errors="replace"))
