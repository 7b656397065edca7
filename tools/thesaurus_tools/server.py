"""Talks to a program that serves a store over HTTP."""
from __future__ import annotations

import base64
import http.client
import json
import time
import urllib.parse

from thesaurus_tools.command_line import USAGE, ToolError, without_password
from thesaurus_tools.program import Performer

PATHS = {
    "totals": "/totals",
    "concept": "/concepts/{number}",
    "postings": "/concepts/{concept}/postings",
    "posting": "/postings/{number}",
}
# The seconds that an answer may take, besides one for each 100,000 bytes, and the most bytes that it may have.
PATIENCE, MOST_BYTES = 600, 1 << 30
PACE, CHUNK = 100_000, 1 << 16
SHOWN = 60
# The members of the program's views, and of its answers to changes, with the types of their values.
VIEWS: dict[str, dict[str, type | tuple[type, ...]]] = {
    "totals": {"accepted": int, "standing": int, "withdrawn": int},
    "concept": {"number": int, "live": bool, "typed": list, "postings": int, "replaced": (int, type(None))},
    "postings": {"postings": list},
    "posting": {
        "number": int,
        "key": str,
        "record": str,
        "first": int,
        "place": int,
        "withdrawn": bool,
        "moves": list,
    },
}
CHANGES = {"ok": int, "again": int, "moved": int, "done": bool}


def is_answer(request: object, answer: object) -> bool:
    """Returns whether a value is one that the program gives as the answer to a request, or to a plan, which is a
    list."""
    if not isinstance(answer, dict):
        return False
    done = answer.get("done")
    if isinstance(request, list) and isinstance(done, list):
        return len(done) == len(request) and all(map(is_answer, request, done))
    refusal = next((answer[it] for it in ("no", "bad", "fault") if it in answer), None)
    if refusal is not None:
        return isinstance(refusal, str) and (refusal != "OutsideKnown" or type(answer.get("number")) is int)
    query = request if isinstance(request, dict) else {}
    if (asked := query.get("get")) in VIEWS:
        members = VIEWS[asked]
        has_members = all(it in answer and isinstance(answer[it], members[it]) for it in members)
        return has_members and answer.get("number") in (None, query.get("number"))
    return any(type(answer.get(it)) is kind for it, kind in CHANGES.items())


class Server(Performer):
    """A store behind HTTP, one request at a time."""

    def __init__(self, url: str):
        self.name = without_password(url)
        try:
            parts = urllib.parse.urlsplit(url)
            host, port = parts.hostname, parts.port
        except ValueError:
            raise ToolError(f"{self.name} is no URL of a server", USAGE) from None
        if parts.scheme not in ("http", "https") or not host:
            raise ToolError(f"{self.name} is no URL of a server", USAGE)
        self.host, self.port, self.is_secret = host, port, parts.scheme == "https"
        self.path = parts.path.rstrip("/")
        # Whether it takes plans, once that is known.
        self.has_plans: bool | None = None
        self.headers = {}
        if parts.username:
            user = f"{urllib.parse.unquote(parts.username)}:{urllib.parse.unquote(parts.password or '')}"
            self.headers["Authorization"] = "Basic " + base64.b64encode(user.encode()).decode()

    def call(self, method: str, path: str, body: bytes | None = None) -> bytes:
        """Returns the body of an answer of the program. Raises ToolError for any other answer, or none."""
        kind = http.client.HTTPSConnection if self.is_secret else http.client.HTTPConnection
        connection = kind(self.host, self.port, timeout=120)
        try:
            connection.request(method, self.path + path, body, self.headers)
            answer = connection.getresponse()
            data = self.read(answer)
        except (OSError, http.client.HTTPException, UnicodeError) as error:
            raise ToolError(f"{self.name}: no answer: {error or type(error).__name__}") from None
        finally:
            connection.close()
        if answer.status != 200 and not (data.startswith(b"{") and data.endswith(b"}\n")):
            raise ToolError(f"{self.name}: status {answer.status} {answer.reason}")
        return data

    def read(self, answer: http.client.HTTPResponse) -> bytes:
        """Reads a body. Raises ToolError if it doesn't end."""
        data, began = bytearray(), time.monotonic()
        while more := answer.read1(CHUNK):
            data += more
            if len(data) > MOST_BYTES or time.monotonic() - began > PATIENCE + len(data) / PACE:
                raise ToolError(f"{self.name}: the answer doesn't end; {len(data)} bytes of it came")
        if answer.length:
            raise http.client.IncompleteRead(bytes(data), answer.length)
        return bytes(data)

    def takes_plans(self) -> bool:
        if self.has_plans is None:
            # (this is no plan, so nothing is performed)
            self.has_plans = b"BadShape" in self.call("POST", "/plans", b"[]")
        return self.has_plans

    def perform(self, request: bytes) -> bytes:
        value = json.loads(request)
        path = PATHS.get(str(value.get("get"))) if isinstance(value, dict) else None
        try:
            found = path and path.format(**{name: int(it) for name, it in value.items() if name != "get"})
        except (KeyError, ValueError, TypeError):
            found = None
        return self.checked(value, self.call("GET", found) if found else self.call("POST", "/requests", request))

    def perform_plan(self, plan: bytes) -> bytes:
        return self.checked(json.loads(plan), self.call("POST", "/plans", plan))

    def checked(self, request: object, data: bytes) -> bytes:
        """Returns an answer without its end. Raises ToolError for what the program doesn't answer."""
        try:
            is_right = is_answer(request, json.loads(data))
        except (ValueError, RecursionError):
            is_right = False
        if not is_right:
            shown = data[:SHOWN].decode(errors="replace")
            raise ToolError(f"{self.name} isn't the program, or another version of it: it answers {shown!r}")
        return data.rstrip(b"\n")

    def export(self) -> bytes:
        """Returns the export. Raises ToolError for an empty one that isn't the program's."""
        data = self.call("GET", "/export")
        if not data:
            self.perform(b'{"get":"totals"}')
        return data
