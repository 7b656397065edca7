"""The way from a process that makes pages to the office, which writes: HTTP over a socket that only the desk's user
opens."""
from __future__ import annotations

import http.client
import logging
import socket
import string
from collections.abc import Iterable, Iterator
from pathlib import Path
from typing import TYPE_CHECKING
from urllib.parse import quote

from thesaurus_desk.auth.route_roles import READING
from thesaurus_desk.journal.schema import OfficeNeeded
from thesaurus_tools.desk_socket import address_in

if TYPE_CHECKING:
    from _typeshed.wsgi import StartResponse, WSGIApplication, WSGIEnvironment

log = logging.getLogger("desk")
# The name of the socket, beside the one for tools.
PAGES = "pages"
# The most seconds for an answer: an import may take long, and the office has limits of its own for all that waits.
PATIENCE = 3600.0
PIECE = 1 << 16
# The field with the address of who has asked.
CLIENT = "X-Desk-Client"
KEY_OF_CLIENT = "HTTP_X_DESK_CLIENT"
# The fields that are about a connection, and not about an answer.
OF_CONNECTION = {"connection", "keep-alive", "transfer-encoding", "upgrade", "te", "trailer", "proxy-connection"}
NO_OFFICE = b"The desk is being started. Please try again in some seconds.\n"


class OfficeConnection(http.client.HTTPConnection):
    """A connection to the office, whose socket is in a folder."""

    def __init__(self, folder: Path) -> None:
        super().__init__("localhost", timeout=PATIENCE)
        self.folder = folder

    def connect(self) -> None:
        """Connects. Raises OSError."""
        self.sock = socket.socket(socket.AF_UNIX, socket.SOCK_STREAM)
        self.sock.settimeout(self.timeout)
        with address_in(self.folder, PAGES) as address:
            self.sock.connect(address)


def fields_of(environ: WSGIEnvironment) -> dict[str, str]:
    """Returns the fields of a request as they are passed on, with the address of who has sent it."""
    found = {
        key.removeprefix("HTTP_").replace("_", "-"): value for key, value in environ.items() if key.startswith("HTTP_")
    }
    found |= {key.replace("_", "-"): environ[key] for key in ("CONTENT_TYPE", "CONTENT_LENGTH") if environ.get(key)}
    found = {name: value for name, value in found.items() if name.lower() not in OF_CONNECTION}
    return found | {CLIENT.upper(): environ.get("REMOTE_ADDR", "")}


def pieces_of(connection: http.client.HTTPConnection, answer: http.client.HTTPResponse) -> Iterator[bytes]:
    """Yields an answer as it comes."""
    try:
        while data := answer.read(PIECE):
            yield data
    finally:
        connection.close()


class Forwarder:
    """A WSGI application that reads: what changes something, and what only the office has, is passed on."""

    def __init__(self, app: WSGIApplication, folder: Path) -> None:
        self.app, self.folder = app, folder

    def __call__(self, environ: WSGIEnvironment, start_response: StartResponse) -> Iterable[bytes]:
        """Answers a request."""
        if environ["REQUEST_METHOD"] in READING:
            try:
                return self.app(environ, start_response)
            except OfficeNeeded as error:
                log.debug("%s is passed on: %s", environ["PATH_INFO"], error)
        return self.pass_on(environ, start_response)

    def pass_on(self, environ: WSGIEnvironment, start_response: StartResponse) -> Iterable[bytes]:
        """Has the office answer a request."""
        connection = OfficeConnection(self.folder)
        path = quote(environ["REQUEST_URI"].encode("latin-1"), safe=string.punctuation)
        body = environ["wsgi.input"] if environ.get("CONTENT_LENGTH") else None
        try:
            connection.request(environ["REQUEST_METHOD"], path, body, fields_of(environ))
            answer = connection.getresponse()
        except (OSError, http.client.HTTPException) as error:
            connection.close()
            log.warning("the office doesn't answer: %s", error or type(error).__name__)
            start_response("503 Service Unavailable", [("Content-Type", "text/plain"), ("Retry-After", "5")])
            return [NO_OFFICE]
        fields = [(name, value) for name, value in answer.getheaders() if name.lower() not in OF_CONNECTION]
        start_response(f"{answer.status} {answer.reason}", fields)
        return pieces_of(connection, answer)


class PageConnections:
    """A WSGI application of the office: each request has the address of who has sent it to a process that makes
    pages."""

    def __init__(self, app: WSGIApplication) -> None:
        self.app = app

    def __call__(self, environ: WSGIEnvironment, start_response: StartResponse) -> Iterable[bytes]:
        """Answers a request."""
        environ["REMOTE_ADDR"] = environ.pop(KEY_OF_CLIENT, "")
        return self.app(environ, start_response)
