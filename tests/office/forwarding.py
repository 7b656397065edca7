"""A server in front of the program, which passes everything on: behind it nobody sees which store is served."""
from __future__ import annotations

import contextlib
import http.client
import threading
from collections.abc import Iterator
from http.server import BaseHTTPRequestHandler, ThreadingHTTPServer


class Forward(BaseHTTPRequestHandler):
    """Passes a request on to the program, and its answer back."""

    port: int

    def do_GET(self) -> None:
        self.pass_on(None)

    def do_POST(self) -> None:
        self.pass_on(self.rfile.read(int(self.headers["Content-Length"])))

    def pass_on(self, body: bytes | None) -> None:
        program = http.client.HTTPConnection("127.0.0.1", self.port, timeout=60)
        program.request(self.command, self.path, body)
        answer = program.getresponse()
        data = answer.read()
        self.send_response(answer.status)
        self.send_header("Content-Length", str(len(data)))
        self.end_headers()
        self.wfile.write(data)

    def log_message(self, *_: object) -> None:
        pass


@contextlib.contextmanager
def forwarding(port: int) -> Iterator[str]:
    """Passes on to the program at a port until the end of the block, and gives the address for that."""
    with ThreadingHTTPServer(("127.0.0.1", 0), type("Forwarding", (Forward,), {"port": port})) as front:
        threading.Thread(target=front.serve_forever, daemon=True).start()
        try:
            yield f"http://127.0.0.1:{front.server_port}"
        finally:
            front.shutdown()
