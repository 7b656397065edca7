"""Runs an nginx in front of the program with the file of share/, its places changed to those of a test, and asks it."""
from __future__ import annotations

import base64
import contextlib
import http.client
import socket
import ssl
import subprocess
import time
from collections.abc import Iterator
from pathlib import Path

from ports import free_port
from program import ROOT

CONFIGURATION = ROOT / "share" / "nginx.conf"
HOST = "thesaurus.example"
READER, EDITOR = ("rita", "a reader"), ("anna", "an editor's")


# A status, a body, and the fields of an answer.
Answer = tuple[int, bytes, dict[str, str]]


class Site:
    """The nginx of a test: its ports, and how it is asked."""

    def __init__(self, room: Path, upstream: int, host: str) -> None:
        self.room, self.upstream, self.host, self.tls, self.plain = room, upstream, host, free_port(), free_port()
        self.trust = ssl.create_default_context(cafile=room / "tls.crt")

    def ask(
        self,
        method: str,
        path: str,
        body: bytes | str | None = None,
        *,
        user: tuple[str, str] | None = None,
        host: str = HOST,
        name: str = HOST,
        **fields: str,
    ) -> Answer:
        """Asks by TLS under a name, as a client of a host. Returns the status, the body and the fields of the
        answer."""
        with socket.create_connection(("127.0.0.1", self.tls), timeout=120) as plain, self.trust.wrap_socket(
            plain, server_hostname=name
        ) as connection:
            return self.speak(connection, method, path, body, user, host, fields)

    def ask_plainly(self, path: str, host: str) -> Answer:
        with socket.create_connection(("127.0.0.1", self.plain), timeout=120) as connection:
            return self.speak(connection, "GET", path, None, None, host, {})

    def speak(
        self,
        connection: socket.socket,
        method: str,
        path: str,
        body: bytes | str | None,
        user: tuple[str, str] | None,
        host: str,
        fields: dict[str, str],
    ) -> Answer:
        client = http.client.HTTPConnection(host)
        client.sock = connection
        if user:
            fields["Authorization"] = "Basic " + base64.b64encode(":".join(user).encode()).decode()
        client.request(
            method, path, body, {"Host": host, **{it.replace("_", "-"): value for it, value in fields.items()}}
        )
        answer = client.getresponse()
        return answer.status, answer.read(), dict(answer.getheaders())


def hashed(word: str) -> str:
    """A password as nginx compares it."""
    ran = subprocess.run(["openssl", "passwd", "-apr1", word], capture_output=True, text=True, check=True)
    return ran.stdout


def make_secrets(room: Path) -> None:
    """Makes a certificate, and the two files of passwords."""
    subprocess.run(
        [
            "openssl",
            "req",
            "-x509",
            "-newkey",
            "ec",
            "-pkeyopt",
            "ec_paramgen_curve:prime256v1",
            "-nodes",
            "-days",
            "2",
            "-subj",
            f"/CN={HOST}",
            "-addext",
            f"subjectAltName=DNS:{HOST},DNS:other.example,DNS:localhost",
            "-keyout",
            room / "tls.key",
            "-out",
            room / "tls.crt",
        ],
        capture_output=True,
        check=True,
    )
    lines = {name: f"{name}:{hashed(word)}" for name, word in (READER, EDITOR)}
    (room / "readers").write_text("".join(lines.values()), encoding="utf-8")
    (room / "editors").write_text(lines[EDITOR[0]], encoding="utf-8")


def configuration(site: Site) -> str:
    """The file of share/ with the places of this test, in a configuration of nginx."""
    text = CONFIGURATION.read_text(encoding="utf-8")
    for old, new in {
        HOST: site.host,
        "127.0.0.1:8080": f"127.0.0.1:{site.upstream}",
        "listen 443": f"listen 127.0.0.1:{site.tls}",
        "listen 80": f"listen 127.0.0.1:{site.plain}",
        "/etc/thesaurus/": f"{site.room}/",
        "/var/lib/thesaurus-site/": f"{site.room}/public/",
    }.items():
        assert old in text, old
        text = text.replace(old, new)
    # (without root's rights nginx ignores `user`)
    return (
        f"user root;\ndaemon off;\npid {site.room}/nginx.pid;\nerror_log {site.room}/error.log;\nevents "
        f"{{}}\nhttp {{\naccess_log off;\ninclude /etc/nginx/mime.types;\n{temporary(site.room)}{text}}}\n"
    )


def temporary(room: Path) -> str:
    return "".join(f"{it}_temp_path {room}/{it};\n" for it in ("client_body", "proxy", "fastcgi", "uwsgi", "scgi"))


@contextlib.contextmanager
def fronted(room: Path, upstream: int, host: str = HOST) -> Iterator[Site]:
    """Runs nginx in front of a port, as the server of a host."""
    make_secrets(room)
    site = Site(room, upstream, host)
    with nginx_of(site, configuration(site)):
        yield site


@contextlib.contextmanager
def nginx_of(site: Site, text: str) -> Iterator[None]:
    """Runs the nginx of a site with a configuration, from when it listens to the end of the block."""
    room = site.room
    (room / "nginx.conf").write_text(text, encoding="utf-8")
    words = ["nginx", "-e", str(room / "error.log"), "-p", str(room), "-c", str(room / "nginx.conf")]
    tested = subprocess.run([*words, "-t"], capture_output=True, text=True, check=False)
    assert tested.returncode == 0, tested.stderr
    with subprocess.Popen(words, stderr=subprocess.DEVNULL) as nginx:
        try:
            end = time.monotonic() + 180
            while socket.socket().connect_ex(("127.0.0.1", site.tls)):
                assert time.monotonic() < end, (room / "error.log").read_text(encoding="utf-8")
                time.sleep(0.1)
            yield
        finally:
            nginx.terminate()
