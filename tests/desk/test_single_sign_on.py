"""The desk behind Apache with the file of share/, which asks a stand-in for the provider of OpenID Connect."""
from __future__ import annotations

import base64
import hashlib
import hmac
import http.client
import json
import shutil
import subprocess
import threading
import time
from collections.abc import Iterator
from contextlib import closing, contextmanager
from dataclasses import dataclass, field
from http.server import BaseHTTPRequestHandler, ThreadingHTTPServer
from pathlib import Path
from typing import Any
from urllib.parse import parse_qs, urlencode, urlsplit, urlunsplit

import pytest
from fronted_desk import HOST, ROOT, SECRET, Site, free_port, secret_file
from fronting import make_secrets
from processes import running
from thesaurus_desk.auth.accounts import Accounts

APACHE = shutil.which("apache2") or "/usr/sbin/apache2"
MODULES = Path(APACHE).resolve().parents[1] / "lib" / "apache2" / "modules"
NAMES = "mpm_event authn_core authz_core authz_user env headers proxy proxy_http ssl auth_openidc"
# What a browser asks for; who asks otherwise isn't sent to the provider.
PAGE = {"Accept": "text/html"}
CLIENT, CLIENT_SECRET = "thesaurus-desk", "the secret of the provider and this server"
pytestmark = [
    pytest.mark.needs("apache2", "openssl"),
    pytest.mark.skipif(not (MODULES / "mod_auth_openidc.so").exists(), reason="there is no mod_auth_openidc"),
]


@dataclass
class Provider:
    """A provider at which one person is at home, with groups."""

    name: str = "zoe"
    groups: list[str] = field(default_factory=lambda: ["all"])
    nonce: str = ""
    port: int = field(default_factory=free_port)

    @property
    def address(self) -> str:
        return f"http://127.0.0.1:{self.port}"

    def metadata(self) -> dict[str, Any]:
        """Returns what it says of itself."""
        paths = {"authorization_endpoint": "/authorize", "token_endpoint": "/token", "jwks_uri": "/keys"}
        more = {"response_types_supported": ["code"], "id_token_signing_alg_values_supported": ["HS256"]}
        return {"issuer": self.address, **{it: self.address + path for it, path in paths.items()}, **more}

    def tokens(self) -> dict[str, Any]:
        """Returns what it sends for a code: who has come in, signed by the secret."""
        now = int(time.time())
        claims = {"iss": self.address, "sub": self.name, "aud": CLIENT, "iat": now, "exp": now + 600}
        claims |= {"nonce": self.nonce, "preferred_username": self.name, "groups": self.groups}
        signed = ".".join(encoded(json.dumps(it).encode()) for it in ({"alg": "HS256", "typ": "JWT"}, claims))
        signature = encoded(hmac.new(CLIENT_SECRET.encode(), signed.encode(), hashlib.sha256).digest())
        return {"access_token": "x", "token_type": "Bearer", "expires_in": 600, "id_token": f"{signed}.{signature}"}

    def answer(self, path: str) -> tuple[int, Any, str]:
        """Returns the status, the answer and the place to which a browser is led."""
        given = {name: its[0] for name, its in parse_qs(urlsplit(path).query).items()}
        if path.startswith("/authorize"):
            self.nonce = given["nonce"]
            return 302, {}, f"{given['redirect_uri']}?{urlencode({'code': 'c', 'state': given['state']})}"
        known = {"/token": self.tokens, "/keys": lambda: {"keys": []}}
        return 200, known.get(path, self.metadata)(), ""


def encoded(data: bytes) -> str:
    return base64.urlsafe_b64encode(data).rstrip(b"=").decode()


@contextmanager
def serving(provider: Provider) -> Iterator[None]:
    """Answers for a provider."""

    class Handler(BaseHTTPRequestHandler):
        def do_GET(self) -> None:
            self.rfile.read(int(self.headers.get("Content-Length", 0)))
            status, answer, place = provider.answer(self.path)
            data = json.dumps(answer).encode()
            self.send_response(status)
            for name, value in (("Content-Type", "application/json"), ("Location", place)):
                self.send_header(name, value)
            self.send_header("Content-Length", str(len(data)))
            self.end_headers()
            self.wfile.write(data)

        do_POST = do_GET

        def log_message(self, format: str, *args: Any) -> None:
            """Says nothing."""

    with ThreadingHTTPServer(("127.0.0.1", provider.port), Handler) as server:
        threading.Thread(target=server.serve_forever, daemon=True).start()
        yield
        server.shutdown()


def configuration(site: Site, provider: Provider) -> str:
    """Returns the file of share/ with the places of this test, in a configuration of Apache."""
    text = (ROOT / "share" / "apache-desk.conf").read_text(encoding="utf-8")
    places = {
        "*:443": f"127.0.0.1:{site.tls}",
        "desk.example": HOST,
        "https://login.example": provider.address,
        "127.0.0.1:8090": f"127.0.0.1:{site.upstream}",
        "/etc/thesaurus/": f"{site.room}/",
    }
    for old, new in places.items():
        assert old in text, old
        text = text.replace(old, new)
    loads = "".join(f"LoadModule {it}_module {MODULES}/mod_{it}.so\n" for it in NAMES.split())
    head = f"ServerRoot {site.room}\nPidFile {site.room}/apache.pid\nErrorLog {site.room}/error.log\n"
    return f"{loads}{head}ServerName {HOST}\nUser www-data\nGroup www-data\nListen 127.0.0.1:{site.tls}\n{text}"


@contextmanager
def apache_of(site: Site, provider: Provider) -> Iterator[None]:
    """Runs Apache until the end of the block."""
    room = site.room
    (room / "desk-secret-apache.conf").write_text(f"RequestHeader set X-Desk-Proxy {SECRET}\n", encoding="utf-8")
    lines = f'OIDCClientSecret "{CLIENT_SECRET}"\nOIDCCryptoPassphrase "of this test"\n'
    (room / "desk-openid.conf").write_text(lines, encoding="utf-8")
    (room / "apache.conf").write_text(configuration(site, provider), encoding="utf-8")
    words = [APACHE, "-f", str(room / "apache.conf"), "-D", "FOREGROUND"]
    with subprocess.Popen(words, stderr=subprocess.PIPE, text=True) as process:
        try:
            for _ in range(100):
                if process.poll() is not None or is_listening(site.tls):
                    break
                time.sleep(0.1)
            assert process.poll() is None, process.stderr and process.stderr.read()
            yield
        finally:
            process.terminate()


def is_listening(port: int) -> bool:
    with closing(http.client.HTTPConnection("127.0.0.1", port, timeout=5)) as client:
        try:
            client.connect()
        except OSError:
            return False
        return True


@dataclass
class Browser:
    """A browser that keeps cookies, and follows where it is led."""

    site: Site
    provider: Provider
    cookies: dict[str, str] = field(default_factory=dict)

    def get(self, path: str, **fields: str) -> tuple[int, str]:
        """Returns the status and the text of the page to which a path leads in the end."""
        for _ in range(8):
            kept = "; ".join(f"{name}={value}" for name, value in self.cookies.items())
            status, data, found = self.site.ask("GET", path, **{**PAGE, **fields, "Cookie": kept})
            name, _, value = found.get("Set-Cookie", "").partition(";")[0].partition("=")
            self.cookies |= {name: value} if name else {}
            place = found.get("Location", "")
            if status not in (302, 303):
                break
            if place.startswith(self.provider.address):
                place = self.provider.answer(place.removeprefix(self.provider.address))[2]
            path = urlunsplit(("", "", *urlsplit(place)[2:]))
        return status, data.decode()


@pytest.fixture
def provider() -> Iterator[Provider]:
    found = Provider()
    with serving(found):
        yield found


@pytest.fixture
def fronted(program: str, store: Path, users: Path, provider: Provider, tmp_path: Path) -> Iterator[Site]:
    """A desk behind Apache."""
    make_secrets(tmp_path)
    words = ["--db", store, "--users", users, "--program", program, "--host", HOST, "--secure", "--remote-user"]
    words += ["--proxy", secret_file(tmp_path), "--group", "all=reader", "--group", "Redaktion=editor"]
    with running(*words) as desk:
        site = Site(tmp_path, desk.port, HOST)
        with apache_of(site, provider):
            yield site


def test_groups_of_the_provider(fronted: Site, provider: Provider, users: Path) -> None:
    """Their roles are those of the options; a user of the file has the file's; others don't come in."""
    cases = {
        ("zoe", ("all",)): (200, 403, 403),
        ("zoë", ("other", "Redaktion")): (200, 200, 403),
        ("anna", ()): (200, 200, 200),
        ("nobody", ("other",)): (403, 403, 403),
    }
    for (name, groups), wanted in cases.items():
        provider.name, provider.groups = name, list(groups)
        browser = Browser(fronted, provider)
        assert tuple(browser.get(path)[0] for path in ("/me", "/new", "/users")) == wanted, name
        assert wanted[0] != 200 or name in browser.get("/me")[1]


def test_what_a_browser_sends_itself(fronted: Site, provider: Provider) -> None:
    """It is nobody's name, and no group; and who hasn't come in is sent to the provider."""
    forged = {"X_Remote_User": "anna", "X_Remote_Groups": "Redaktion", "X_Desk_Proxy": SECRET}
    browser = Browser(fronted, provider)
    assert browser.get("/me")[0] == 200
    assert browser.get("/new", **forged)[0] == 403 and browser.get("/users", **forged)[0] == 403
    status, _, found = fronted.ask("GET", "/users", **PAGE, **forged)
    assert status == 302 and found["Location"].startswith(provider.address)


def test_programs_and_monitors(fronted: Site, users: Path) -> None:
    """They aren't sent to the provider, and open nothing else."""
    token = Accounts(users).make_token("ina")
    assert fronted.ask("GET", "/healthz")[0] == 200
    assert fronted.ask("GET", "/api/schemes", Authorization=f"Bearer {token}")[0] == 200
    assert fronted.ask("GET", "/api/schemes", X_Remote_User="anna")[0] == 401
    for fields, status in ((PAGE, 302), ({}, 401)):
        assert fronted.ask("GET", "/me", Authorization=f"Bearer {token}", **fields)[0] == status
