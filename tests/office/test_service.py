"""What share/ has for a service: the systemd unit, by systemd's own checks, and the nginx file, by an nginx on this
machine in front of the program: readers and editors, other sites, other hosts, large bodies, slow clients."""
from __future__ import annotations

import base64
import contextlib
import http.client
import json
import re
import socket
import sqlite3
import ssl
import subprocess
import sys
import threading
import time
from collections.abc import Iterator
from pathlib import Path
from typing import Any, NamedTuple

import pytest
import unit_filter
from fronting import EDITOR, HOST, READER, Answer, Site, fronted
from ports import free_port
from program import ROOT, built, lines_of, over
from serving import serving

UNIT = ROOT / "share" / "thesaurus@.service"
SCHEME = {"do": "scheme", "tag": "en", "text": "Animals"}
# systemd's measure of what a service may do, from 0 to 10.
MOST_EXPOSED = 1.5
CONNECTIONS = 1000
# A call that the unit forbids, and what the program is asked under the unit's filter.
FORBIDDEN = "import os, sys\ntry: os.chroot('/')\nexcept OSError as error: sys.exit(print(error, file=sys.stderr))"
SERVE = ("serve", "--plans")
FILTERED = (
    ("POST", "/requests", json.dumps(SCHEME)),
    ("POST", "/plans", json.dumps([SCHEME])),
    ("POST", "/import", "key,record,concept\n"),
    ("GET", "/export", None),
)
has_filters = pytest.mark.skipif(not unit_filter.has_library(), reason="skipped without libseccomp")


# --- the unit ---


@pytest.fixture
def unit(room: Path) -> Path:
    """The unit with the built program."""
    path = room / UNIT.name
    text = UNIT.read_text(encoding="utf-8").replace("/usr/local/bin/thesaurus", str(built()))
    path.write_text(text, encoding="utf-8")
    return path


@pytest.mark.needs("systemd-analyze")
def test_systemd_finds_nothing_in_the_unit(unit: Path) -> None:
    words: list[str | Path] = ["systemd-analyze", "verify", "--man=no", unit]
    ran = subprocess.run(words, capture_output=True, text=True, check=False)
    assert not [it for it in ran.stderr.splitlines() if unit.stem in it]


@pytest.mark.needs("systemd-analyze")
def test_unit_is_hardly_exposed(unit: Path) -> None:
    words: list[str | Path] = ["systemd-analyze", "security", "--offline=true", "--no-pager", unit]
    ran = subprocess.run(words, capture_output=True, text=True, check=False)
    level = re.search(r"Overall exposure level for \S+: ([0-9.]+)", ran.stdout)
    assert level and float(level[1]) <= MOST_EXPOSED


@pytest.fixture
def restored(room: Path) -> Path:
    """A store of one file, as `sqlite3 .backup` restores one."""
    source, path = room / "source.db", room / "restored.db"
    over(source, "script", lines_of([SCHEME]))
    with contextlib.closing(sqlite3.connect(source)) as given, contextlib.closing(sqlite3.connect(path)) as taken:
        given.backup(taken)
    return path


def ask(port: int, method: str, path: str, body: str | None = None) -> int:
    """Asks the program, and returns the status."""
    client = http.client.HTTPConnection("127.0.0.1", port, timeout=60)
    client.request(method, path, body)
    return client.getresponse().status


@pytest.mark.needs("systemd-analyze", "strace")
@pytest.mark.parametrize("command", ["check", "serve"])
def test_unit_allows_the_calls_of_the_program(command: str, restored: Path, room: Path) -> None:
    trace, port = room / "trace", free_port()
    words = [command] if command == "check" else [*SERVE, "--port", str(port), "--count", "1"]
    call = ["strace", "-f", "-o", trace, built(), "--db", restored, *words]
    with subprocess.Popen(call, stdout=subprocess.PIPE) as traced:
        if command == "serve":
            assert traced.stdout
            traced.stdout.readline()
            ask(port, "GET", "/totals")
        traced.communicate()
    # (execve is systemd's own; a wrapper of the program may start it)
    text = trace.read_text(encoding="utf-8", errors="replace")
    called = set(re.findall(r"^\d+ +(\w+)\(", text, re.M)) - {"execve"}
    assert not called - unit_filter.allowed_calls(UNIT)
    assert command == "check" or called & {"fsync", "bind"}, "too few calls were seen"


@pytest.mark.needs("systemd-analyze")
@has_filters
def test_filter_forbids_a_call() -> None:
    call: list[str | Path] = [sys.executable, unit_filter.__file__, UNIT, sys.executable, "-c", FORBIDDEN]
    ran = subprocess.run(call, capture_output=True, text=True, check=False)
    assert not ran.returncode and "Operation not permitted" in ran.stderr, ran


@pytest.mark.needs("systemd-analyze")
@has_filters
@pytest.mark.parametrize("command", ["check", "serve"])
def test_program_works_under_the_filter(command: str, restored: Path) -> None:
    """The filter is applied as systemd would."""
    port, sizes = free_port(), over(restored, "check").out
    Path(f"{restored}-wal").unlink(missing_ok=True)
    words = [command] if command == "check" else [*SERVE, "--port", str(port), "--count", str(len(FILTERED))]
    call = [sys.executable, unit_filter.__file__, UNIT, built(), "--db", restored, *words]
    with subprocess.Popen(call, stdout=subprocess.PIPE, stderr=subprocess.PIPE) as program:
        assert program.stdout
        said = program.stdout.readline()
        if said.startswith(b"listening"):
            assert [ask(port, *it) for it in FILTERED] == [200] * len(FILTERED)
        errors = program.communicate()[1]
    wanted = sizes if command == "check" else f"listening on 127.0.0.1:{port}\n".encode()
    assert (program.returncode, said) == (0, wanted), errors


def test_unit_passes_its_limits_on(restored: Path) -> None:
    """Those of the line LIMITS in its file of settings."""
    (line,) = re.findall(r"^ExecStart=\S+ (.*)$", UNIT.read_text(encoding="utf-8"), re.M)
    port = free_port()
    settings = {"/var/lib/thesaurus/%i.db": restored, "$LIMITS": "--max-resources 2", "${PORT}": port}
    for name, value in settings.items():
        assert name in line
        line = line.replace(name, str(value))
    with subprocess.Popen([built(), *line.split()], stdout=subprocess.PIPE) as program:
        assert program.stdout and program.stdout.readline() == f"listening on 127.0.0.1:{port}\n".encode()
        answers = []
        for _ in range(2):
            client = http.client.HTTPConnection("127.0.0.1", port, timeout=60)
            client.request("POST", "/requests", json.dumps(SCHEME))
            answers.append(client.getresponse().read())
        program.kill()
    assert answers == [b'{"ok":2}\n', b'{"no":"TooMany"}\n']


# --- nginx ---

needs_nginx = pytest.mark.needs("nginx", "openssl")
CHANGE, PLAN, POSTINGS = json.dumps(SCHEME), json.dumps([SCHEME, SCHEME]), "key,record,concept\n"
OWN, OTHER = f"https://{HOST}", "https://evil.example"
FORM = {"Origin": OTHER, "Content_Type": "text/plain"}
READS: dict[str, Any] = {"user": READER}
EDITS: dict[str, Any] = {"user": EDITOR}
Asked = tuple[str, str, Any, dict[str, Any], int, bytes]
# Requests: method, path, body, and how they are asked; the status that is wanted, and a part of the answer. (PORT is
# nginx's; a body that is a list is sent in pieces.)
ASKED: dict[str, Asked] = {
    "no password": ("GET", "/totals", None, {}, 401, b""),
    "a wrong password": ("GET", "/totals", None, {"user": ("rita", "wrong")}, 401, b""),
    "an unknown name": ("GET", "/totals", None, {"user": ("nobody", "x")}, 401, b""),
    "a reader who reads": ("GET", "/totals", None, READS, 200, b'"accepted":0'),
    "a reader who changes": ("POST", "/requests", CHANGE, READS, 401, b""),
    "a change without a password": ("POST", "/requests", CHANGE, {}, 401, b""),
    "a change of another site": ("POST", "/requests", CHANGE, {**EDITS, "Origin": OTHER}, 403, b""),
    "a change of no site": ("POST", "/requests", CHANGE, {**EDITS, "Origin": "null"}, 403, b""),
    "a change by http": ("POST", "/requests", CHANGE, {**EDITS, "Origin": f"http://{HOST}"}, 403, b""),
    "a change of another site, as a form sends it": ("POST", "/requests", CHANGE, {**EDITS, **FORM}, 403, b""),
    "an import of another site": ("POST", "/import", POSTINGS, {**EDITS, **FORM}, 403, b""),
    "another host, by its field": ("POST", "/requests", CHANGE, {**EDITS, "host": "evil.example"}, 421, b""),
    "a read for another host": ("GET", "/export", None, {**READS, "host": "evil.example"}, 421, b""),
    "a read for another host at the port": ("GET", "/export", None, {**READS, "host": "evil.example:PORT"}, 421, b""),
    "a read for an address": ("GET", "/export", None, {**READS, "host": "127.0.0.1"}, 421, b""),
    "the site for another host": ("GET", "/site/", None, {"host": "evil.example"}, 421, b""),
    "an editor's first change": ("POST", "/requests", CHANGE, EDITS, 200, b'{"ok":1}'),
    "an editor's change by a page of this site": (
        "POST",
        "/requests",
        CHANGE,
        {**EDITS, "Origin": OWN},
        200,
        b'{"ok":2}',
    ),
    "an editor who reads": ("GET", "/export", None, EDITS, 200, b"Animals"),
    "a read of another site": ("GET", "/totals", None, {**READS, "Origin": OTHER}, 403, b""),
    "a refusal of the program": ("POST", "/requests", '{"do":"fly"}', EDITS, 400, b"BadShape"),
    "another method": ("DELETE", "/totals", None, EDITS, 405, b"BadMethod"),
    "another method of a reader": ("DELETE", "/totals", None, READS, 401, b""),
    "a long head": ("GET", "/totals", None, {**READS, **{f"X_{n}": "x" * 100 for n in range(60)}}, 200, b"accepted"),
    "a body in pieces": ("POST", "/requests", [CHANGE.encode()], EDITS, 200, b'{"ok":3}'),
    "an editor's plan": ("POST", "/plans", PLAN, EDITS, 200, b'{"done":[{"ok":4},{"ok":5}]}'),
    "a reader's plan": ("POST", "/plans", PLAN, READS, 401, b""),
    "a body past nginx's own limit": (
        "POST",
        "/import",
        POSTINGS + "\n" * 1_100_000,
        EDITS,
        200,
        b"row,outcome,number",
    ),
    "a body past the program's limit": (
        "POST",
        "/import",
        b"",
        {**EDITS, "Content_Length": str((1 << 24) + 1)},
        413,
        b"",
    ),
    "the site": ("GET", "/site/", None, {}, 200, b"<h1>"),
    "a file beside the site": ("GET", "/site/../tls.key", None, {}, 401, b""),
}


class Fronted(NamedTuple):
    """The answers to the requests, asked one after another over one store, an nginx in front of the program, and the
    program's port."""

    answers: dict[str, Answer]
    site: Site
    port: int


@pytest.fixture(scope="module")
def front(tmp_path_factory: pytest.TempPathFactory) -> Iterator[Fronted]:
    room = tmp_path_factory.mktemp("nginx")
    (room / "public").mkdir()
    (room / "public" / "index.html").write_text("<h1>Public</h1>", encoding="utf-8")
    with serving(room / "store.db", CONNECTIONS, after=["--plans"]) as served, fronted(room, served.port) as site:
        answers = {}
        for what, (method, path, given_body, how, _, _) in ASKED.items():
            body: Any = iter(given_body) if isinstance(given_body, list) else given_body
            given = {key: it.replace("PORT", str(site.tls)) if key == "host" else it for key, it in how.items()}
            answers[what] = site.ask(method, path, body, **given)
        yield Fronted(answers, site, served.port)


@needs_nginx
@pytest.mark.parametrize("what", ASKED)
def test_request(what: str, front: Fronted) -> None:
    status, body, fields = front.answers[what]
    *_, wanted, part = ASKED[what]
    assert status == wanted and part in body, body[:200]
    assert what != "the site" or "default-src 'none'" in fields.get("Content-Security-Policy", "")


@needs_nginx
def test_plain_http_leads_to_tls(front: Fronted) -> None:
    status, _, fields = front.site.ask_plainly("/totals", HOST)
    assert (status, fields.get("Location")) == (301, f"https://{HOST}/totals")


@needs_nginx
def test_plain_http_to_another_host_is_refused(front: Fronted) -> None:
    assert front.site.ask_plainly("/totals", "evil.example")[0] == 421


@needs_nginx
@pytest.mark.parametrize(
    ("method", "path", "body"),
    [("POST", "/requests", '{"do":"scheme","tag":"en","text":"By a page"}'), ("GET", "/export", None)],
    ids=["a change", "a read"],
)
def test_program_itself_answers_a_page_of_another_site(
    method: str, path: str, body: str | None, front: Fronted
) -> None:
    """SECURITY.md says so; if this changes, change it."""
    client = http.client.HTTPConnection("127.0.0.1", front.port, timeout=60)
    fields = {"Host": "evil.example", "Origin": "https://evil.example", "Content-Type": "text/plain"}
    client.request(method, path, body, fields)
    answer = client.getresponse()
    assert answer.status == 200 and answer.read()


@needs_nginx
def test_another_host_by_tls_is_refused(front: Fronted) -> None:
    with pytest.raises((ssl.SSLError, ConnectionError)):
        front.site.ask("GET", "/totals", user=READER, name="other.example", host="other.example")


@needs_nginx
def test_client_that_is_slow_to_send_holds_up_nobody(front: Fronted) -> None:
    password = base64.b64encode(":".join(EDITOR).encode()).decode()
    head = f"POST /requests HTTP/1.1\r\nHost: {HOST}\r\nAuthorization: Basic {password}\r\nContent-Length: 60\r\n\r\n{{"
    with contextlib.ExitStack() as stack:
        plain = stack.enter_context(socket.create_connection(("127.0.0.1", front.site.tls), timeout=60))
        slow = stack.enter_context(front.site.trust.wrap_socket(plain, server_hostname=HOST))
        slow.sendall(head.encode())
        began = time.monotonic()
        assert front.site.ask("GET", "/totals", user=READER)[0] == 200
        assert time.monotonic() - began <= 40


def large_store(path: Path) -> Path:
    """Makes a store with an export of some 13 megabytes, more than the system keeps for a client that doesn't read."""
    concepts = ({"do": "concept", "scheme": 1, "tag": "en", "text": f"Animal {it}"} for it in range(100))
    over(path, "script", lines_of([SCHEME, *concepts]))
    with contextlib.closing(sqlite3.connect(path)) as tables, tables:
        labels = ((2 + it % 100, f"{it:06} {'x' * 240}") for it in range(40_000))
        tables.executemany("INSERT INTO label VALUES (?, 2, 'en', ?)", labels)
    return path


def begin_to_read(port: int) -> socket.socket:
    """Connects a client that takes little at a time."""
    client = socket.socket()
    client.setsockopt(socket.SOL_SOCKET, socket.SO_RCVBUF, 4096)
    client.settimeout(60)
    client.connect(("127.0.0.1", port))
    return client


@needs_nginx
def test_client_that_is_slow_to_read_holds_up_nobody(tmp_path: Path) -> None:
    """nginx takes the answer whole. Without it the program waits for a client that reads a byte of an export."""
    password = base64.b64encode(":".join(READER).encode()).decode()
    head = f"GET /export HTTP/1.1\r\nHost: {HOST}\r\nAuthorization: Basic {password}\r\n\r\n".encode()
    with serving(large_store(tmp_path / "large.db"), CONNECTIONS) as served:
        with begin_to_read(served.port) as slow:
            slow.sendall(head)
            assert slow.recv(1) == b"H"
            with pytest.raises(TimeoutError):
                served.answer(b"GET /totals HTTP/1.1\r\n\r\n", patience=5)
        with fronted(tmp_path, served.port) as site, begin_to_read(site.tls) as plain:
            with site.trust.wrap_socket(plain, server_hostname=HOST) as slow:
                slow.sendall(head)
                assert slow.recv(1) == b"H"
                began = time.monotonic()
                assert site.ask("GET", "/totals", user=READER)[0] == 200
                assert time.monotonic() - began <= 40


@contextlib.contextmanager
def listening() -> Iterator[tuple[int, list[bytes]]]:
    """Listens in the program's place, and keeps the first head."""
    heard: list[bytes] = []
    with socket.create_server(("127.0.0.1", 0)) as server:

        def answer() -> None:
            client = server.accept()[0]
            heard.append(client.recv(65536))
            client.sendall(b"HTTP/1.1 200 OK\r\nContent-Length: 0\r\nConnection: close\r\n\r\n")
            client.close()

        threading.Thread(target=answer, daemon=True).start()
        yield server.getsockname()[1], heard


@needs_nginx
def test_program_is_sent_no_password_and_no_cookie(tmp_path: Path) -> None:
    with listening() as (port, heard), fronted(tmp_path, port) as site:
        site.ask("GET", "/totals", user=READER, Cookie="secret=1")
    assert b"uthorization" not in heard[0] and b"ookie" not in heard[0]
    assert heard[0].startswith(b"GET /totals HTTP/1.")
