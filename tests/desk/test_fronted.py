"""The desk behind nginx with the file of share/, for real, by raw requests and in Chromium; and the systemd unit."""
from __future__ import annotations

import http.client
import json
import re
import subprocess
from collections.abc import Iterator
from concurrent.futures import ThreadPoolExecutor
from dataclasses import dataclass
from pathlib import Path
from urllib.parse import urlencode

import pytest
from browsing import Browser, browsing
from clients import PASSWORD
from fronted_desk import HOST, ROOT, Site, fronted_desk, secret_file
from processes import DESK, Running, running
from selenium.webdriver.common.keys import Keys
from thesaurus_desk.auth.accounts import Accounts
from thesaurus_desk.auth.roles import Role

pytestmark = [pytest.mark.needs("nginx", "openssl"), pytest.mark.timeout(900)]
ORIGIN = f"https://{HOST}"
# nginx allows eleven attempts to come in at once, and then one a second. The tests together make fewer, before one of
# them tries until it is refused, this often at most.
ATTEMPTS = 300
FORM = {"Content_Type": "application/x-www-form-urlencoded", "Origin": ORIGIN}


@dataclass
class Fronted:
    """A desk behind nginx: both of them, and the store."""

    site: Site
    desk: Running

    def ask(self, method: str, path: str, body: object = None, **fields: str) -> tuple[int, str, dict[str, str]]:
        """Returns the status, the text and the fields of an answer over TLS."""
        status, data, found = self.site.ask(method, path, body, **fields)
        return status, data.decode(errors="replace"), found

    def come_in(self, name: str = "anna", **fields: str) -> str:
        """Returns the cookie of a person who has come in."""
        _, page, found = self.ask("GET", "/login")
        token = re.search(r'name="token" value="(\w+)"', page)
        assert token
        sent = urlencode({"token": token[1], "name": name, "password": PASSWORD})
        cookie = found["Set-Cookie"].partition(";")[0]
        status, text, answer = self.ask("POST", "/login", sent, Cookie=cookie, **{**FORM, **fields})
        assert status == 303, (status, text)
        return answer["Set-Cookie"].partition(";")[0]


def options(program: str, store: Path, users: Path) -> list[object]:
    """Returns the options of a desk behind nginx."""
    words = ["--db", store, "--users", users, "--program", program, "--host", HOST, "--secure"]
    return [*words, "--proxy", secret_file(users.parent)]


@pytest.fixture(scope="module")
def room(tmp_path_factory: pytest.TempPathFactory) -> Path:
    """A folder for one server."""
    return tmp_path_factory.mktemp("fronted")


@pytest.fixture(scope="module")
def fronted(program: str, instruments_store: Path, users_file: Path, room: Path) -> Iterator[Fronted]:
    """A desk behind nginx, to which people come by passwords."""
    store, users = room / "museum.db", room / "users.json"
    store.write_bytes(instruments_store.read_bytes())
    users.write_bytes(users_file.read_bytes())
    with running(*options(program, store, users)) as desk, fronted_desk(room, desk.port) as site:
        yield Fronted(site, desk)


@pytest.fixture(scope="module")
def mine(fronted: Fronted) -> str:
    """The cookie of the head, who has come in once for most tests."""
    return fronted.come_in()


def test_coming_in_over_tls(fronted: Fronted, mine: str) -> None:
    status, page, found = fronted.ask("GET", "/login")
    cookie = found["Set-Cookie"]
    assert status == 200 and cookie.startswith("__Host-desk=") and "; Secure" in cookie and "SameSite=Strict" in cookie
    assert found["Referrer-Policy"] == "same-origin" and "default-src 'none'" in found["Content-Security-Policy"]
    assert "max-age" in found["Strict-Transport-Security"] and "nginx/" not in found.get("Server", "")
    assert "anna" in fronted.ask("GET", "/me", Cookie=mine)[1]
    status, _, found = fronted.ask("GET", "/az")
    assert status == 303 and found["Location"] == "/login?next=%2Faz"


def test_others_are_refused(fronted: Fronted, mine: str) -> None:
    page = fronted.ask("GET", "/users", Cookie=mine)[1]
    token = re.search(r'name="token" value="(\w+)"', page)
    assert token
    sent = urlencode({"token": token[1], "do": "add", "name": "new", "role": "reader", "password": PASSWORD})
    for origin in ("https://evil.example", "null", f"http://{HOST}", f"https://{HOST}:8443"):
        assert fronted.ask("POST", "/users", sent, Cookie=mine, **{**FORM, "Origin": origin})[0] == 403, origin
    assert fronted.ask("GET", "/az", Cookie=mine, host="evil.example")[0] == 421
    assert fronted.site.ask_plainly("/az", HOST)[0] == 301
    assert fronted.site.ask_plainly("/az", "evil.example")[0] == 421
    assert fronted.desk.ask("GET", "/az", Host=HOST, Cookie=mine)[0] == 421, "the desk asks for the secret"
    assert fronted.desk.ask("GET", "/az", Host=HOST, Cookie=mine, X_Desk_Proxy="x" * 32)[0] == 421
    assert fronted.ask("POST", "/users", sent, Cookie=mine, **FORM)[0] == 303
    assert fronted.ask("GET", "/az", Cookie=mine, X_Desk_Proxy="x", X_Remote_User="ben")[0] == 200


def test_the_address_is_the_browser_s(fronted: Fronted, mine: str) -> None:
    fronted.come_in(X_Real_IP="203.0.113.7", X_Forwarded_For="203.0.113.7")
    page = fronted.ask("GET", "/users", Cookie=mine)[1]
    assert "127.0.0.1" in page and "203.0.113.7" not in page


def test_bodies(fronted: Fronted, mine: str) -> None:
    assert fronted.ask("POST", "/users", b"x" * (2 << 20), Cookie=mine, **FORM)[0] == 413
    assert fronted.ask("POST", "/users", b"", Cookie=mine, Content_Length=str(18 << 20), **FORM)[0] == 413
    assert fronted.ask("GET", "/search?q=" + "x" * 6000, Cookie=mine)[0] == 200
    assert fronted.ask("GET", "/az", Cookie=mine)[0] == 200


@pytest.mark.needs("chromium", "chromedriver", "selenium")
def test_in_a_browser(fronted: Fronted) -> None:
    rules = f"--host-resolver-rules=MAP {HOST}:443 127.0.0.1:{fronted.site.tls}"
    with browsing(ORIGIN, words=(rules, "--ignore-certificate-errors")) as browser:
        browser.go("/az?letter=v")
        come_in(browser, "anna")
        assert browser.driver.current_url == f"{ORIGIN}/az?letter=v"
        browser.go("/me")
        for field, value in (("old", "wrong"), ("new", "a new one, long"), ("again", "a new one, long")):
            browser.find(f"#password-{field}").send_keys(value)
        browser.sends(lambda: browser.press(Keys.ENTER))
        assert "isn’t your password" in browser.text(".wrong"), "the browser's Origin is that of the desk"
        cookie = browser.driver.get_cookie("__Host-desk")
        assert cookie and cookie["httpOnly"] and cookie["secure"] and cookie["sameSite"] == "Strict"
        assert browser.errors() == []


def come_in(browser: Browser, name: str) -> None:
    """Comes in by a name and a password."""
    browser.find("#login-name").send_keys(name)
    browser.find("#login-password").send_keys(PASSWORD)
    browser.sends(lambda: browser.press(Keys.ENTER))


def test_addresses_for_other_programs(fronted: Fronted, mine: str) -> None:
    status, text, _ = fronted.ask("GET", "/reconcile", Cookie=mine)
    assert status == 200 and f'"service_url": "{ORIGIN}"' in json.dumps(json.loads(text))
    assert "http://" not in text.replace(json.loads(text)["schemaSpace"], "")


def test_many_attempts_to_come_in(fronted: Fronted) -> None:
    statuses = (fronted.ask("GET", "/login")[0] for _ in range(ATTEMPTS))
    assert next((it for it in statuses if it != 200), None) == 429
    assert fronted.ask("GET", "/keys")[0] == 303


def test_what_takes_long_is_bounded(fronted: Fronted, mine: str) -> None:
    """Searches, displays and what other programs ask; other pages go on."""
    with ThreadPoolExecutor(24) as threads:
        statuses = set(threads.map(lambda _: fronted.ask("GET", "/print/1", Cookie=mine)[0], range(240)))
    assert statuses == {200, 429}
    assert fronted.ask("GET", "/az", Cookie=mine)[0] == 200


def test_names_of_nginx(program: str, instruments_store: Path, tmp_path: Path) -> None:
    store, users = tmp_path / "museum.db", tmp_path / "users.json"
    store.write_bytes(instruments_store.read_bytes())
    accounts = Accounts(users)
    accounts.add("anna", Role.HEAD, None)
    token = accounts.make_token("anna")
    words = [*options(program, store, users), "--remote-user"]
    with running(*words) as desk, fronted_desk(tmp_path, desk.port, asks=True) as site:
        reader, editor = ("rita", "a reader"), ("anna", "an editor's")
        assert site.ask("GET", "/me")[0] == 401 and site.ask("GET", "/me", user=("anna", "wrong"))[0] == 401
        assert b"anna" in site.ask("GET", "/me", user=editor)[1]
        assert site.ask("GET", "/me", user=reader)[0] == 303, "a name that the users' file doesn't have"
        assert site.ask("GET", "/login", user=reader, X_Remote_User="anna")[0] == 403
        assert site.ask("GET", "/users", user=reader, X_Remote_User="anna")[0] == 303
        assert site.ask("GET", "/users", user=editor)[0] == 200
        assert site.ask("GET", "/healthz")[0] == 200, "a monitor has no password"
        assert site.ask("GET", "/api/schemes", Authorization=f"Bearer {token}")[0] == 200, "nor has a program"
        assert site.ask("GET", "/me", Authorization=f"Bearer {token}")[0] == 401
        for user in (None, ("anna", "wrong"), editor):
            status, _, found = site.ask("GET", "/api/schemes", user=user)
            assert status == 401 and "Bearer" in found.values(), "a name opens nothing there"


# --- the unit ---

UNIT = ROOT / "share" / "thesaurus-desk@.service"
MOST_EXPOSED = 1.5


@pytest.mark.needs("systemd-analyze")
def test_the_unit(tmp_path: Path) -> None:
    unit = tmp_path / UNIT.name
    text = UNIT.read_text(encoding="utf-8").replace("/usr/local/bin/thesaurus-desk", str(DESK))
    unit.write_text(text, encoding="utf-8")
    words = ["systemd-analyze", "verify", "--man=no", str(unit)]
    verified = subprocess.run(words, capture_output=True, text=True, check=False)
    assert [it for it in verified.stderr.splitlines() if unit.stem in it] == []
    words = ["systemd-analyze", "security", "--offline=true", "--no-pager", str(unit)]
    rated = subprocess.run(words, capture_output=True, text=True, check=False)
    level = re.search(r"exposure level for \S+: ([0-9.]+)", rated.stdout)
    assert level and float(level[1]) <= MOST_EXPOSED, level


def calls_of(name: str) -> set[str]:
    """Returns the system calls of a set, and of the sets in it."""
    words = ["systemd-analyze", "syscall-filter", "--no-pager", name]
    listed = subprocess.run(words, capture_output=True, text=True, check=True).stdout
    found = set(re.findall(r"^ {4}(@?[\w-]+)$", listed, re.M))
    return {it for it in found if it[0] != "@"}.union(*(calls_of(it) for it in found if it[0] == "@"))


def calls_allowed() -> set[str]:
    """Returns the system calls that the unit allows."""
    allowed: set[str] = set()
    for sign, names in re.findall(r"^SystemCallFilter=(~?)(.*)$", UNIT.read_text(encoding="utf-8"), re.M):
        named = set().union(*(calls_of(it) if it[0] == "@" else {it} for it in names.split()))
        allowed = allowed - named if sign else allowed | named
    return allowed


@pytest.mark.needs("systemd-analyze", "strace")
def test_the_unit_allows_what_the_desk_calls(program: str, store: Path, users: Path, tmp_path: Path) -> None:
    trace = tmp_path / "trace"
    words = ["strace", "-f", "-qq", "-o", trace, DESK, *options(program, store, users), "--no-browser"]
    with subprocess.Popen(list(map(str, words)), stdout=subprocess.PIPE, text=True) as traced:
        assert traced.stdout
        port = int(traced.stdout.readline().rpartition(":")[2].strip("/\n"))
        client = http.client.HTTPConnection("127.0.0.1", port, timeout=120)
        secret = secret_file(tmp_path).read_text(encoding="utf-8").strip()
        client.request("GET", "/login", headers={"Host": HOST, "X-Desk-Proxy": secret})
        assert client.getresponse().status == 200
        subprocess.run(["kill", trace.read_text(encoding="utf-8", errors="replace").split()[0]], check=True)
        traced.wait(120)
    called = set(re.findall(r"^\d+ +(\w+)\(", trace.read_text(encoding="utf-8", errors="replace"), re.M))
    assert {"bind", "listen", "execve"} <= called
    # (execve is also systemd's own; fchown and lchown are called only for root, as which a test may run)
    assert called - {"execve", "fchown", "lchown"} - calls_allowed() == set()
