"""The desk's commands in docs/OPERATING.md and README.md, as they stand there, with other ports and files."""
from __future__ import annotations

import contextlib
import os
import pty
import re
import shlex
import subprocess
import sys
from pathlib import Path

import pytest
from clients import PASSWORD, Site
from processes import DESK, run_desk, running

ROOT = Path(__file__).resolve().parents[2]


def commands_of(name: str) -> list[list[str]]:
    """Returns the commands of a document that begin with tools/desk, without this word: on lines of their own, or in
    the text."""
    text = (ROOT / name).read_text(encoding="utf-8")
    found = re.findall(r"^ {4}tools/desk (.*)$|`tools/desk (--[^`\n]*)`", text, re.M)
    return [shlex.split(it or other) for it, other in found]


def test_what_the_documents_have() -> None:
    assert [it[:2] for it in commands_of("docs/OPERATING.md")] == [
        ["--db", "museum.db"],
        ["user", "add"],
        ["--db", "museum.db"],
    ]
    assert [it[:2] for it in commands_of("README.md")] == [["--db", "sample.db"]]


@pytest.mark.parametrize("path", ["/reconcile", "/rest/v1/1/data", "/export.nt", "/export.ttl", "/search", "/print/4"])
def test_nginx_bounds_what_takes_long(path: str) -> None:
    """How often, and how many at a time."""
    text = (ROOT / "share/nginx-desk.conf").read_text(encoding="utf-8")
    places = re.findall(r"^    location ~ (\S+) \{\n(.*?)^    \}", text, re.M | re.S)
    (found,) = (rules for pattern, rules in places if re.match(pattern, path))
    assert "limit_req " in found and "limit_conn " in found


def test_the_unit_bounds_memory() -> None:
    assert re.search(r"^MemoryMax=\d+", (ROOT / "share/thesaurus-desk@.service").read_text(encoding="utf-8"), re.M)


def test_sign_ins_are_logged(site: Site, caplog: pytest.LogCaptureFixture) -> None:
    """The page's command finds wrong passwords, and nothing else; no password is logged."""
    (pattern,) = re.findall("--grep '(.*)'", (ROOT / "docs/OPERATING.md").read_text(encoding="utf-8"))
    for password in (PASSWORD, "another password"):
        site.client().post("/login", {"name": "anna", "password": password})
    said = [it.getMessage() for it in caplog.records]
    assert [re.sub("from .*", "from", it) for it in said] == ["sign-in: in: 'anna' from", "sign-in: wrong: 'anna' from"]
    assert [it for it in said if re.search(pattern, it)] == said[1:]


def test_no_password_at_a_terminal(tmp_path: Path) -> None:
    """Ctrl+D at the question ends the command by one line."""
    ours, theirs = pty.openpty()
    words = ["user", "add", "anna", "--role", "head", "--users", tmp_path / "users.json"]
    call = ["setsid", "--ctty", sys.executable, DESK, *words]
    with subprocess.Popen(call, stdin=theirs, stdout=theirs, stderr=theirs) as process:
        os.close(theirs)
        said = os.read(ours, 1000)
        os.write(ours, b"\x04")
        with contextlib.suppress(OSError):
            while more := os.read(ours, 1000):
                said += more
    os.close(ours)
    assert said.decode().splitlines() == ["Password of anna: ", "desk: no password was given"]
    assert process.returncode == 1


@pytest.mark.parametrize("name", ["docs/OPERATING.md", "README.md"])
def test_commands_of_a_document(name: str, store: Path, program: str, tmp_path: Path) -> None:
    """Those that add a user end, the others serve."""
    places = {"museum.db": store, "sample.db": store, "users.json": tmp_path / "users.json", "8090": 0}
    for words in commands_of(name):
        given = [str(places.get(it, it)) for it in words]
        if words[0] == "user":
            short = run_desk(*given, given="too short\n")
            assert short.returncode == 1 and "10" in short.stderr, short
            assert run_desk(*given, given=f"{PASSWORD}\n").returncode == 0
            continue
        with running(*given, "--program", program) as desk:
            assert ("key=" in desk.entrance) == ("--alone" in words)
            assert desk.ask("GET", desk.entrance)[0] in (200, 303)
