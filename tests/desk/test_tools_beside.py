"""The tools that read a store while its desk runs: they get a copy from the desk, as it is at one moment."""
from __future__ import annotations

import os
import shutil
import subprocess
from collections.abc import Iterator
from pathlib import Path

import pytest
from processes import ROOT
from thesaurus_desk.store.plan_execution import Desk
from thesaurus_desk.store.snapshot import SnapshotServer
from thesaurus_tools.desk_socket import folder_of
from thesaurus_tools.values import set_request

CALLS: dict[str, list[str]] = {
    "report": ["tops"],
    "to-rdf": ["--types"],
    "to-marc": ["--lang", "en"],
    "to-table": ["--columns", "number,pref@en,alt@de,broader,records"],
    "to-print": ["--scheme", "1", "--lang", "en"],
    "to-zthes": ["--langs", "de,en"],
    "to-iso25964": [],
    "repost": ["--posting", "1", "--to", "7"],
}


@pytest.fixture
def moments(desk: Desk) -> Iterator[SnapshotServer]:
    """The socket of a desk."""
    assert desk.perform("anna", "post", [{"do": "post", "key": "k-1", "record": "Violin 1700", "concept": 5}]).is_done
    server = SnapshotServer(desk, None)
    yield server
    server.end()


def tool(name: str, *words: object, program: str) -> subprocess.CompletedProcess[str]:
    """Runs a tool."""
    call = [ROOT / "tools" / name, *words, *(["--program", program] if name == "to-rdf" else [])]
    environment = {**os.environ, "SOURCE_DATE_EPOCH": "1700000000"}
    return subprocess.run(list(map(str, call)), capture_output=True, text=True, check=False, env=environment)


@pytest.mark.usefixtures("moments")
@pytest.mark.parametrize("name", CALLS)
def test_a_tool_beside_a_desk(name: str, desk: Desk, program: str, tmp_path: Path) -> None:
    """It writes what it would write of the store when no desk runs, and the desk goes on."""
    refused = tool(name, "--db", desk.db, *CALLS[name], program=program)
    assert refused.returncode == 3 and "another program has it open" in refused.stderr
    given = tool(name, "--desk", desk.db, *CALLS[name], program=program)
    assert given.returncode == 0 and given.stdout, given.stderr
    label = {"do": "addLabel", "owner": 5, "kind": "alt", "tag": "en", "text": "Fiddles of old"}
    copy = tmp_path / "copy.db"
    desk.copies.copy_to(copy)
    assert given.stdout == tool(name, "--db", copy, *CALLS[name], program=program).stdout
    assert desk.perform("anna", "add_term", [label]).is_done


@pytest.mark.usefixtures("moments")
@pytest.mark.parametrize("name", ["to-rdf", "to-marc"])
def test_what_the_desk_keeps_beside(name: str, desk: Desk, program: str) -> None:
    """A tool has the values of fields, and no candidates."""
    requests = [
        set_request(5, "definition", "en", new="A bowed instrument"),
        set_request(6, "status", "", new="candidate"),
    ]
    before = tool(name, "--desk", desk.db, *CALLS[name], program=program).stdout
    assert desk.perform("anna", "try", requests).is_done
    given = tool(name, "--desk", desk.db, *CALLS[name], program=program)
    term = desk.replica.term(6, ["en"])[1]
    assert given.returncode == 0 and "A bowed instrument" in given.stdout, given.stderr
    assert term in before and term not in given.stdout


@pytest.mark.usefixtures("moments")
def test_the_types_of_a_site(desk: Desk, tmp_path: Path) -> None:
    export, out = tmp_path / "museum.nt", tmp_path / "public"
    export.write_bytes(desk.copies.run("export"))
    ran = tool("site", export, out, "--langs", "en", "--desk", desk.db, program="")
    assert ran.returncode == 0 and "isn't as it was exported" not in ran.stderr, ran.stderr
    assert "generic" in "".join(it.read_text(encoding="utf-8") for it in out.rglob("*.html")).lower()


def test_without_a_desk(store: Path, program: str) -> None:
    """The tool reads the store itself."""
    ran = tool("report", "--desk", store, "tops", program=program)
    assert ran.returncode == 0 and ran.stdout == tool("report", "--db", store, "tops", program=program).stdout


def test_a_desk_that_was_killed(store: Path, program: str) -> None:
    """Its socket is left, and nobody answers there: the tool reads the store."""
    folder_of(store).mkdir()
    (folder_of(store) / "socket").touch()
    assert tool("report", "--desk", store, "tops", program=program).returncode == 0
    shutil.rmtree(folder_of(store))


def test_a_busy_desk(desk: Desk, moments: SnapshotServer, monkeypatch: pytest.MonkeyPatch, program: str) -> None:
    monkeypatch.setattr("thesaurus_desk.store.open_store.WAIT_FOR_PLAN", 0.1)
    with desk.alone():
        ran = tool("report", "--desk", desk.db, "tops", program=program)
    assert ran.returncode == 1 and "something long is under way" in ran.stderr and "Traceback" not in ran.stderr
