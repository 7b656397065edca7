"""A copy of the store that a program on this machine serves: what the tools read of it, and where none can be had."""
from __future__ import annotations

import socket
import subprocess
import tempfile
from pathlib import Path

import pytest
from forwarding import forwarding
from office import generated, tool
from ports import free_port
from program import built, lines_of, over
from serving import serving
from thesaurus_tools.server import Server
from thesaurus_tools.store_copies import copy_served, open_copy_of_served
from thesaurus_tools.store_options import open_file


@pytest.fixture(scope="module")
def store(tmp_path_factory: pytest.TempPathFactory) -> Path:
    """A store, of which the last changes are in its log while it is served."""
    path = tmp_path_factory.mktemp("copying") / "store.db"
    over(path, "script", lines_of(generated(2, 200)[0]))
    return path


def test_the_copy_is_the_store(store: Path) -> None:
    with open_file(store) as closed:
        wanted = set(closed.labels), set(closed.links), list(closed.each_posting()), list(closed.each_move())
    with serving(store, 1_000_000) as served:
        server = Server(f"http://localhost:{served.port}")
        for _ in range(3):
            with open_copy_of_served(server) as copy:
                assert copy and copy.name == server.name
                assert (set(copy.labels), set(copy.links), list(copy.each_posting()), list(copy.each_move())) == wanted
        answer = server.ask({"do": "scheme", "tag": "en", "text": "Later"})
        with open_copy_of_served(server) as copy:
            assert copy and copy.resources[answer["ok"]].kind == "scheme"


def test_nothing_is_left(store: Path, room: Path, monkeypatch: pytest.MonkeyPatch) -> None:
    monkeypatch.setenv("TMPDIR", str(room))
    with serving(store, 1_000_000) as served:
        before = sorted(it.name for it in store.parent.iterdir())
        assert tool("report", "--http", f"http://127.0.0.1:{served.port}", "tops").status == 0
        assert sorted(it.name for it in store.parent.iterdir()) == before
    assert list(room.iterdir()) == []


def test_where_no_copy_can_be_had(store: Path, room: Path) -> None:
    """Behind another server, under a path, with a name and a password, of a store in memory, and where nobody is."""
    words = [built(), "serve", "--count", "9", "--port", str(port := free_port())]
    with serving(store, 1_000_000) as served, forwarding(served.port) as front:
        with subprocess.Popen(words, stdout=subprocess.PIPE) as in_memory:
            assert in_memory.stdout and in_memory.stdout.readline()
            here = f"127.0.0.1:{served.port}"
            urls = (front, f"http://{here}/museum", f"http://anna:secret@{here}", f"http://127.0.0.1:{port}")
            for url in (*urls, f"http://127.0.0.1:{free_port()}"):
                assert copy_served(Server(url), room) is None, url
            in_memory.kill()
    assert list(room.iterdir()) == []


def test_another_server_with_such_a_file_open(store: Path, room: Path) -> None:
    """What answers there isn't the program, though it has a database and its log open."""
    with socket.socket() as server, open(room / "a.db", "wb"), open(room / "a.db-wal", "wb"):
        server.bind(("127.0.0.1", 0))
        server.listen()
        with tempfile.TemporaryDirectory() as folder:
            url = f"http://127.0.0.1:{server.getsockname()[1]}"
            server.settimeout(10)
            assert copy_served(Server(url), Path(folder), patience=0.2) is None
