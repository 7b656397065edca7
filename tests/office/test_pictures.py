"""dev/pictures: it makes two pictures of a readable size, as large as those of docs/. docs/GUIDE.md shows both."""
from __future__ import annotations

import struct
from pathlib import Path

import pytest
from office import tool
from program import ROOT, built

NAMES = ("site.png", "terminal.png")
PAGE = ROOT / "docs" / "GUIDE.md"
MOST = 150_000


def size_of(path: Path) -> tuple[int, ...]:
    """The width and the height of a PNG."""
    data = path.read_bytes()
    assert data[:8] == b"\x89PNG\r\n\x1a\n" and data[12:16] == b"IHDR", path
    return struct.unpack(">II", data[16:24])


@pytest.mark.parametrize("name", NAMES)
def test_picture_is_small_and_shown(name: str) -> None:
    path = ROOT / "docs" / name
    assert size_of(path) and path.stat().st_size <= MOST
    assert f"]({name})" in PAGE.read_text(encoding="utf-8")


@pytest.fixture(scope="module")
def made(tmp_path_factory: pytest.TempPathFactory) -> Path:
    """The folder of the pictures that the tool makes."""
    folder = tmp_path_factory.mktemp("pictures")
    (folder / "thesaurus").symlink_to(built())
    ended = tool(str(ROOT / "dev" / "pictures"), folder, program_in=folder)
    assert not ended.status, ended.err.decode()[-300:]
    return folder


@pytest.mark.needs("chromium")
@pytest.mark.parametrize("name", NAMES)
def test_picture_is_as_large_as_that_of_the_documents(name: str, made: Path) -> None:
    """If it isn't, run dev/pictures, and look at them."""
    assert size_of(made / name) == size_of(ROOT / "docs" / name)
