"""Each line of docs/HTTP.md that begins with `$` prints the lines below it, run over the program as it serves a new
store."""
from __future__ import annotations

import subprocess
from collections.abc import Iterator

import pytest
from program import ROOT
from serving import Served, serving

pytestmark = pytest.mark.needs("curl")
PAGE = ROOT / "docs" / "HTTP.md"
PORT = "8080"


def examples() -> list[tuple[str, str]]:
    """The commands of the page, each with its expected output."""
    blocks = PAGE.read_text(encoding="utf-8").split("```\n")[1::2]
    lines = [line for block in blocks if block.startswith("$ ") for line in block.splitlines()]
    found: list[tuple[str, str]] = []
    for line in lines:
        if line.startswith("$ "):
            found.append((line[2:], ""))
        else:
            command, wanted = found.pop()
            found.append((command, f"{wanted}{line}\n"))
    return found


EXAMPLES = examples()


@pytest.fixture(scope="module")
def served(tmp_path_factory: pytest.TempPathFactory) -> Iterator[Served]:
    """The program, which serves a connection for each command of the page."""
    with serving(tmp_path_factory.mktemp("http") / "museum.db", len(EXAMPLES), after=["--plans"]) as program:
        yield program


@pytest.mark.parametrize(("command", "wanted"), EXAMPLES)
def test_command_prints_what_the_page_says(command: str, wanted: str, served: Served) -> None:
    words = ["sh", "-c", command.replace(f":{PORT}", f":{served.port}")]
    ran = subprocess.run(words, capture_output=True, text=True, check=False, timeout=60)
    assert ran.stdout == wanted, ran.stderr


def test_server_ends_after_the_last_command(served: Served) -> None:
    assert served.end() == (0, b"", b"")
