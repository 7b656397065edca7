"""Each block of commands of docs/GUIDE.md (```sh), run one after another in one folder, prints the block below it;
likewise the tree in README.md, also a second time. The commands of docs/OPERATING.md succeed. `tests/run --write guide`
writes what the commands print into the page."""
from __future__ import annotations

import os
import re
import subprocess
import tempfile
from collections.abc import Iterator
from pathlib import Path

import pytest
from ports import free_port
from program import MEMORY, ROOT, built

PAGE, README, OPERATING = ROOT / "docs" / "GUIDE.md", ROOT / "README.md", ROOT / "docs" / "OPERATING.md"
# The ports of the pages: those of the program, of tools/publish and of the desk.
PORT, OTHERS = "8080", "8081|8090"
TOOLS = ("curl", "dot", "rapper", "thesaurus2htmls", "yaz-marcdump")
BLOCK = re.compile(r"^```sh\n(.*?)^```\n(?:\n```\n(.*?)^```\n)?", re.M | re.S)
BLOCKS: list[tuple[str, str]] = BLOCK.findall(PAGE.read_text(encoding="utf-8"))


def make_room(room: Path) -> Path:
    """Puts into a folder what the page expects of the repository: the launcher, the tools and the sample."""
    launcher = room / "thesaurus"
    launcher.write_text(f'#!/bin/sh\nexec "{built()}" "$@"\n', encoding="utf-8")
    launcher.chmod(0o755)
    for name in ("examples", "tools"):
        (room / name).symlink_to(ROOT / name)
    return room


def output_of(commands: str, room: Path, path: str = "") -> str:
    """What a block of commands prints, with these folders of programs or the usual ones."""
    port = free_port()
    words = ["sh", "-c", re.sub(rf"(:|--port )({PORT}|{OTHERS})\b", rf"\g<1>{port}", commands)]
    environment = {**os.environ, "PATH": f"{room}:{path or os.environ['PATH']}"}
    ran = subprocess.run(
        words,
        cwd=room,
        stdout=subprocess.PIPE,
        stderr=subprocess.STDOUT,
        check=False,
        timeout=240,
        env=environment,
    )
    return ran.stdout.decode().replace(f":{port}", f":{PORT}")


@pytest.fixture(scope="module")
def room() -> Iterator[Path]:
    with tempfile.TemporaryDirectory(dir=MEMORY) as place:
        yield make_room(Path(place))


@pytest.fixture(scope="module")
def outputs(request: pytest.FixtureRequest, room: Path) -> list[str]:
    """What the blocks of the guide print."""
    found = [output_of(commands, room) for commands, _ in BLOCKS]
    if request.config.getoption("--write"):
        left = iter(found)
        page = PAGE.read_text(encoding="utf-8")
        PAGE.write_text(BLOCK.sub(lambda it: block_with(it[1], next(left)), page), encoding="utf-8")
    return found


def block_with(commands: str, output: str) -> str:
    """A block of commands, and below it what it prints."""
    return f"```sh\n{commands}```\n" + (f"\n```\n{output}```\n" if output else "")


@pytest.mark.needs(*TOOLS)
@pytest.mark.parametrize("place", range(len(BLOCKS)), ids=[it.splitlines()[0] for it, _ in BLOCKS])
def test_block_of_the_guide(place: int, outputs: list[str]) -> None:
    assert outputs[place] == BLOCKS[place][1]


def path_without(name: str, room: Path) -> str:
    """A folder with the system's programs but one."""
    folder = room / "programs"
    folder.mkdir()
    for it in (path for place in ("/usr/local/bin", "/usr/bin", "/bin") for path in sorted(Path(place).iterdir())):
        if it.name != name and not (folder / it.name).is_symlink():
            (folder / it.name).symlink_to(it)
    return str(folder)


@pytest.mark.needs(*TOOLS)
@pytest.mark.parametrize("name", ["dot", "rapper", "thesaurus2htmls", "thesaurus2tex", "yaz-marcdump"])
def test_guide_hides_no_program_that_is_missing(name: str, outputs: list[str], room: Path, tmp_path: Path) -> None:
    """Who follows it without a program sees that it isn't there."""
    (commands,) = [it for it, _ in BLOCKS if name in it]
    (room / "museum.tex").unlink(missing_ok=True)
    printed = output_of(commands, room, path_without(name, tmp_path))
    assert re.search(f"{name}: .*not found|museum.tex: No such file", printed)


READ_ME: list[tuple[str, str]] = BLOCK.findall(README.read_text(encoding="utf-8"))


def test_first_command_of_readme(tmp_path: Path) -> None:
    """It prints the answers below it; the last line is that of `rt ci`, which the gate runs."""
    (commands, printed), *_ = READ_ME
    first, second = commands.splitlines()
    *answers, last = printed.splitlines(keepends=True)
    assert output_of(first, make_room(tmp_path)) == "".join(answers)
    assert second == "rt ci" and re.fullmatch(r"[0-9]+ passed, 0 failed\n", last)


def test_tree_of_readme(tmp_path: Path) -> None:
    """It is the beginning of what the commands above it print, also of a second run over the same store."""
    commands, tree = READ_ME[1]
    make_room(tmp_path)
    runs = [output_of(f"{commands}./thesaurus --db sample.db check", tmp_path) for _ in range(2)]
    assert tree and runs[0].startswith(tree)
    assert runs[0] == runs[1]


@pytest.fixture(scope="module")
def operating_room(tmp_path_factory: pytest.TempPathFactory) -> Path:
    return make_room(tmp_path_factory.mktemp("operating"))


@pytest.mark.parametrize("commands", [it for it, _ in BLOCK.findall(OPERATING.read_text(encoding="utf-8"))])
def test_block_of_operating_succeeds(commands: str, operating_room: Path) -> None:
    # (what is installed is the program that is tested, and not another build)
    given = commands.replace("tools/install ", f'tools/install --program "{built()}" ')
    printed = output_of(f"set -e\n{given}echo succeeded", operating_room)
    assert printed.endswith("succeeded\n")
