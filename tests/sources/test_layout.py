"""How sources are laid out: the lengths of lines in crates/*, the number of parameters of a function, and blocks of
equal lines, also of Python. Each bound may only be lowered; the message of a failure lists what is over it."""
from __future__ import annotations

import re
import subprocess
from collections import defaultdict
from collections.abc import Callable, Iterator
from itertools import combinations
from pathlib import Path

import pytest
from program import ROOT

# The columns of a line; that of an import, and a text that no line break may divide, may be longer.
COLUMNS = {".rt": 100, ".antt": 120}
# How many lines are longer all the same. Wished are none.
LONGER = {"comments of .rt": 1, "code of .rt": 0, "comments of .antt": 0, "text of .antt": 13}
# How many functions may have more than five parameters.
PARAMETERS = 1
# A text, a comment or a character of Rattle's.
TOKEN = re.compile(r"""//[^\n]*|b?'(?:\\.|[^'\\\n])'|"(?:\\.|[^"\\])*\"""", re.S)
IMPORT = re.compile(r"(pub |ghost )*use |#\[tactic\(")


def files(*suffixes: str) -> list[Path]:
    """The files of the repository with these endings, but wrong definitions."""
    listed = subprocess.run(["git", "-C", ROOT, "ls-files", "-z"], capture_output=True, text=True, check=True).stdout
    found = [ROOT / it for it in listed.split("\0") if it.endswith(suffixes) and "/must-fail/" not in it]
    return [it for it in found if it.is_file()]


def without_texts(source: str) -> str:
    """A source of Rattle without what its texts have: of several lines, without any but their ends."""

    def emptied(found: re.Match[str]) -> str:
        return "\n".join(['"' for _ in found[0].split("\n")]) if found[0][0] == '"' else found[0]

    return TOKEN.sub(emptied, source)


def test_a_text_is_left_out_and_no_comment_or_character() -> None:
    assert without_texts('f(\'"\', "a\\"b", c); // "d"') == 'f(\'"\', ", c); // "d"'
    assert without_texts('f("a\nb");') == 'f("\n");'


def long_lines(kind: str) -> Iterator[str]:
    """The places of lines of a kind that are too long, each with its length."""
    part, suffix = kind.split(" of ")
    mark = {".rt": "//", ".antt": "--"}[suffix]
    for path in files(suffix):
        source = path.read_text(encoding="utf-8")
        lines = (without_texts(source) if suffix == ".rt" else source).split("\n")
        for number, line in enumerate(lines, 1):
            is_comment = line.lstrip().startswith(mark)
            if len(line) > COLUMNS[suffix] and is_comment == (part == "comments") and not IMPORT.match(line.lstrip()):
                yield f"{path.relative_to(ROOT)}:{number}: {len(line)}"


@pytest.mark.parametrize("kind", LONGER)
def test_lines_are_no_longer(kind: str) -> None:
    found = list(long_lines(kind))
    assert len(found) <= LONGER[kind], "\n".join(found)


def test_functions_have_few_parameters() -> None:
    ran = subprocess.run([ROOT / "dev" / "counts", "--parameters"], capture_output=True, text=True, check=True)
    assert len(ran.stdout.splitlines()) <= PARAMETERS, ran.stdout


def is_telling(line: str) -> bool:
    """Whether a line says something of its own: an end of a block or an import doesn't."""
    return len(line) > 3 and not line.startswith(("use ", "ghost use ", "//", "--", "#", "import ", "from "))


def blocks(paths: list[Path], least: int) -> Iterator[str]:
    """Pairs of equal blocks of so many lines or more, by the places of their first lines."""
    lines = {
        path: [
            (n, it.strip())
            for n, it in enumerate(path.read_text(encoding="utf-8").splitlines(), 1)
            if is_telling(it.strip())
        ]
        for path in paths
    }
    places: dict[tuple[str, ...], list[tuple[Path, int]]] = defaultdict(list)
    for path, kept in lines.items():
        for at in range(len(kept) - least + 1):
            places[tuple(it for _, it in kept[at : at + least])].append((path, at))
    pairs = {pair for found in places.values() for pair in combinations(found, 2)}
    for (one, at), (other, there) in sorted(pairs):
        if ((one, at - 1), (other, there - 1)) not in pairs and not (one == other and there - at < least):
            yield f"{one.relative_to(ROOT)}:{lines[one][at][0]} {other.relative_to(ROOT)}:{lines[other][there][0]}"


def python_files() -> list[Path]:
    """The Python of the repository, also of scripts without an ending."""
    scripts = [
        it for folder in ("dev", "tools", "bench") for it in (ROOT / folder).iterdir() if it.is_file() and not it.suffix
    ]
    return sorted(
        [*files(".py"), *(it for it in scripts if it.read_text(encoding="utf-8").startswith("#!/usr/bin/env python3"))]
    )


@pytest.mark.parametrize(
    "paths, least, most",
    [(lambda: files(".rt", ".antt"), 8, 15), (python_files, 6, 3)],
    ids=["eight lines of crates", "six lines of Python"],
)
def test_few_blocks_are_written_twice(paths: Callable[[], list[Path]], least: int, most: int) -> None:
    found = list(blocks(paths(), least))
    assert len(found) <= most, "\n".join(found)


@pytest.mark.parametrize(
    "package",
    [
        "tools/thesaurus_tools",
        "dev/wrong_bodies",
        *(
            f"desk/thesaurus_desk{it}"
            for it in (
                "",
                *"/auth /importing /interfaces /journal /store /web /web/pages /web/refusals /words".split(),
            )
        ),
    ],
)
def test_a_package_lists_its_modules(package: str) -> None:
    """By their names, in the text of its `__init__.py`."""
    folder = ROOT / package
    about = (folder / "__init__.py").read_text(encoding="utf-8").split('"""')[1]
    modules = {it.stem for it in folder.glob("*.py")} - {"__init__"}
    assert not modules - {*re.findall(r"\w+", about)}
