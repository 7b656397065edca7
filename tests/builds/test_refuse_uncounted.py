"""A walk that reads links past the count doesn't compile. The walks are generic over the trait `Links`, and read links
in one place of each of two files, of thes_links and of thes_walks. A copy of the crates compiles as it is; with another
reading in one of these places the compiler must refuse exactly that line."""
from __future__ import annotations

import re
import shutil
import subprocess
from pathlib import Path

import pytest
from program import ROOT
from wrong_bodies.records import needed

pytestmark = pytest.mark.needs("rt")
USER = "bench_graph"
WALKS = ("thes_links", "thes_walks", "thes_graph")
READING = re.compile(r"links\.link_at\(([a-z]*), i\)")
# Other readings: through the graph behind the trait, by a call of the graph, from a copy with its own count, from the
# contracts' list.
OTHERS = {
    "the graph": r"links.graph.nth_at(\1, i)",
    "a call": r"links.nth_at(\1, i)",
    "a copy": r"links.clone().link_at(\1, i)",
    "the list": r"L::links_of(links, \1).get(i).copied()",
}
SOURCES = [it for name in WALKS for it in sorted((ROOT / "crates" / name / "src").rglob("*.rt"))]
# The files that read links.
FILES = [str(it.relative_to(ROOT)) for it in SOURCES if READING.search(it.read_text(encoding="utf-8"))]


@pytest.fixture(scope="module")
def copy(tmp_path_factory: pytest.TempPathFactory) -> Path:
    """A copy of the sources of the walks, of a program that uses them, and of all below them."""
    place = tmp_path_factory.mktemp("walks").resolve()
    lines = needed(ROOT, [USER])
    (place / "crates.txt").write_text("".join(f"{it}\n" for it in lines.values()), encoding="utf-8")
    for name in lines:
        if (ROOT / "crates" / name).is_dir():
            shutil.copytree(ROOT / "crates" / name, place / "crates" / name, ignore=shutil.ignore_patterns("out"))
    return place


def compiled(copy: Path) -> subprocess.CompletedProcess[str]:
    """Compiles the program without a proof."""
    words = ["rt", "try", "--", "tree", "2", "1"]
    return subprocess.run(
        words, cwd=copy / "crates" / USER, stdout=subprocess.PIPE, stderr=subprocess.STDOUT, text=True, check=False
    )


def test_links_are_read_in_one_place_of_each_of_two_files() -> None:
    assert [len(READING.findall((ROOT / it).read_text(encoding="utf-8"))) for it in FILES] == [1, 1]


def test_walks_compile_as_they_are(copy: Path) -> None:
    ran = compiled(copy)
    assert not ran.returncode, ran.stdout


@pytest.mark.parametrize("other", OTHERS)
@pytest.mark.parametrize("name", FILES)
def test_another_reading_is_refused_in_its_place_alone(name: str, other: str, copy: Path) -> None:
    file = copy / name
    text = file.read_text(encoding="utf-8")
    number = next(n for n, line in enumerate(text.splitlines(), 1) if READING.search(line))
    file.write_text(READING.sub(OTHERS[other], text), encoding="utf-8")
    said = compiled(copy).stdout
    file.write_text(text, encoding="utf-8")
    assert [":".join(it.split(":")[:2]) for it in said.splitlines() if "error[" in it] == [f"{file}:{number}"], said
