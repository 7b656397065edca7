"""bench/RESULTS.md has a section for each benchmark, by its command, with its day, program and machine, or that it
isn't measured yet; bench/README.md has a row for each; and --write replaces the section of its command and no other."""
from __future__ import annotations

import os
import re
import sys

import pytest
from program import ROOT

sys.path.append(str(ROOT / "bench"))
from measure import Measured, section, with_section  # noqa: E402

# When and where a section was measured; if some of its rows were measured again, also these: "HEAD Rows of postings:
# HEAD".
HEAD = re.compile(
    (
        r"(\d{4}-\d\d-\d\d, commit [0-9a-f]{8,}( with changes)?|Before version \d+\.\d+, [^;]+(; "
        r"[^;]+)?); \d+ cores of [^;]+(; \d+\.\d other programs at work)?\."
    )
)
ROW = re.compile(
    r"\| [^|]+ \| [\d.,]+( to [\d.,]+)? (s|ms|times|microseconds|MB|bytes|instructions|%) \|"
    r" ([\d.,]+: (held|missed))? \|"
)
UNMEASURED = "Not measured yet."
PAGE = "# Results\n\nText.\n\n## `bench/a`\n\nOld a.\n\n## `bench/c`\n\nOld c.\n"


def commands() -> list[str]:
    """The benchmarks, each as its command; bench/ratio and bench/script are two each."""
    scripts = [
        it for it in sorted((ROOT / "bench").iterdir()) if it.is_file() and not it.suffix and os.access(it, os.X_OK)
    ]
    return sorted([*(f"bench/{it.name}" for it in scripts), "bench/ratio --seconds", "bench/script --db"])


def sections(page: str) -> dict[str, list[str]]:
    """The lines of each section, by its command."""
    parts = re.split(r"^## `(.*)`\n", page, flags=re.M)
    return {name: text.strip().splitlines() for name, text in zip(parts[1::2], parts[2::2])}


FOUND = sections((ROOT / "bench" / "RESULTS.md").read_text(encoding="utf-8"))
NEW = section(
    [
        Measured("posts", 0.2653, most=0.22),
        Measured("more", 1.5, "times", 2.3),
        Measured("a post", 12345.6, "instructions"),
    ],
    2.04,
)


def test_each_benchmark_has_a_section_and_a_row() -> None:
    described = (ROOT / "bench" / "README.md").read_text(encoding="utf-8")
    assert list(FOUND) == commands()
    assert sorted(re.findall(r"^\| `(bench/\w+(?: --(?:db|seconds))?)", described, re.M)) == commands()


@pytest.mark.parametrize("name", [name for name, lines in FOUND.items() if lines != [UNMEASURED]])
def test_section_says_when_and_where_and_has_figures(name: str) -> None:
    head, *lines = FOUND[name]
    assert all(map(HEAD.fullmatch, re.split(r" Rows of [\w ]+: ", head)))
    assert lines[:3] == ["", "| What | Measured | At most |", "|---|---|---|"] and len(lines) > 3
    assert not [it for it in lines[3:] if not ROW.fullmatch(it)]


def test_new_section_rounds_its_figures() -> None:
    head, *lines = NEW.splitlines()
    assert HEAD.fullmatch(head) and "2.0 other programs" in head
    assert lines[3:] == [
        "| posts | 0.265 s | 0.22: missed |",
        "| more | 1.50 times | 2.3: held |",
        "| a post | 12,346 instructions |  |",
    ]


@pytest.mark.parametrize("command", ["bench/a", "bench/b"])
def test_section_replaces_that_of_its_command_alone(command: str) -> None:
    page = with_section(PAGE, command, NEW)
    before, after = sections(PAGE), sections(page)
    assert list(after) == sorted({"bench/a", "bench/c", command})
    assert after[command] == NEW.splitlines() and page.startswith("# Results\n\nText.\n\n## ")
    assert all(after[it] == before[it] for it in before if it != command)
    assert with_section(page, command, NEW) == page
