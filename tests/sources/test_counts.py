"""Tests dev/counts over the sources: its tables agree with one another, and the way of a request leads by calls from
main to the core."""
from __future__ import annotations

import re
import subprocess
from itertools import pairwise

import pytest
from program import ROOT

TOOL = ROOT / "dev" / "counts"


def counts(*words: str) -> tuple[int, list[str]]:
    """The status of the tool, and its lines."""
    ran = subprocess.run([TOOL, *words], capture_output=True, text=True, check=False)
    return ran.returncode, ran.stdout.splitlines() or ran.stderr.splitlines()


@pytest.fixture(scope="module")
def rows() -> dict[str, list[int]]:
    """The rows of the table, by crate, with that of all."""
    status, (_, *lines) = counts()
    assert not status and lines[-1].startswith("the program's ")
    return {it[0]: [int(cell) for cell in it[1:5]] for it in (line.split() for line in lines[:-1])}


def test_table_adds_up(rows: dict[str, list[int]]) -> None:
    crates = {name: it for name, it in rows.items() if name != "all"}
    assert sorted(crates) == sorted(it.name for it in (ROOT / "crates").iterdir() if (it / "src").is_dir())
    assert rows["all"][:2] == [sum(it[at] for it in crates.values()) for at in (0, 1)]


def test_functions_are_those_of_the_table(rows: dict[str, list[int]]) -> None:
    _, functions = counts("--functions")
    assert [len(functions), sum(int(it.split()[0]) for it in functions)] == rows["all"][:2]


def test_repeated_clauses_come_by_their_number(rows: dict[str, list[int]]) -> None:
    _, clauses = counts("--repeats")
    found = [int(it.split()[0]) for it in clauses]
    assert found == sorted(found, reverse=True) and 1 < found[-1] <= found[0] < rows["all"][1]
    assert all(re.match(r" *\d+ (requires|ensures)\*? \{.*\}$", it) for it in clauses)


def test_functions_with_many_parameters_come_by_their_number() -> None:
    _, functions = counts("--parameters")
    found = [int(it.split()[0]) for it in functions]
    assert found == sorted(found, reverse=True) and min(found) > 5
    assert {it.split()[1].split("::")[0] for it in functions} <= {it.name for it in (ROOT / "crates").iterdir()}


def ways(lines: list[str]) -> list[list[str]]:
    """The functions of each way that the tool prints, as crate::file::name or crate::file::Type::name."""
    found: list[list[str]] = []
    for line in lines:
        if " calls from " in line:
            found.append([])
        elif match := re.fullmatch(r" +\d+ +\d+  (\w\S*)", line):
            found[-1].append(match[1])
    return found


def test_each_function_of_a_way_calls_the_next_one() -> None:
    sources: dict[tuple[str, str], str] = {}
    for path in ROOT.glob("crates/thes_*/src/**/*.rt"):
        place = path.relative_to(ROOT).parts[1], path.stem
        sources[place] = sources.get(place, "") + path.read_text(encoding="utf-8")
    status, lines = counts("--way")
    found = [[it.split("::") for it in way] for way in ways(lines)]
    ends = [way[-1][-1] for way in found]
    assert not status and ends == ["script", "decide", "judge_contract", "commit_changes", "hierarchical_text"]
    for one, other in (it for way in found for it in pairwise(way)):
        assert re.search(rf"\b{other[-1]}(::<[^()]*>)?\(", sources[one[0], one[1]]), one


def test_the_number_of_calls_is_that_of_a_way() -> None:
    lines = counts("--way")[1]
    numbers = [int(it.split()[0]) for it in lines if " calls from " in it]
    assert numbers == [len(it) - 1 for it in ways(lines)]


def test_documented_ways_are_as_long() -> None:
    """The line of DECISIONS.md on a merge, an import's row and a display."""
    text = (ROOT / "docs" / "DECISIONS.md").read_text(encoding="utf-8")
    (said,) = re.findall(
        r"A merge over a file is (\d+) calls deep, an import's row (\d+), a display by HTTP (\d+)", text
    )
    assert [int(it) for it in said] == [len(it) - 1 for it in ways(counts("--way")[1])[2:]]


def test_a_way_leads_through_what_is_named() -> None:
    status, lines = counts("--way", "thes_cli::main", "thes_cli::work_in_memory", "thes_requests::script")
    names = [it.split("::")[-1] for it in lines]
    assert not status and "work_in_memory" in names and "work_in_database" not in names
    assert names[2] == "main" and names[-1] == "script" and lines[0].startswith(f"{len(lines) - 3} calls ")
    assert "work_in_database" in [it.split("::")[-1] for it in counts("--way")[1]]


def test_no_way_is_said() -> None:
    assert counts("--way", "Core::decide", "thes_cli::main") == (
        1,
        ["counts: no calls lead from Core::decide to thes_cli::main"],
    )


@pytest.mark.parametrize("words", [["thes_none"], ["--way", "thes_cli::main"]], ids=" ".join)
def test_wrong_arguments_are_refused(words: list[str]) -> None:
    assert counts(*words)[0] == 2
