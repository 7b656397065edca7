"""tools/install: what it installs works after the tree that it came from is gone, and it replaces an earlier version,
but nothing else."""
from __future__ import annotations

import os
import re
import shutil
import subprocess
from pathlib import Path
from typing import NamedTuple

import pytest
from program import ROOT, built

DOCUMENTS = ("README.md", "CHANGELOG.md", "SECURITY.md", "LICENSE-APACHE", "LICENSE-MIT", "NOTICE", "thesaurus.1")
PARTS = ("tools", "desk", "share", "examples", "docs", "thesaurus", *DOCUMENTS)
# The tools for users, each of which has a name of its own.
TOOLS = {it.name for it in (ROOT / "tools").iterdir() if it.is_file() and not it.suffix} - {"install"}
Ran = subprocess.CompletedProcess[str]


def run(*words: object, cwd: Path | None = None, given: str | None = None) -> Ran:
    # (the tests' own modules are not there for an installed tool)
    environment = {name: value for name, value in os.environ.items() if name != "PYTHONPATH"}
    call = list(map(str, words))
    return subprocess.run(call, input=given, capture_output=True, text=True, check=False, env=environment, cwd=cwd)


def copy_tree(tree: Path) -> None:
    """Copies what is installed, and what isn't, to a folder."""
    tree.mkdir()
    for part in PARTS:
        if (ROOT / part).is_dir():
            # (other tests write there meanwhile)
            shutil.copytree(ROOT / part, tree / part, ignore=shutil.ignore_patterns("__pycache__"))
        else:
            shutil.copy(ROOT / part, tree / part)
    (tree / "tools" / "__pycache__").mkdir()
    (tree / "tools" / "__pycache__" / "left.pyc").touch()


def install(tree: Path, prefix: Path) -> Ran:
    return run(tree / "tools" / "install", prefix, "--program", built())


class Installed(NamedTuple):
    """Where it is installed, the names of the files that should be there, what the tool printed, and a folder to work
    in."""

    prefix: Path
    wanted: set[str]
    said: str
    work: Path

    @property
    def place(self) -> Path:
        return self.prefix / "lib" / "thesaurus"


def files_to_install(tree: Path) -> set[str]:
    parts = [it for part in PARTS for it in (tree / part, *(tree / part).rglob("*"))]
    names = {str(it.relative_to(tree)) for it in parts if it.is_file() and "__pycache__" not in it.parts}
    return {it for it in names if not it.startswith("tools/NOTES")}


@pytest.fixture(scope="module")
def installed(tmp_path_factory: pytest.TempPathFactory) -> Installed:
    """An installation from a tree that is gone, with the sample in a store and its export."""
    room = tmp_path_factory.mktemp("install").resolve()
    tree, prefix, work = room / "tree", room / "prefix", room / "work"
    copy_tree(tree)
    ran = install(tree, prefix)
    assert not ran.returncode, ran
    wanted = files_to_install(tree)
    shutil.rmtree(tree)
    work.mkdir()
    it = Installed(prefix, wanted, ran.stdout, work)
    sample = (it.place / "examples" / "instruments.jsonl").read_text(encoding="utf-8")
    made = run(prefix / "bin" / "thesaurus", "--db", "sample.db", "script", cwd=work, given=sample)
    assert not made.returncode, made
    export = run(prefix / "bin" / "thesaurus", "--db", "sample.db", "export", cwd=work).stdout
    (work / "sample.nt").write_text(export, encoding="utf-8")
    return it


def test_version_is_printed(installed: Installed) -> None:
    assert installed.said.startswith("thesaurus ")


def test_files_are_those_for_users(installed: Installed) -> None:
    files = {str(it.relative_to(installed.place)) for it in installed.place.rglob("*") if it.is_file()}
    assert files - {".made-by-thesaurus-install"} == installed.wanted


def test_each_tool_has_a_name(installed: Installed) -> None:
    links = {it.name for it in (installed.prefix / "bin").iterdir()}
    assert links == {"thesaurus", *(f"thesaurus-{it}" for it in TOOLS)}


def test_all_may_read_what_is_installed(installed: Installed) -> None:
    modes = {str(it): it.stat().st_mode & 0o777 for it in installed.prefix.rglob("*")}
    assert {it: f"{mode:o}" for it, mode in modes.items() if mode not in (0o755, 0o644)} == {}


def test_unit_names_the_installed_program(installed: Installed) -> None:
    text = (installed.place / "share" / "thesaurus@.service").read_text(encoding="utf-8")
    assert "/usr/local/" not in text and f"ExecStart={installed.prefix}/bin/thesaurus " in text


def test_manual_is_that_of_the_program(installed: Installed) -> None:
    page = installed.prefix / "share" / "man" / "man1" / "thesaurus.1"
    assert ".Dt THESAURUS 1" in page.read_text(encoding="utf-8")


@pytest.mark.parametrize(
    "words",
    [
        ["thesaurus-site", "sample.nt", "public", "--langs", "en", "--store", "sample.db"],
        ["thesaurus-backup", "sample.db", "backups"],
    ],
    ids=["site", "backup"],
)
def test_installed_tool_works(words: list[str], installed: Installed) -> None:
    ran = run(installed.prefix / "bin" / words[0], *words[1:], cwd=installed.work)
    assert not ran.returncode and "Traceback" not in ran.stderr, ran


@pytest.mark.parametrize("name", sorted(TOOLS))
def test_help_has_an_example_by_the_installed_name(name: str, installed: Installed) -> None:
    ran = run(installed.prefix / "bin" / f"thesaurus-{name}", "--help", cwd=installed.work)
    assert not ran.returncode and "Traceback" not in ran.stderr, ran
    assert re.search(r"^Examples?:", ran.stdout, re.M) or "  tools/" in ran.stdout


def test_installed_program_has_help(installed: Installed) -> None:
    assert not run(installed.prefix / "bin" / "thesaurus", "--help").returncode


# --- again ---


@pytest.fixture
def changed(tmp_path: Path) -> tuple[Path, Path]:
    """A tree that was installed and then lost its documents and renamed a tool, and where it was installed."""
    tree, prefix = tmp_path / "tree", tmp_path / "prefix"
    copy_tree(tree)
    ran = install(tree, prefix)
    assert not ran.returncode, ran
    shutil.rmtree(tree / "docs")
    (tree / "tools" / "backup").rename(tree / "tools" / "save")
    return tree, prefix


def test_file_in_the_way_is_left_alone(changed: tuple[Path, Path]) -> None:
    tree, prefix = changed
    (prefix / "bin" / "thesaurus-save").write_text("mine", encoding="utf-8")
    ran = install(tree, prefix)
    assert ran.returncode == 1 and "something else" in ran.stderr, ran
    assert (prefix / "bin" / "thesaurus-backup").exists()
    assert (prefix / "bin" / "thesaurus-save").read_text(encoding="utf-8") == "mine"


def test_second_run_replaces_the_first(changed: tuple[Path, Path]) -> None:
    tree, prefix = changed
    ran = install(tree, prefix)
    assert not ran.returncode, ran
    names = {it.name for it in (prefix / "bin").iterdir()}
    assert "thesaurus-save" in names and "thesaurus-backup" not in names
    assert not (prefix / "lib" / "thesaurus" / "docs").exists()
    assert [it.name for it in (prefix / "lib").iterdir()] == ["thesaurus"]


def test_another_tree_in_the_way_is_left_alone(changed: tuple[Path, Path]) -> None:
    tree, prefix = changed
    (prefix / "lib" / "thesaurus" / ".made-by-thesaurus-install").unlink()
    ran = install(tree, prefix)
    assert ran.returncode == 1 and "something else" in ran.stderr, ran
    assert (prefix / "lib" / "thesaurus" / "docs").exists()
