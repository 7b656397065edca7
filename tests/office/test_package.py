"""The package of the office's commands and the desk: what a wheel has, and that each of its commands is there."""
from __future__ import annotations

import re
import shutil
import subprocess
import sys
import tomllib
import zipfile
from collections.abc import Iterator
from pathlib import Path

import pytest
from program import ROOT

PACKAGES = ("desk/thesaurus_desk", "tools/thesaurus_tools")
SOURCES = ("pyproject.toml", "README.md")
# The longest script that only calls its command.
MOST_LINES = 12
# It installs the repository's files, so no package has it.
OF_REPOSITORY = "install"
LOAD = """
import sys
from importlib.metadata import distribution
found = distribution("thesaurus-office").entry_points
print(*(f"{it.name} {sys.modules[it.load().__module__].__file__}" for it in found), sep="\\n")
"""


def project() -> dict[str, dict[str, str]]:
    return tomllib.loads((ROOT / "pyproject.toml").read_text(encoding="utf-8"))["project"]


def files_of(folder: Path) -> Iterator[str]:
    """Yields the files of a package, as a wheel names them."""
    for it in folder.rglob("*"):
        if it.is_file() and "__pycache__" not in it.parts:
            yield str(it.relative_to(folder.parent))


@pytest.fixture(scope="module")
def wheel(tmp_path_factory: pytest.TempPathFactory) -> Path:
    """A wheel of the repository's package, made of a copy, without a network."""
    source, out = tmp_path_factory.mktemp("source"), tmp_path_factory.mktemp("wheel")
    for it in PACKAGES:
        shutil.copytree(ROOT / it, source / it, ignore=shutil.ignore_patterns("__pycache__"))
    for it in SOURCES:
        shutil.copy(ROOT / it, source / it)
    words = ("pip", "wheel", "--no-index", "--no-build-isolation", "--no-deps", "--quiet", "-w", out, source)
    ran = subprocess.run([sys.executable, "-m", *words], capture_output=True, text=True, check=False)
    assert ran.returncode == 0, ran.stderr
    (found,) = out.iterdir()
    return found


@pytest.mark.needs("pip", "setuptools", "wheel")
def test_a_wheel_has_all_files_of_the_packages(wheel: Path) -> None:
    with zipfile.ZipFile(wheel) as file:
        found = {it for it in file.namelist() if ".dist-info/" not in it}
    assert found == {it for folder in PACKAGES for it in files_of(ROOT / folder)}


@pytest.mark.needs("pip", "setuptools", "wheel")
def test_each_command_is_loaded_from_the_wheel(wheel: Path, tmp_path: Path) -> None:
    with zipfile.ZipFile(wheel) as file:
        file.extractall(tmp_path)
    ran = subprocess.run(
        [sys.executable, "-c", LOAD],
        capture_output=True,
        text=True,
        check=False,
        cwd=tmp_path,
        env={"PYTHONPATH": str(tmp_path)},
    )
    found = dict(it.split(" ", 1) for it in ran.stdout.splitlines())
    assert found.keys() == project()["scripts"].keys(), ran.stderr
    assert all(Path(it).is_relative_to(tmp_path) for it in found.values())


def test_each_command_has_a_script_that_only_calls_it() -> None:
    scripts = {it.name: it.read_text(encoding="utf-8") for it in (ROOT / "tools").iterdir() if it.is_file()}
    commands = {
        f"thesaurus-{name}": f"thesaurus_tools.commands.{name.replace('-', '_')}:command"
        for name in scripts
        if name != OF_REPOSITORY
    }
    assert project()["scripts"] == commands
    for name, text in scripts.items():
        assert f"from thesaurus_tools.commands.{name.replace('-', '_')} import command" in text
        assert len(text.splitlines()) <= MOST_LINES


def test_its_version_is_that_of_the_program() -> None:
    heading = re.search(r"^## \[?(\d+(?:\.\d+)+)", (ROOT / "CHANGELOG.md").read_text(encoding="utf-8"), re.M)
    assert heading and project()["version"] == heading[1]
