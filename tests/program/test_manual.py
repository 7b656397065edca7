"""thesaurus.1 says what the program's help says: the options before the command, the commands, and the arguments and
options of each command, with the names of their values, required or not. Its examples run, each command is in one, and
mandoc finds no fault in the page."""
from __future__ import annotations

import functools
import os
import re
import shutil
import subprocess
import tempfile
from collections.abc import Callable
from pathlib import Path
from typing import NamedTuple

import pytest
from ports import free_port
from program import MEMORY, built, run, ROOT

PAGE = ROOT / "thesaurus.1"


class Usage(NamedTuple):
    """The arguments of a command, its options with the names of their values, and those of them that are required."""

    words: list[str]
    options: dict[str, str]
    needed: set[str]


def help_of(*command: str) -> str:
    """The text of a help, cut before its examples."""
    return run([*command, "--help"], program=built()).out.decode().split("\nAn example.")[0]


def usage_in(text: str) -> Usage:
    """The words of the line of usage, the options that are listed, and those of them that are required."""
    (usage,) = re.findall(r"^Usage: thesaurus (.*)$", text, re.M)
    required = re.sub(r"\[[^]]*\]", "", usage)
    listed = re.findall(r"^ +(?:-\w, +)?(--[\w-]+)(?: (<\w+>))?", text, re.M)
    options = {name: value.strip("<>") for name, value in listed if name not in ("--help", "--version")}
    words = re.findall(r"<(\w+)>", re.sub(r"--[\w-]+ <\w+>", "", required))
    needed = {it for it in options if f"{it} <" in required}
    return Usage(words, options, needed)


@functools.cache
def by_help() -> tuple[dict[str, str], dict[str, Usage]]:
    """From the help: the options before a command, and each command."""
    text = help_of()
    names = re.findall(r"^  (\w+) ", text.split("Commands:")[1].split("\n\n")[0], re.M)
    return usage_in(text).options, {name: usage_in(help_of(name)) for name in names}


def item(line: str) -> Usage:
    """The words and options of a line of the manual."""
    options: dict[str, str] = {}
    needed: set[str] = set()
    words: list[str] = []
    parts = line.split()
    for at, part in enumerate(parts):
        if part == "Fl" and parts[at + 1 : at + 2] not in ([], ["Fl"]) and parts[at - 1] == "Fl":
            name = f"--{parts[at + 1]}"
            options[name] = parts[at + 3] if parts[at + 2 : at + 3] == ["Ar"] else ""
            if parts[at - 2] not in ("Op", "Oo"):
                needed.add(name)
        elif part == "Ar" and "Fl" not in parts[at - 2 : at]:
            words.append(parts[at + 1])
    return Usage(words, options, needed)


def by_manual() -> tuple[dict[str, str], dict[str, Usage]]:
    """The same from the descriptions of the manual."""
    lines = PAGE.read_text(encoding="utf-8").splitlines()
    before: dict[str, str] = {}
    for line in lines:
        if line.startswith(".It Fl Fl"):
            before.update(item(line).options)
    commands = {line.split()[2]: item(" ".join(line.split()[3:])) for line in lines if line.startswith(".It Cm")}
    return before, commands


def synopsis() -> dict[str, Usage]:
    """The same from the lines of the synopsis."""
    text = PAGE.read_text(encoding="utf-8").split(".Sh SYNOPSIS\n")[1].split(".Sh ")[0]
    forms = [it.replace("\n.", " ") for it in text.split(".Nm\n")[1:]]
    found = (re.search(r"(?<!Op )Cm (\w+)(.*)$", it, re.S) for it in forms)
    return {it[1]: item(it[2].replace("\n", " ").replace(".", "")) for it in found if it}


def test_options_without_a_value() -> None:
    manual = re.findall(r"^\.It Fl (\w) , Fl Fl (\w+)$", PAGE.read_text(encoding="utf-8"), re.M)
    assert sorted(manual) == sorted(re.findall(r"^ +-(\w), --(\w+) ", help_of(), re.M))


def test_options_before_the_command() -> None:
    assert by_manual()[0] == by_help()[0]


@pytest.mark.parametrize("part", [lambda: by_manual()[1], synopsis], ids=["descriptions", "synopsis"])
def test_commands(part: Callable[[], dict[str, Usage]]) -> None:
    assert part() == by_help()[1]


def test_no_line_is_taken_for_a_macro() -> None:
    lines = PAGE.read_text(encoding="utf-8").splitlines()
    assert not [it for it in lines if re.match(r"\.(?!\\\"|%?[A-Z])", it)]


@pytest.mark.needs("mandoc")
def test_mandoc_finds_no_fault() -> None:
    lint = subprocess.run(["mandoc", "-T", "lint", str(PAGE)], capture_output=True, text=True, check=False)
    assert not lint.stdout + lint.stderr


TEXTS: list[str] = re.findall(r"^\.Bd -literal[^\n]*\n(.*?)^\.Ed$", PAGE.read_text(encoding="utf-8"), re.M | re.S)


@pytest.mark.needs("curl")
def test_examples_run_one_after_another() -> None:
    """They run in one folder, with a store to migrate in it."""
    port = str(free_port())
    with tempfile.TemporaryDirectory(dir=MEMORY) as place:
        room = Path(place)
        (room / "thesaurus").symlink_to(built())
        environment = {**os.environ, "PATH": f"{room}:{os.environ['PATH']}"}
        for text in (it.replace("\\e", "\\").replace("\\&", "").replace("8080", port) for it in TEXTS):
            text += f"curl -s http://127.0.0.1:{port}/totals\nwait $!\n" if "curl" in text else ""
            ran = subprocess.run(
                ["sh", "-ec", text], cwd=room, env=environment, capture_output=True, text=True, check=False, timeout=60
            )
            assert (ran.returncode, ran.stderr) == (0, ""), text
            if not (room / "old.db").exists():
                shutil.copy(room / "museum.db", room / "old.db")


def test_each_command_has_an_example() -> None:
    called = {
        name for it in TEXTS for name in re.findall(r"\bthesaurus --db \S+ (?:--existing |--base \S+ )?(\w+)\b", it)
    }
    assert called >= by_help()[1].keys()
