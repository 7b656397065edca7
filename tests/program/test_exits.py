"""Exit status, standard output and standard error for command lines and scripts of each kind."""
from __future__ import annotations

import contextlib
import json
import os
import pty
import subprocess
from collections.abc import Sequence
from pathlib import Path
from typing import Any

import pytest
from program import PROGRAM, Ended, built, run, version

VERSION = f"thesaurus {version()}\n".encode()

TOTALS = b'{"accepted":0,"standing":0,"withdrawn":0}\n'
UNKNOWN = b'{"no":"UnknownPosting"}\n'
UNDER_BASE = b'{"do":"outside","iri":"https://thesaurus.example/id/9"}\n'
BESIDE_BASE = b'{"do":"outside","iri":"http://thesaurus.example/id/9"}\n'
LONG = b" " * 1_048_577
MUSEUM = "http://museum.example/"
UNDER_MUSEUM = b'{"do":"outside","iri":"http://museum.example/9"}\n'
# Standard input, and the expected status, standard output and standard error.
SCRIPTS: dict[str, tuple[bytes, int, bytes, bytes]] = {
    "an empty script": (b"", 0, b"", b""),
    "a script without refusals": (b'{"get":"totals"}\n', 0, TOTALS, b""),
    "a refused request": (b'{"do":"withdraw","posting":1}\n{"get":"totals"}\n', 1, UNKNOWN + TOTALS, b""),
    "a refused view": (b'{"get":"posting","number":1}\n', 1, UNKNOWN, b""),
    "a refused view of a concept": (b'{"get":"concept","number":1}\n', 1, b'{"no":"UnknownResource"}\n', b""),
    "a line that is no request": (b'{"do":"fly"}\n', 1, b'{"bad":"BadShape"}\n', b""),
    "two refusals": (b"[\n[\n", 1, 2 * b'{"bad":"NotJson"}\n', b""),
    "a line that is too long": (b'{"get":"totals"}\n' + LONG, 3, TOTALS, b"thesaurus: fault TooLong\n"),
    "one line too many": (b"\n" * 1_000_000 + b'{"get":"totals"}', 3, b"", b"thesaurus: fault TooLong\n"),
    "a fault behind a refusal": (b"[\n" + LONG, 3, b'{"bad":"NotJson"}\n', b"thesaurus: fault TooLong\n"),
    "an outside IRI under the base": (UNDER_BASE, 1, b'{"no":"WrongKind"}\n', b""),
    "an outside IRI beside the base": (BESIDE_BASE, 0, b'{"ok":1}\n', b""),
}
SCHEME = b'{"do":"scheme","tag":"en","text":"S"}\n'
CONCEPTS = SCHEME + b"".join(b'{"do":"concept","scheme":1,"tag":"en","text":"%s"}\n' % it for it in (b"A", b"B", b"C"))
LINK = b'{"do":"link","kind":"related","a":%d,"b":%d}\n'
POST = b'{"do":"post","key":"k%d","record":"r","concept":%d}\n'
POSTS = POST % (1, 2) + POST % (2, 2)
MERGE = b'{"do":"merge","source":2,"target":3}\n'
OK, DONE, TOO_MANY = b'{"ok":1}\n', b'{"done":true}\n', b'{"no":"TooMany"}\n'
TWO = OK + b'{"ok":2}\n'
FOUR = TWO + b'{"ok":3}\n{"ok":4}\n'
# The same for other command lines.
OTHERS: dict[str, tuple[list[str], bytes, int, bytes, bytes]] = {
    "the version": (["--version"], b"", 0, VERSION, b""),
    "the version, in short": (["-V"], b"", 0, VERSION, b""),
    "the check of an empty store": (
        ["check"],
        b"",
        0,
        b"ok resources=0 labels=0 links=0 accepted=0 withdrawn=0 moves=0\n",
        b"",
    ),
    "an outside IRI under another base": (["--base", MUSEUM, "script"], UNDER_MUSEUM, 1, b'{"no":"WrongKind"}\n', b""),
    "an outside IRI beside it": (["--base", MUSEUM, "script"], UNDER_BASE, 0, b'{"ok":1}\n', b""),
    "a base that is no IRI": (["--base", "museum", "script"], b'{"get":"totals"}\n', 2, b"", b"thesaurus: BadIri\n"),
    "a base of 201 bytes": ([f"--base=x:{199 * 'y'}", "script"], b'{"get":"totals"}\n', 2, b"", b"thesaurus: BadIri\n"),
    "a scheme of no digits": (
        ["alphabetical", "--scheme", "one", "--lang", "en"],
        b"",
        2,
        b"",
        b"thesaurus: BadNumber\n",
    ),
    "a scheme with a zero before it": (
        ["hierarchical", "--scheme", "01", "--lang", "en"],
        b"",
        2,
        b"",
        b"thesaurus: BadNumber\n",
    ),
    "a scheme with a plus before it": (
        ["alphabetical", "--scheme", "+1", "--lang", "en"],
        b"",
        2,
        b"",
        b"thesaurus: BadNumber\n",
    ),
    "scheme 0": (["alphabetical", "--scheme", "0", "--lang", "en"], b"", 2, b"", b"thesaurus: BadNumber\n"),
    "scheme 4294967296": (
        ["alphabetical", "--scheme", "4294967296", "--lang", "en"],
        b"",
        2,
        b"",
        b"thesaurus: BadNumber\n",
    ),
    "an empty scheme": (["alphabetical", "--scheme=", "--lang", "en"], b"", 2, b"", b"thesaurus: BadNumber\n"),
    "a language that is no tag": (
        ["alphabetical", "--scheme", "1", "--lang", "english!"],
        b"",
        2,
        b"",
        b"thesaurus: BadTag\n",
    ),
    "a language of nine letters": (
        ["hierarchical", "--scheme", "1", "--lang", "a" * 9],
        b"",
        2,
        b"",
        b"thesaurus: BadTag\n",
    ),
    "a base, before a scheme": (
        ["--base", "museum", "alphabetical", "--scheme", "one", "--lang", "!"],
        b"",
        2,
        b"",
        b"thesaurus: BadIri\n",
    ),
    "a scheme, before a language": (
        ["alphabetical", "--lang", "!", "--scheme", "one"],
        b"",
        2,
        b"",
        b"thesaurus: BadNumber\n",
    ),
    "resources up to their limit": (["--max-resources", "1", "script"], 2 * SCHEME, 1, OK + TOO_MANY, b""),
    "labels up to their limit": (["--max-labels", "1", "script"], 2 * SCHEME, 1, OK + TOO_MANY, b""),
    "links up to their limit": (
        ["--max-links", "1", "script"],
        CONCEPTS + LINK % (2, 3) + LINK % (3, 4),
        1,
        FOUR + DONE + TOO_MANY,
        b"",
    ),
    "postings up to their limit": (
        ["--max-postings", "1", "script"],
        CONCEPTS + POST % (1, 2) + POST % (2, 2),
        1,
        FOUR + OK + TOO_MANY,
        b"",
    ),
    "moves up to their limit": (["--max-moves=1", "script"], CONCEPTS + POSTS + MERGE, 1, FOUR + TWO + TOO_MANY, b""),
    "the greatest limit": (["--max-resources", "4294967295", "script"], SCHEME, 0, OK, b""),
    "a limit with a plus before it": (
        ["--max-links", "+1", "check"],
        b"",
        0,
        b"ok resources=0 labels=0 links=0 accepted=0 withdrawn=0 moves=0\n",
        b"",
    ),
    "a base of 200 bytes": (
        [f"--base=x:{198 * 'y'}", "check"],
        b"",
        0,
        b"ok resources=0 labels=0 links=0 accepted=0 withdrawn=0 moves=0\n",
        b"",
    ),
}
# Requests for help, and parts of it.
HELP: dict[tuple[str, ...], list[bytes]] = {
    ("--help",): [
        b"Usage: thesaurus",
        b"--db <FILE>",
        b"--existing",
        b"--base <IRI>",
        b"--max-resources <N>",
        b"--max-labels <N>",
        b"--max-links <N>",
        b"--max-postings <N>",
        b"--max-moves <N>",
        b"script",
        b"import",
        b"export",
        b"alphabetical",
        b"hierarchical",
        b"serve",
        b"check",
        b"migrate",
        b'{"do":"link"',
        b"docs/REQUESTS.md",
    ],
    ("script", "--help"): [b"Usage: thesaurus [--db <FILE>] script"],
    ("check", "--help"): [b"Usage: thesaurus [--db <FILE>] check"],
    ("migrate", "--help"): [b"Usage: thesaurus [--db <FILE>] migrate"],
    ("import", "--help"): [b"Usage: thesaurus [--db <FILE>] import <FILE>"],
    ("export", "--help"): [b"Usage: thesaurus [--db <FILE>] export"],
    ("alphabetical", "--help"): [b"Usage: thesaurus [--db <FILE>] alphabetical", b"--scheme <N>", b"--lang <TAG>"],
    ("hierarchical", "--help"): [b"Usage: thesaurus [--db <FILE>] hierarchical", b"--scheme <N>", b"--lang <TAG>"],
    ("serve", "--help"): [b"Usage: thesaurus [--db <FILE>] serve", b"--port <N>", b"--count <N>"],
}
# Wrong command lines.
USAGE: dict[str, list[str]] = {
    "no word": [],
    "a limit of 0": ["--max-resources", "0", "script"],
    "a limit of 4294967296": ["--max-labels", "4294967296", "script"],
    "a limit in words": ["--max-links", "many", "script"],
    "a limit of -1": ["--max-postings", "-1", "script"],
    "a limit twice": ["--max-moves", "1", "--max-moves", "2", "script"],
    "a limit behind the command": ["script", "--max-moves", "1"],
    "an unknown command": ["fly"],
    "a word behind the command": ["script", "now"],
    "two words behind the command": ["script", "now", "then"],
    "an option behind the command": ["script", "now", "--db", "x"],
    "the command twice": ["script", "script"],
    "an unknown option": ["--fly", "script"],
    "a file behind its command": ["script", "--db", "store"],
    "an option behind its command": ["script", "--base", "x:y"],
    "an option twice": ["--base", "x:y", "--base", "x:z", "script"],
    "a store that must exist, and no file": ["--existing", "check"],
    "the same with a wrong base": ["--base", "museum", "--existing", "script"],
    "a flag with a value": ["--db", "store.db", "--existing=yes", "check"],
    "a flag behind the command": ["--db", "store.db", "check", "--existing"],
    "a flag twice": ["--existing", "--db", "store.db", "--existing", "check"],
    "an option without its value": ["--base"],
    "an option and no command": ["--base", "x:y"],
    "a command for help": ["help"],
    "an import without a file": ["import"],
    "an import of two files": ["import", "a.csv", "b.csv"],
    "an import of a file by an option": ["import", "--file", "a.csv"],
    "a word behind an export": ["export", "a.nt"],
    "a display without a scheme": ["alphabetical", "--lang", "en"],
    "a display without a language": ["hierarchical", "--scheme", "1"],
    "a display of a scheme without its number": ["alphabetical", "--lang", "en", "--scheme"],
    "a display of two schemes": ["alphabetical", "--scheme", "1", "--scheme", "2", "--lang", "en"],
    "a display's option before its command": ["--scheme", "1", "alphabetical", "--lang", "en"],
    "a word behind a display": ["alphabetical", "--scheme", "1", "--lang", "en", "1"],
    "a server without a port": ["serve"],
    "a server with a count alone": ["serve", "--count", "1"],
    "a server at port 0": ["serve", "--port", "0"],
    "a server at port 65536": ["serve", "--port", "65536"],
    "a server at port -1": ["serve", "--port", "-1"],
    "a server at a port of letters": ["serve", "--port", "http"],
    "a server at no port": ["serve", "--port="],
    "a server of no connection": ["serve", "--port", "8080", "--count", "0"],
    "a server of 4294967296 connections": ["serve", "--port", "8080", "--count", "4294967296"],
    "a server of many connections": ["serve", "--port", "8080", "--count", "many"],
}


@pytest.mark.parametrize("name", SCRIPTS)
def test_script(name: str) -> None:
    given, *wanted = SCRIPTS[name]
    assert run(["script"], given) == tuple(wanted)


@pytest.mark.parametrize("name", OTHERS)
def test_command_line(name: str) -> None:
    words, given, *wanted = OTHERS[name]
    assert run(words, given) == tuple(wanted)


def test_store_beyond_the_limits_is_opened(tmp_path: Path) -> None:
    path = tmp_path / "store"
    run(["--db", path, "script"], CONCEPTS)
    limits = [f"--max-{it}=1" for it in ("resources", "labels", "links", "postings", "moves")]
    sizes = b"ok resources=4 labels=4 links=0 accepted=0 withdrawn=0 moves=0\n"
    assert run(["--db", path, *limits, "check"]) == (0, sizes, b"")


# --- terminals ---


def run_on_terminal(words: Sequence[str | Path], stream: str, given: bytes = b"") -> Ended:
    """Runs the program with standard output or standard error on a terminal, and returns how it ended."""
    ours, theirs = pty.openpty()
    streams: dict[str, Any] = {"stdout": subprocess.PIPE, "stderr": subprocess.PIPE, stream: theirs}
    with subprocess.Popen([built(), *words], stdin=subprocess.PIPE, **streams) as program:
        os.close(theirs)
        out, err = program.communicate(given)
        there = b""
        with contextlib.suppress(OSError):
            while more := os.read(ours, 65536):
                there += more
    os.close(ours)
    there = there.replace(b"\r\n", b"\n")
    return Ended(program.returncode, *((there, err) if stream == "stdout" else (out, there)))


# Characters that a terminal would obey, which are shown by their numbers there, and others.
OBEYED = "\x80\x9b\x9f\u2028\u2029"
LABEL = "~\x80\x9b\x9f\xa0\u2027\u2028\u2029\u202a\xe9"
SHOWN = "".join(f"\\u{{{ord(it):x}}}" if it in OBEYED else it for it in LABEL)


@pytest.fixture(scope="module")
def labelled(tmp_path_factory: pytest.TempPathFactory) -> tuple[Path, Ended]:
    """A store with such a label, and how the script ended that made it on a terminal."""
    path = tmp_path_factory.mktemp("terminal") / "store"
    label = json.dumps({"do": "addLabel", "owner": 2, "kind": "alt", "tag": "en", "text": LABEL})
    return path, run_on_terminal(["--db", path, "script"], "stderr", CONCEPTS + label.encode() + b"\n")


def test_new_store_is_announced_on_a_terminal(labelled: tuple[Path, Ended]) -> None:
    path, made = labelled
    assert (made.status, made.err) == (0, f"thesaurus: new store {path}\n".encode())
    assert run_on_terminal(["--db", path, "check"], "stderr").err == b""


def test_new_store_of_a_migration_is_announced(tmp_path: Path) -> None:
    path = tmp_path / "other"
    wanted = (0, b"version 2\n", f"thesaurus: new store {path}\n".encode())
    assert run_on_terminal(["--db", path, "migrate"], "stderr") == wanted


def test_display_on_a_terminal_shows_what_it_would_obey(labelled: tuple[Path, Ended]) -> None:
    words: list[str | Path] = ["--db", labelled[0], "alphabetical", "--scheme", "1", "--lang", "en"]
    plain = run(words)
    assert not plain.status and LABEL.encode() in plain.out
    assert run_on_terminal(words, "stdout") == (0, plain.out.replace(LABEL.encode(), SHOWN.encode()), b"")


def test_export_on_a_terminal_is_as_elsewhere(labelled: tuple[Path, Ended]) -> None:
    assert LABEL.encode() in run_on_terminal(["--db", labelled[0], "export"], "stdout").out


# --- usage and help ---


@pytest.mark.parametrize("name", USAGE)
def test_wrong_command_line_is_reported(name: str) -> None:
    """It is reported on standard error alone, and no line is answered."""
    ended = run(USAGE[name], b'{"get":"totals"}\n')
    assert (ended.status, ended.out) == (2, b"")
    assert ended.err.endswith(b"For more information, try '--help'.\n")


def test_unknown_command_is_named() -> None:
    assert b"fly" in run(["fly"]).err


def test_word_that_is_not_utf8_is_reported() -> None:
    assert run([b"\xff"]) == (2, b"", b"thesaurus: a word of the command line is not UTF-8\n")


@pytest.mark.parametrize("words", HELP, ids=" ".join)
def test_help_goes_to_standard_output(words: tuple[str, ...]) -> None:
    ended = run(words)
    assert (ended.status, ended.err) == (0, b"")
    assert not [it for it in HELP[words] if it not in ended.out]


# In this order the examples use one store.
COMMANDS = ("script", "import", "export", "alphabetical", "hierarchical", "serve", "check", "migrate")


def text_of(block: list[str]) -> str:
    return "".join(f"{it[2:]}\n" for it in block)


def is_run(block: list[str]) -> bool:
    return all(it.startswith("  ") for it in block) and block[0].startswith(("  thesaurus ", "  printf "))


def test_examples_of_the_help_print_what_it_says(tmp_path: Path) -> None:
    """They are run one after another in one folder. A server has no end, and isn't run."""
    texts = [run([*words, "--help"]).out.decode() for words in ((), *((it,) for it in COMMANDS))]
    blocks = [it.splitlines() for text in texts for it in text.split("\n\n")]
    examples = [it for it in zip(blocks, blocks[1:]) if is_run(it[0])]
    assert len(examples) == 10
    (tmp_path / "thesaurus").symlink_to(PROGRAM)
    environment = {**os.environ, "PATH": f"{tmp_path}:{os.environ['PATH']}"}
    for lines, answer in examples:
        text = text_of([it for it in lines if " serve " not in it])
        wanted = text_of(answer) if answer[0].startswith("  ") else ""
        ran = subprocess.run(["sh", "-ec", text], cwd=tmp_path, env=environment, capture_output=True, check=False)
        assert (ran.returncode, ran.stdout.decode(), ran.stderr) == (0, wanted, b""), text


# --- devices ---


@pytest.mark.parametrize("word", ["script", "--help"])
def test_full_disk_is_the_fault_write(word: str) -> None:
    with open("/dev/full", "wb") as full:
        assert run([word], b'{"get":"totals"}\n', stdout=full) == (3, b"", b"thesaurus: fault Write\n")


def test_folder_as_standard_input_is_the_fault_read() -> None:
    folder = os.open("/", os.O_RDONLY)
    try:
        assert run(["script"], stdin=folder) == (3, b"", b"thesaurus: fault Read\n")
    finally:
        os.close(folder)
