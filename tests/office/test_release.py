"""dev/release in a clean clone of a small repository, with a stand-in for the prover: what it refuses, what is in
the archive, and that two builds have the same bytes. It is run in a bare Debian, where debootstrap can make one."""
from __future__ import annotations

import hashlib
import os
import platform
import re
import shutil
import struct
import subprocess
import sys
import tarfile
from collections.abc import Callable
from pathlib import Path
from typing import Any

import pytest
from program import ROOT, built, version

pytestmark = [
    pytest.mark.needs("git"),
    pytest.mark.skipif(platform.machine() != "x86_64", reason="the processor isn't x86_64"),
]
DOCUMENTS = (
    "README.md",
    "CHANGELOG.md",
    "CONTRIBUTING.md",
    "SECURITY.md",
    "LICENSE-APACHE",
    "LICENSE-MIT",
    "NOTICE",
    "thesaurus.1",
)
LINKED = "crates/thesaurus/src/lib.rt"
PARTS = ("dev", "tools", "desk", "share", "examples", "docs", "bench", "thesaurus", LINKED, *DOCUMENTS)
CRATES = "thes_base:\nthes_core: thes_base json\nthes_cli: thes_base thes_core\ntest_base: thes_base\n"
KIT = "rattle-kit-0 logic 0123456789abcdef"
# Prints what `rt ci` prints for the crates of the folder, of thes_core that an earlier run proved it; puts the program
# where rt puts it, and fails for the crates in UNPROVED.
STAND_IN = """#!{python}
import os, shutil, sys
if sys.argv[1:] == ["version"]:
    print("{kit}")
    sys.exit()
unproved = os.environ.get("UNPROVED", "").split()
names = [it.split(":")[0] for it in open("crates.txt")]
for name in names:
    how = "is kept: an earlier run proved the same files" if name == "thes_core" else "proved"
    print("rt:", name, "NOT PROVED" if name in unproved else how)
os.mkdir("crates/thes_cli/out")
shutil.copy(os.environ["STAND_IN_PROGRAM"], "crates/thes_cli/out/thes_cli")
print(len(names) - len(unproved), "passed,", len(unproved), "failed")
sys.exit(1 if unproved else 0)
"""
# Writes a text and ends: mov eax,1; mov edi,1; lea rsi,[rip+16]; mov edx,SIZE; syscall; mov eax,60; xor edi,edi;
# syscall.
CODE = "b801000000 bf01000000 488d3510000000 ba{size} 0f05 b83c000000 31ff 0f05"


def program_that_prints(text: bytes) -> bytes:
    """The bytes of a program for Linux on x86-64 that prints a text."""
    code = bytes.fromhex(CODE.format(size=struct.pack("<I", len(text)).hex())) + text
    size = 120 + len(code)
    head = (
        b"\x7fELF\x02\x01\x01"
        + bytes(9)
        + struct.pack("<HHIQQQIHHHHHH", 2, 62, 1, 0x400078, 64, 0, 0, 64, 56, 1, 0, 0, 0)
    )
    return head + struct.pack("<IIQQQQQQ", 1, 5, 0, 0x400000, 0x400000, size, size, 0x1000) + code


def git(folder: Path, *words: str) -> str:
    date = "2026-01-02T03:04:05Z"
    who = {
        f"GIT_{it}_{part}": value
        for it in ("AUTHOR", "COMMITTER")
        for part, value in (("NAME", "A"), ("EMAIL", "a@example.org"), ("DATE", date))
    }
    return subprocess.run(
        ["git", *words], cwd=folder, capture_output=True, text=True, check=True, env={**os.environ, **who}
    ).stdout


Ran = subprocess.CompletedProcess[str]


class Repository:
    """A repository with what is released of this one and three crates, and its clean clone."""

    def __init__(self, room: Path) -> None:
        self.room, self.origin, self.clone = room, room / "origin", room / "clone"
        self.program, self.tools = room / "program", room / "bin"
        self.environment = {
            **os.environ,
            "PATH": f"{self.tools}:{os.environ['PATH']}",
            "STAND_IN_PROGRAM": str(self.program),
        }

    def make(self) -> None:
        """Writes the repository, clones it, and writes what stands in for the toolchain."""
        for part in PARTS:
            source, to = ROOT / part, self.origin / part
            to.parent.mkdir(parents=True, exist_ok=True)
            if source.is_dir():
                shutil.copytree(source, to, ignore=shutil.ignore_patterns("__pycache__", "NOTES*"))
            else:
                shutil.copy(source, to)
        for name in re.findall(r"^(\w+):", CRATES, re.M):
            (self.origin / "crates" / name / "src").mkdir(parents=True)
            (self.origin / "crates" / name / "src" / "lib.rt").write_text("//! Nothing.\n", encoding="utf-8")
        (self.origin / "crates.txt").write_text(CRATES, encoding="utf-8")
        (self.origin / "HANDLES").write_text("Handles allowed: Net.\n", encoding="utf-8")
        (self.origin / ".gitignore").write_text("out/\n__pycache__/\n", encoding="utf-8")
        git(self.room, "init", "--quiet", str(self.origin))
        git(self.origin, "add", "--all")
        git(self.origin, "commit", "--quiet", "--message", "all")
        git(self.room, "clone", "--quiet", str(self.origin), str(self.clone))
        self.tools.mkdir()
        (self.tools / "rt").write_text(STAND_IN.format(python=sys.executable, kit=KIT), encoding="utf-8")
        (self.tools / "rt").chmod(0o755)
        self.use(good())

    def use(self, data: bytes) -> None:
        """Has the stand-in build another program."""
        self.program.write_bytes(data)
        self.program.chmod(0o755)

    def release(self, *words: object, **environment: str) -> Ran:
        return subprocess.run(
            [self.clone / "dev" / "release", *map(str, words)],
            capture_output=True,
            text=True,
            check=False,
            env={**self.environment, **environment},
        )

    def archive(self, folder: str = "out") -> Path:
        return self.clone / folder / f"thesaurus-{version()}-{platform.machine()}-linux.tar.gz"


def good() -> bytes:
    """The program that is tested, which is of this version."""
    data: bytes = built().read_bytes()
    said = subprocess.run([built(), "--version"], capture_output=True, check=False).stdout
    if data[:4] != b"\x7fELF" or said != f"thesaurus {version()}\n".encode():
        pytest.skip("the program isn't of this version")
    return data


@pytest.fixture(scope="module")
def made(tmp_path_factory: pytest.TempPathFactory) -> Repository:
    made = Repository(tmp_path_factory.mktemp("release").resolve())
    made.make()
    return made


@pytest.fixture
def it(made: Repository) -> Repository:
    """The repository, with a program that is right."""
    made.use(good())
    return made


# --- refused ---

WITHOUT_RT = ":".join(it for it in os.environ["PATH"].split(":") if not (Path(it) / "rt").exists())
# Programs that aren't those of this version, with what is said.
OTHERS = {
    "another version": (program_that_prints(b"thesaurus 9.9\n"), "9.9"),
    "a program that is a script": (f"#!/bin/sh\necho thesaurus {version()}\n".encode(), "ELF"),
}


def assert_refused(it: Repository, status: int, said: str, **environment: str) -> None:
    ran = it.release("--out", it.clone / "out" / "refused", **environment)
    assert ran.returncode == status and said in ran.stderr and "Traceback" not in ran.stderr, ran
    assert not it.archive("out/refused").exists()


def test_changed_file_is_refused(it: Repository) -> None:
    changed = it.clone / "README.md"
    text = changed.read_bytes()
    changed.write_bytes(text + b"\n")
    assert_refused(it, 1, "README.md")
    changed.write_bytes(text)


def test_crate_that_isnt_proved_is_refused(it: Repository) -> None:
    assert_refused(it, 1, "not proved: thes_base", UNPROVED="thes_base")


def test_no_prover(it: Repository) -> None:
    assert_refused(it, 127, "without rt", PATH=WITHOUT_RT)


@pytest.mark.parametrize("what", OTHERS)
def test_other_program_is_refused(what: str, it: Repository) -> None:
    data, said = OTHERS[what]
    it.use(data)
    assert_refused(it, 1, said)


# --- what is in the archive ---


@pytest.fixture(scope="module")
def released(made: Repository) -> Repository:
    made.use(good())
    new = made.clone / "share" / "new"
    new.touch()
    ran = made.release()
    new.unlink()
    assert not ran.returncode, ran
    return made


@pytest.fixture(scope="module")
def tree(released: Repository) -> Path:
    """The archive's folder, unpacked."""
    place = released.room / "unpacked"
    safely: Any = {"filter": "data"} if hasattr(tarfile, "data_filter") else {}
    with tarfile.open(released.archive()) as archive:
        archive.extractall(place, **safely)
    return place / released.archive().name.removesuffix(".tar.gz")


def files_in(tree: Path) -> set[str]:
    return {str(it.relative_to(tree)) for it in tree.rglob("*") if it.is_file()}


def test_members_have_one_folder_date_and_owner(released: Repository, tree: Path) -> None:
    with tarfile.open(released.archive()) as archive:
        members = archive.getmembers()
    date = int(git(released.clone, "show", "--no-patch", "--format=%ct"))
    assert {(one.mtime, one.uid, one.gid, one.uname) for one in members} == {(date, 0, 0, "")}
    assert {one.mode for one in members} <= {0o755, 0o644}
    assert {one.name.split("/")[0] for one in members} == {tree.name}


def test_sums_are_of_all_files(tree: Path) -> None:
    words = ["sha256sum", "--quiet", "--check", "SHA256SUMS"]
    ran = subprocess.run(words, cwd=tree, capture_output=True, text=True, check=False)
    assert not ran.returncode, ran.stderr
    assert len((tree / "SHA256SUMS").read_text(encoding="utf-8").splitlines()) == len(files_in(tree)) - 1


def test_files_are_those_for_users(tree: Path) -> None:
    files = files_in(tree)
    examples = {"docs/GUIDE.md", "examples/instruments.jsonl", "share/nginx.conf", "tools/site", "tools/install"}
    assert not {"thesaurus", "PROVED", *DOCUMENTS, *examples} - files
    assert not [one for one in files if one in ("dev/build", "dev/release")]
    assert [one for one in files if one.startswith("crates")] == [LINKED]


def test_file_that_git_doesnt_know_is_left_out(tree: Path) -> None:
    assert not (tree / "share" / "new").exists()


def test_documents_link_to_files_of_the_archive(tree: Path) -> None:
    links = {
        document.parent / link
        for document in tree.rglob("*.md")
        for link in re.findall(r"\]\(([^)#:\s]+)(?:#[^)]*)?\)", document.read_text(encoding="utf-8"))
    }
    assert len(links) > len(DOCUMENTS)
    assert [str(one) for one in links if not one.exists()] == []


def test_proved_names_the_commit_the_kit_the_program_and_the_crates(released: Repository, tree: Path) -> None:
    assert (tree / "PROVED").read_text(encoding="utf-8").splitlines() == [
        f"commit {git(released.clone, 'rev-parse', 'HEAD').strip()}",
        f"kit {KIT}",
        f"program sha256 {hashlib.sha256(good()).hexdigest()}",
        "thes_base proved",
        "thes_cli proved",
        "thes_core proved",
        "3 passed, 0 failed",
    ]


def test_program_is_that_which_was_built(tree: Path) -> None:
    assert (tree / "thesaurus").read_bytes() == good()


def test_archive_has_the_site_of_the_sample(tree: Path) -> None:
    page = (tree / "sample-site" / "en" / "5.html").read_text(encoding="utf-8")
    assert "<h1>Violins</h1>" in page and "four strings in fifths" in page
    assert {it.name for it in (tree / "sample-site").iterdir() if it.is_dir()} == {"de", "en", "fr", "rdf"}


def test_unpacked_release_can_be_installed(released: Repository, tree: Path) -> None:
    words = [tree / "tools" / "install", released.room / "prefix"]
    ran = subprocess.run(words, capture_output=True, text=True, check=False)
    assert not ran.returncode, ran
    assert (released.room / "prefix" / "lib" / "thesaurus" / "PROVED").is_file()


# --- once more ---


def test_two_builds_of_one_commit_have_the_same_bytes(released: Repository) -> None:
    released.use(good())
    again = released.release("--out", released.clone / "out" / "again", "--compare", released.archive())
    assert not again.returncode and "the same bytes" in again.stdout, again
    assert released.archive("out/again").read_bytes() == released.archive().read_bytes()


def test_difference_is_named(released: Repository) -> None:
    released.use(good() + b"x")
    other = released.release("--out", released.clone / "out" / "other", "--compare", released.archive())
    assert other.returncode == 1, other
    named = set(re.findall(r"^differs: [^/]+/(.*)$", other.stdout, re.M))
    assert named == {"thesaurus", "PROVED", "SHA256SUMS"}


def test_tree_is_clean_after_a_release(released: Repository) -> None:
    assert not git(released.clone, "status", "--porcelain")


# --- in a bare Debian ---

COMMANDS = (
    "tar xzf release.tar.gz && cd thesaurus-* && sha256sum --quiet --check SHA256SUMS && ./thesaurus "
    "--db sample.db script < examples/instruments.jsonl > answers.jsonl && ./thesaurus --db "
    "sample.db hierarchical --scheme 1 --lang fr"
)


@pytest.mark.needs("debootstrap")
def test_release_works_in_a_bare_debian(released: Repository, tmp_path: Path, leave_out: Callable[[str], None]) -> None:
    if os.geteuid():
        return leave_out("this needs root's rights")
    root = tmp_path / "debian"
    words = ["debootstrap", "--variant=minbase", "bookworm", str(root)]
    made = subprocess.run(words, capture_output=True, text=True, check=False)
    if made.returncode:
        return leave_out(f"the packages of Debian can't be reached: {made.stdout[-200:]}")
    shutil.copy(released.archive(), root / "release.tar.gz")
    ran = subprocess.run(["chroot", root, "/bin/sh", "-c", COMMANDS], capture_output=True, text=True, check=False)
    assert not ran.returncode, ran
    assert ran.stdout.startswith("Instruments de musique\n  Instruments à clavier (G)\n")
