"""The program of a commit, proved: what an archive and a package of a release are made of."""
from __future__ import annotations

import hashlib
import io
import re
import shutil
import subprocess
import sys
import tarfile
from pathlib import Path
from typing import NamedTuple

HOME = Path(__file__).resolve().parent.parent
sys.path.insert(0, str(HOME / "tools"))

from thesaurus_tools.command_line import REFUSED, ToolError  # noqa: E402

PROGRAM = "thes_cli"
VERDICT = re.compile(r"^rt: (\w+) (proved$|is kept: |NOT PROVED)", re.M)
LAST_LINE = re.compile(r"\d+ passed, 0 failed")
# The libraries that Debian's libc6 has: those of glibc.
OF_C_LIBRARY = re.compile(r"linux-vdso\.so|ld-linux|lib(c|m|pthread|dl|rt|util)\.so")
NO_TOOLCHAIN = 127


class Commit(NamedTuple):
    name: str
    date: int
    version: str


def run(*words: str | Path, cwd: Path = HOME) -> str:
    """Runs a command, and returns what it printed. Raises ToolError if it fails."""
    ran = subprocess.run(
        words, cwd=cwd, stdin=subprocess.DEVNULL, capture_output=True, text=True, errors="replace", check=False
    )
    if ran.returncode:
        raise ToolError(f"{' '.join(map(str, words))}: status {ran.returncode}: {ran.stderr.strip()}")
    return ran.stdout


def this_version() -> str:
    """Returns the version of the tree, which is that of CHANGELOG's first heading."""
    heading = re.search(r"^## \[?(\d+(?:\.\d+)+)", (HOME / "CHANGELOG.md").read_text(encoding="utf-8"), re.M)
    return heading[1] if heading else ""


def this_commit() -> Commit:
    """Returns the commit that the tree is of."""
    name, date = run("git", "show", "--no-patch", "--format=%H %ct", "HEAD").split()
    return Commit(name, int(date), this_version())


def clean_commit() -> Commit:
    """Returns the commit of the tree. Raises ToolError if a file of it was changed; others aren't in a release."""
    changed = run("git", "status", "--porcelain", "--untracked-files=no").splitlines()
    if changed:
        raise ToolError("the tree isn't clean: commit or restore\n  " + "\n  ".join(changed), REFUSED)
    return this_commit()


def copy_commit(room: Path) -> Path:
    """Writes the files of the commit to a folder."""
    tree = room / "tree"
    packed = subprocess.run(
        ["git", "archive", "--format=tar", "HEAD"], cwd=HOME, capture_output=True, check=True
    ).stdout
    with tarfile.open(fileobj=io.BytesIO(packed)) as archive:
        # (the Python of Debian 12 has no filters)
        if hasattr(tarfile, "data_filter"):
            setattr(archive, "extraction_filter", tarfile.data_filter)
        archive.extractall(tree)
    return tree


def crates_of_program(tree: Path) -> list[str]:
    """The crates that the program needs, in the order of their names, by crates.txt."""
    lines = (tree / "crates.txt").read_text(encoding="utf-8").splitlines()
    below = {head.strip(): rest.split() for head, _, rest in (it.partition(":") for it in lines if it and it[0] != "#")}
    found, left = set(), [PROGRAM]
    while left:
        name = left.pop()
        if name in below and name not in found:
            found.add(name)
            left += below[name]
    return sorted(found)


def prove(tree: Path) -> list[str]:
    """Has the program proved and built, and returns a line for each crate. Raises ToolError if one isn't proved."""
    if not shutil.which("rt"):
        raise ToolError("without rt, the prover of Rattle, nothing can be proved", NO_TOOLCHAIN)
    built = subprocess.run([sys.executable, tree / "dev" / "build"], stdin=subprocess.DEVNULL, check=False)
    log = tree / "crates" / PROGRAM / "out" / "launcher.log"
    said = log.read_text(encoding="utf-8", errors="replace") if log.exists() else ""
    verdicts = dict(VERDICT.findall(said))
    crates = crates_of_program(tree)
    lacking = [it for it in crates if verdicts.get(it, "NOT PROVED") == "NOT PROVED"]
    if lacking:
        raise ToolError(f"not proved: {', '.join(lacking)}", REFUSED)
    last = said.strip().splitlines()[-1]
    if built.returncode or not LAST_LINE.fullmatch(last):
        raise ToolError(f"not proved: {last}", REFUSED)
    return [f"{it} proved" for it in crates] + [last]


def check_program(program: Path, version: str) -> None:
    """Raises ToolError for a program of another version, or one that needs more than the C library."""
    printed = run(program, "--version").strip()
    if printed != f"thesaurus {version}":
        raise ToolError(f"the program prints {printed!r}, and CHANGELOG.md has {version!r}", REFUSED)
    if program.read_bytes()[:4] != b"\x7fELF":
        raise ToolError("the program is no ELF file", REFUSED)
    # (ldd fails for a program that needs no library at all)
    listed = subprocess.run(["ldd", program], capture_output=True, text=True, check=False).stdout
    further = [it for it in re.findall(r"^\s*(\S+\.so\S*)", listed, re.M) if not OF_C_LIBRARY.match(Path(it).name)]
    if further:
        raise ToolError(f"the program needs more than the C library: {', '.join(further)}", REFUSED)


def digest(path: Path) -> str:
    return hashlib.sha256(path.read_bytes()).hexdigest()


def prove_program(tree: Path, commit: Commit) -> tuple[Path, str]:
    """Proves and builds the program in a folder with the files of a commit. Returns it, and what is to be said of it:
    the commit, the kit, its digest, and the verdict on each crate."""
    verdicts = prove(tree)
    program = tree / "crates" / PROGRAM / "out" / PROGRAM
    check_program(program, commit.version)
    lines = [
        f"commit {commit.name}",
        f"kit {run('rt', 'version', cwd=tree).splitlines()[0]}",
        f"program sha256 {digest(program)}",
        *verdicts,
    ]
    return program, "\n".join(lines) + "\n"
