"""Installs the program with its manual, tools, sample and documents below a folder. Nothing else of the repository is
needed then.

  PREFIX/lib/thesaurus                      all of it, with the paths that the documents have, as tools/load
  PREFIX/bin/thesaurus                      the program
  PREFIX/bin/thesaurus-load and so on       the tools
  PREFIX/share/man/man1/thesaurus.1         the manual

Examples:
  sudo tools/install /usr/local
  tools/install ~/.local --program crates/thes_cli/out/thes_cli

It runs in the repository, whose program it builds if need be, and in an unpacked release. What an earlier run installed
is replaced; any other file in the way is refused. The tools need Python 3.11. Exit status: 0 done, 1 something is in
the way, 2 usage, 3 a fault.
"""
from __future__ import annotations

import argparse
import os
import shutil
import subprocess
import tempfile
from collections.abc import Iterator
from pathlib import Path

from thesaurus_tools.command_line import DONE, REFUSED, ToolError, parser_of, run

HOME = Path(__file__).resolve().parents[3]
MARK = ".made-by-thesaurus-install"
FOLDERS = ("tools", "desk", "share", "examples", "docs")
FILES = (
    "README.md",
    "CHANGELOG.md",
    "CONTRIBUTING.md",
    "SECURITY.md",
    "LICENSE-APACHE",
    "LICENSE-MIT",
    "NOTICE",
    "thesaurus.1",
    "PROVED",
    # (what documents link to, of folders that nobody needs else)
    "bench/PROFILES.md",
    "bench/README.md",
    "bench/RESULTS.md",
    "bench/plain.c",
    "crates/thesaurus/src/lib.rt",
)
# The place that the files of share/ name.
NAMED_PREFIX = "/usr/local/"


def find_program(given: Path | None) -> Path:
    """Returns the program: the one given, that of a release, or that of the repository, which is built if need be."""
    launcher = HOME / "thesaurus"
    if given:
        return given
    if launcher.read_bytes()[:4] == b"\x7fELF":
        return launcher
    ran = subprocess.run([launcher, "--version"], stdin=subprocess.DEVNULL, stdout=subprocess.DEVNULL, check=False)
    if ran.returncode:
        raise ToolError("the program isn't built")
    return HOME / "crates" / "thes_cli" / "out" / "thes_cli"


def files_of_tree() -> Iterator[Path]:
    """Yields what is installed, by its path in the repository."""
    for name in FILES:
        if (HOME / name).is_file():
            yield Path(name)
    for folder in FOLDERS:
        for path in sorted((HOME / folder).rglob("*")):
            is_left_out = path.parent == HOME / "tools" and path.name.startswith("NOTES")
            own = path.relative_to(HOME)
            is_hidden = "__pycache__" in own.parts or any(it.startswith(".") for it in own.parts)
            if path.is_file() and not is_hidden and not is_left_out:
                yield own


def write_tree(program: Path, tree: Path, prefix: Path | None = None) -> None:
    """Writes all files to a new folder, the files of share/ with the prefix."""
    for path in files_of_tree():
        (tree / path).parent.mkdir(parents=True, exist_ok=True)
        data = (HOME / path).read_bytes()
        if prefix and path.parts[0] == "share":
            data = data.replace(NAMED_PREFIX.encode(), f"{prefix}/".encode())
        (tree / path).write_bytes(data)
        (tree / path).chmod(0o755 if os.access(HOME / path, os.X_OK) else 0o644)
    shutil.copyfile(program, tree / "thesaurus")
    (tree / "thesaurus").chmod(0o755)
    for folder in (tree, *(it for it in tree.rglob("*") if it.is_dir())):
        folder.chmod(0o755)


def links_of(tree: Path) -> dict[str, str]:
    """The links to make, by their paths below the prefix: each with the path in the tree to which it leads."""
    tools = [
        it.name for it in sorted((tree / "tools").iterdir()) if it.is_file() and not it.suffix and it.name != "install"
    ]
    return {
        "bin/thesaurus": "thesaurus",
        **{f"bin/thesaurus-{it}": f"tools/{it}" for it in tools},
        "share/man/man1/thesaurus.1": "thesaurus.1",
    }


def is_own(link: Path, place: Path) -> bool:
    """Whether a path is free, or a link into the installed tree."""
    return (
        not os.path.lexists(link)
        or link.is_symlink()
        and (link.parent / os.readlink(link)).parent.resolve().is_relative_to(place)
    )


def install(program: Path, prefix: Path) -> list[str]:
    """Installs everything below a folder, and returns the links that were made."""
    place = prefix / "lib" / "thesaurus"
    if os.path.lexists(place) and not (place / MARK).exists():
        raise ToolError(f"{place}: something else is there", REFUSED)
    place.parent.mkdir(parents=True, exist_ok=True)
    room = Path(tempfile.mkdtemp(prefix=".thesaurus-", dir=place.parent))
    try:
        tree = room / "new"
        write_tree(program, tree, prefix)
        (tree / MARK).touch()
        links = links_of(tree)
        in_the_way = [it for it in links if not is_own(prefix / it, place)]
        if in_the_way:
            raise ToolError(f"{prefix / in_the_way[0]}: something else is there", REFUSED)
        if place.exists():
            remove_links(prefix, links_of(place), set(links))
            place.rename(room / "old")
        tree.rename(place)
    finally:
        shutil.rmtree(room, ignore_errors=True)
    for link, path in links.items():
        make_link(prefix / link, place / path)
    return list(links)


def remove_links(prefix: Path, old: dict[str, str], new: set[str]) -> None:
    """Removes the links of an earlier version that this one doesn't have."""
    for link in old:
        if link not in new and (prefix / link).is_symlink():
            (prefix / link).unlink()


def make_link(link: Path, target: Path) -> None:
    """Makes a link, or has it lead elsewhere, all at once."""
    link.parent.mkdir(parents=True, exist_ok=True)
    new = link.with_name(f".{link.name}.new")
    new.unlink(missing_ok=True)
    new.symlink_to(os.path.relpath(target, link.parent))
    new.rename(link)


def arguments() -> argparse.Namespace:
    parser = parser_of("install", __doc__)
    parser.add_argument("prefix", type=Path, metavar="PREFIX", help="the folder, as /usr/local; it is made if need be")
    parser.add_argument(
        "--program", type=Path, metavar="PATH", help="the program to install, in place of the one built here"
    )
    parser.add_argument(
        "--tree",
        action="store_true",
        help="write the files alone to the new folder PREFIX, without links, as a release has them",
    )
    return parser.parse_args()


def carry_out(given: argparse.Namespace) -> str:
    """Installs what the arguments say. Returns what is to be said of it."""
    program, prefix = find_program(given.program), Path(os.path.abspath(given.prefix))
    if given.tree:
        prefix.mkdir(parents=True)
        write_tree(program, prefix)
        return f"the files are in {prefix}"
    links = install(program, prefix)
    ran = subprocess.run([prefix / "bin" / "thesaurus", "--version"], capture_output=True, text=True, check=False)
    if ran.returncode:
        raise ToolError(f"the installed program doesn't run: {ran.stderr.strip()}")
    return f"{ran.stdout.strip()} is installed in {prefix}: {', '.join(links)}"


def main() -> int:
    print(carry_out(arguments()))
    return DONE


def command() -> None:
    """Runs it, and ends with its exit status."""
    run("install", main)
