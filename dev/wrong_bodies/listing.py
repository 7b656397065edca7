"""Lists the edits by the functions that they change."""
from __future__ import annotations

import re
import textwrap
from collections.abc import Iterator
from pathlib import Path
from typing import NamedTuple

from wrong_bodies.edits import FUNCTION, WrittenBody, bodies_of, hunks_between, impl_above, read_single
from wrong_bodies.records import read_shape_bound

WRAPPED = textwrap.TextWrapper(
    120, initial_indent="- ", subsequent_indent="  ", break_long_words=False, break_on_hyphens=False
)


class Listed(NamedTuple):
    """An edit, and whether it is of definitions."""

    crate: Path
    body: WrittenBody
    is_definition: bool


def crates_of(root: Path) -> list[Path]:
    """Returns the folders of the crates that have edits."""
    return sorted({it.parent for part in ("wrong", "must-fail") for it in root.glob(f"crates/*/{part}")})


def edits_of(crate: Path) -> Iterator[Listed]:
    """Yields the edits of a crate."""
    for body in bodies_of(crate):
        yield Listed(crate, body, False)
    for file in sorted(crate.glob("must-fail/*.edit")):
        yield Listed(crate, read_single(file.stem, file.read_text(encoding="utf-8")), True)


def name_around(path: str, lines: list[str], at: int) -> str | None:
    """Returns the name of the function around a line, with its file and, for a method, its type."""
    module = re.sub(r"^src/|\.rt$|/mod\.rt$", "", path).replace("/", "::")
    for i in range(at, -1, -1):
        if match := FUNCTION.match(lines[i]):
            owner = "".join(lines[impl_above(lines, i) : i]) if match[1] else ""
            of = re.sub(r"<[^<>]*(<[^<>]*>[^<>]*)*>", "", re.split(r"\{|\bwhere\b", owner)[0])
            types = re.findall(r"\w+", re.sub(r".* for |^impl |^(pub )?trait ", "", of))
            return "::".join([module, *types[-1:], match[2]])
    return None


def functions_of(crate: Path, body: WrittenBody) -> list[str]:
    """Returns the functions that an edit changes, or the file of definitions."""
    text = (crate / body.path).read_text(encoding="utf-8")
    was, now = text.split("\n"), body.text_after(text).split("\n")
    if body.path.startswith("specs/"):
        return [body.path]
    names = (name_around(body.path, was, first) for first, *_ in hunks_between(was, now))
    return list(dict.fromkeys(it for it in names if it))


def list_of(crate: Path) -> str:
    """Returns the list of a crate's edits, by the functions that they change."""
    bound, under = read_shape_bound(crate.parents[1]), dict[str, list[str]]()
    for it in sorted(edits_of(crate), key=lambda it: (not it.is_definition, it.body.name)):
        mark = "*" * it.is_definition + "°" * (f"{crate.name}/{it.body.name}" in bound)
        sentence = f" ({it.body.sentence.rstrip('.')})" if it.body.sentence else ""
        for name in functions_of(crate, it.body):
            under.setdefault(name, []).append(f"{it.body.name}{mark}{sentence}")
    return "".join(WRAPPED.fill(f"{name}: {', '.join(listed)}") + "\n" for name, listed in sorted(under.items()))


def table_of(root: Path) -> str:
    """Returns how many edits each crate has, and of how many functions."""
    bound = read_shape_bound(root)
    rows = "| Crate | Wrong bodies | of functions | that say little | Wrong definitions |\n|---|---|---|---|---|\n"
    for crate in crates_of(root):
        edits = list(edits_of(crate))
        bodies = [it.body for it in edits if not it.is_definition]
        functions = {name for it in bodies for name in functions_of(crate, it)}
        little = sum(f"{crate.name}/{it.name}" in bound for it in bodies)
        counts = (len(bodies), len(functions), little or "", len(edits) - len(bodies) or "")
        rows += f"| {crate.name} | {' | '.join(map(str, counts))} |\n"
    return rows
