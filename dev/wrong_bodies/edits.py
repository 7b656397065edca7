"""Wrong bodies: how they are written, which lines they change, and the functions around these."""
from __future__ import annotations

import re
import sys
from collections.abc import Iterable, Iterator
from dataclasses import dataclass, field
from pathlib import Path
from typing import NamedTuple

FUNCTION = re.compile(r"( *)(?:pub(?:\([^)]*\))? )?(?:const )?fn (\w+)")
HEADING = "# "
OLD, NEW = "old: ", "new:"


class BadEdit(Exception):
    """Why an edit cannot be applied."""


class Pair(NamedTuple):
    """A text that is once in a file, and what it becomes; each is a line, or a part of one."""

    old: str
    new: str


class WrittenBody(NamedTuple):
    """A wrong body as a file has it: its name, the source that it changes, a sentence on it, and its pairs, each after
    the earlier ones."""

    name: str
    path: str
    sentence: str
    pairs: tuple[Pair, ...]

    def text_after(self, text: str) -> str:
        """Returns the text of the source as it is after the edit. Raises BadEdit if it cannot be applied."""
        for old, new in self.pairs:
            if text.count(old) != 1:
                raise BadEdit(f"an 'old:' text is in {self.path} {text.count(old)} times, and not once")
            text = text.replace(old, new)
        return text


class Hunk(NamedTuple):
    """Lines of a source from `first` up to `last`, without that one, and what they become."""

    path: str
    first: int
    last: int
    lines: list[str]


class Place(NamedTuple):
    """The line of a source at which a function begins."""

    path: str
    line: int


@dataclass(frozen=True)
class Function:
    """A function as a file of sources has it, and as a check names it."""

    place: Place
    name: str
    pattern: re.Pattern[str]

    def is_named(self, name: str) -> bool:
        """Whether a check means this function, or a closure of it, by the name."""
        return self.pattern.fullmatch(name) is not None


@dataclass
class Edit:
    """The lines that an edit changes, the functions around them, and the outcome."""

    name: str
    hunks: list[Hunk]
    functions: list[Function]
    # (of a neutral edit: the wrong bodies of another shape)
    bodies: list[str] = field(default_factory=list)
    fault: str | None = None
    is_refused: bool = False
    goals: list[str] = field(default_factory=list)
    # How many may be tried in one round with it, and whether that must be without those that it calls.
    room: int = sys.maxsize
    is_apart: bool = False

    def places(self) -> set[Place]:
        return {it.place for it in self.functions}

    def own(self, names: Iterable[str]) -> list[str]:
        """Returns those of the names that mean a function which this edit changes."""
        return [it for it in names if any(function.is_named(it) for function in self.functions)]


def files_of(folder: Path) -> list[Path]:
    """The files of a crate's wrong bodies: one for each source, wrong/PATH.edits, and one for each body,
    wrong/NAME.edit."""
    return sorted([*folder.glob("wrong/**/*.edits"), *folder.glob("wrong/*.edit")])


def bodies_of(folder: Path) -> Iterator[WrittenBody]:
    """Yields a crate's wrong bodies. Raises BadEdit for a file that isn't in the form."""
    for file in files_of(folder):
        text = file.read_text(encoding="utf-8")
        if file.suffix == ".edit":
            yield read_single(file.stem, text)
        else:
            path = f"src/{file.relative_to(folder / 'wrong').with_suffix('.rt')}"
            yield from read_bodies(path, text)


def read_single(name: str, text: str) -> WrittenBody:
    """Reads an edit that has a file of its own: comment lines, a line 'file: src/PATH', and its pairs."""
    lines = text.split("\n")
    paths = list(dict.fromkeys(it[len("file: ") :].strip() for it in lines if it.startswith("file: ")))
    if len(paths) != 1:
        raise BadEdit(f"{name}: it changes {len(paths)} files, and not one")
    comments = [it.lstrip("# ") for it in lines if it.startswith("#")]
    return WrittenBody(name, paths[0], comments[0] if comments else "", pairs_in(name, lines))


def read_bodies(path: str, text: str) -> Iterator[WrittenBody]:
    """Yields the wrong bodies of a source: each begins with '# NAME' and, perhaps, a sentence on it, and has its pairs
    below."""
    before, *parts = re.split(rf"^{HEADING}", text, flags=re.M)
    if before.strip():
        raise BadEdit(f"the edits of {path} begin without a heading '{HEADING}NAME'")
    for part in parts:
        name, *lines = part.rstrip("\n").split("\n")
        prose = [it for it in lines if it and not it.startswith((OLD, NEW))]
        yield WrittenBody(name.strip(), path, " ".join(prose), pairs_in(name, lines))


def pairs_in(name: str, lines: list[str]) -> tuple[Pair, ...]:
    """Returns the pairs of lines 'old: TEXT' and 'new: TEXT'."""
    marked = [it for it in lines if it.startswith((OLD, NEW))]
    pairs = list(zip(marked[::2], marked[1::2]))
    if not pairs or len(marked) % 2 or not all(a.startswith(OLD) and b.startswith(NEW) for a, b in pairs):
        raise BadEdit(f"{name}: its lines 'old: TEXT' and 'new: TEXT' aren't pairs")
    return tuple(Pair(old[len(OLD) :], new[len(NEW) :].removeprefix(" ")) for old, new in pairs)


def edit_of(folder: Path, body: WrittenBody) -> Edit:
    """Returns what a wrong body changes of its crate. Raises BadEdit if it cannot be applied."""
    if not body.path.startswith("src/") or not (folder / body.path).is_file():
        raise BadEdit(f"there is no file {body.path} of sources")
    text = (folder / body.path).read_text(encoding="utf-8")
    was = text.split("\n")
    hunks = [Hunk(body.path, *it) for it in hunks_between(was, body.text_after(text).split("\n"))]
    if not hunks:
        raise BadEdit("it changes nothing")
    functions = [function_around(folder.name, body.path, was, it.first) for it in hunks]
    return Edit(f"{folder.name}/{body.name}", hunks, functions)


def read_edits(root: Path, names: Iterable[str], word: str) -> tuple[dict[str, list[Edit]], list[str]]:
    """Returns the edits of each crate whose names have a word, and those that cannot be applied with the reason."""
    edits: dict[str, list[Edit]] = {}
    faults = []
    for name in names:
        folder, seen = root / "crates" / name, set()
        try:
            bodies = sorted(bodies_of(folder), key=lambda it: it.name)
        except (BadEdit, UnicodeDecodeError) as why:
            faults.append(f"{name}: cannot be read: {why}")
            continue
        for body in (it for it in bodies if word in it.name):
            try:
                if body.name in seen:
                    raise BadEdit("another one has its name")
                seen.add(body.name)
                edits.setdefault(name, []).append(edit_of(folder, body))
            except (BadEdit, OSError, UnicodeDecodeError) as why:
                faults.append(f"{name}/{body.name}: cannot be applied: {why}")
    return edits, faults


def hunks_between(was: list[str], now: list[str]) -> Iterator[tuple[int, int, list[str]]]:
    """Yields the differences as (first line, line after the last, new lines).

    An edit keeps the number of lines, or changes one place.
    """
    if len(was) == len(now):
        yield from ((i, i + 1, [now[i]]) for i in range(len(was)) if was[i] != now[i])
        return
    first = next(i for i, (a, b) in enumerate(zip(was, now)) if a != b)
    behind = next(i for i, (a, b) in enumerate(zip(reversed(was), reversed(now))) if a != b)
    yield first, len(was) - behind, now[first : len(now) - behind]


def function_around(crate: str, path: str, lines: list[str], at: int) -> Function:
    """Returns the function around a line. Raises BadEdit if there is none."""
    for i in range(at, -1, -1):
        if FUNCTION.match(lines[i]):
            return function_at(crate, path, lines, i)
        if i < at and lines[i] == "}":
            break
    raise BadEdit(f"line {at + 1} of {path} is outside every function: such an edit belongs in must-fail/")


def function_at(crate: str, path: str, lines: list[str], at: int) -> Function:
    """Returns the function whose head is at a line."""
    match = FUNCTION.match(lines[at])
    assert match
    module = re.sub(r"^src/|\.rt$|/mod\.rt$", "", path).replace("/", "::")
    prefix = crate if module in ("lib", "main") else f"{crate}::{module}"
    if match[1]:
        of = owner("".join(lines[impl_above(lines, at) : at]))
        name, pattern = f"{of}::{match[2]}", rf"{crate}::(.*::)?{of}::{match[2]}"
    else:
        name, pattern = f"{prefix}::{match[2]}", rf"{prefix}::(fn::)?{match[2]}"
    return Function(Place(path, at), name, re.compile(rf"{pattern}(::.*)?"))


def impl_above(lines: list[str], at: int) -> int:
    """Returns the first line of the block around a method."""
    heads = (it for it in range(at, -1, -1) if re.match(r"(impl|(pub )?trait)\b", lines[it]))
    return next(heads, at)


def owner(block: str) -> str:
    """Returns what a check calls the block of a method: the type, and behind it the trait with its arguments."""
    head = re.split(r"\{|\bwhere\b", block)[0]
    parameters: list[str] = []
    match = re.match(r"impl<((?:[^<>]|<(?:[^<>]|<[^<>]*>)*>)*)>", head)
    if match:
        parameters = [re.sub(r"[^\w'].*", "", it.strip()) for it in match[1].split(",")]
        head = head[match.end() :]
    of, _, type_name = re.sub(r"^\s*(impl|(pub )?trait)\s+", "", head).rpartition(" for ")
    return "".join(names_in(type_name, parameters)[:1] + names_in(of, parameters))


def names_in(text: str, parameters: list[str]) -> list[str]:
    """Returns the last parts of the paths in a type, without its parameters."""
    return [it for it in re.findall(r"'?\w+(?!\w*::)", text) if it not in parameters]
