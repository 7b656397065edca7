"""Reads the definitions in crates/*/specs and the contracts in crates/*/src, for the tools that make lists of them and
for tests/sources/definitions."""
from __future__ import annotations

import argparse
import functools
import re
import sys
from collections.abc import Iterable, Iterator
from dataclasses import dataclass, field
from pathlib import Path
from typing import NamedTuple

ROOT = Path(__file__).resolve().parents[1]
USE = re.compile(r"(ghost |pub )?\s*use Rattle\.(\w+)\.specs\.(\w+)(?:\.\{([^}]*)\}| as (\w+))?;?\s*$")
DEFINED = re.compile(r" *(?:(?:abbrev |unfoldable )pub|pub (?:record|data)) ([^\s:({]+)")
WORD = re.compile(r"[^\s(){}\[\],;:≡≢→←×⊎λ¬|&.!?+*/<>=]+(?:\.[^\s(){}\[\],;:≡≢→←×⊎λ¬|&.!?+*/<>=]+)?")
FUNCTION = re.compile(r"( *)(pub(?:\([^)]*\))? )?(?:const )?fn (\w+)")
CLAUSE = re.compile(r" *(?:ensures|requires|decreases)\b")
OWNER = re.compile(r"(?:pub )?(?:impl|trait)\b")


def arguments(more: dict[str, str] | None = None) -> argparse.Namespace:
    """The arguments of a tool that makes a list, whose description is its help: --write, and further options, each with
    what it does."""
    parser = argparse.ArgumentParser(
        description=sys.modules["__main__"].__doc__, formatter_class=argparse.RawDescriptionHelpFormatter
    )
    for name, text in {"--write": "write what is made to the page", **(more or {})}.items():
        parser.add_argument(name, action="store_true", help=text)
    return parser.parse_args()


class Place(NamedTuple):
    """Where a definition is."""

    crate: str
    file: str
    name: str


class Imports(NamedTuple):
    """The definitions that a file imports, by their names there, and the files that it imports whole."""

    names: dict[str, Place]
    files: dict[str, tuple[str, str]]


class Definition(NamedTuple):
    """A definition: its comment, its text, and the line of its file where that begins."""

    comment: str
    body: str
    line: int


class Function(NamedTuple):
    """A function of the sources: whether other crates can call it, its comment, its clauses as a text, and its line."""

    crate: str
    owner: str
    name: str
    is_public: bool
    comment: str
    clauses: str
    line: int


def imported(lines: Iterable[str]) -> Imports:
    """The definitions that lines of `use` import, by their names here; and the files that they import whole."""
    names: dict[str, Place] = {}
    files: dict[str, tuple[str, str]] = {}
    for line in lines:
        if not (use := USE.match(line.strip())):
            continue
        _, crate, file, listed, alias = use.groups()
        for it in filter(None, (it.strip() for it in (listed or "").split(","))):
            was, _, name = it.partition(" as ")
            names[(name or was).strip()] = Place(crate, file, was.strip())
        if alias:
            files[alias] = (crate, file)
    return Imports(names, files)


def read_file(path: Path) -> tuple[dict[str, Definition], str]:
    """The definitions of a file of specs, by name, and the comment that it begins with."""
    found: dict[str, Definition] = {}
    comment: list[str] = []
    name, head = None, ""
    for number, line in enumerate(path.read_text(encoding="utf-8").splitlines(), 1):
        text = line.strip()
        if text.startswith("--"):
            comment.append(text.lstrip("- "))
            continue
        head = head or " ".join(comment)
        if match := DEFINED.match(line):
            name = match[1]
            found.setdefault(name, Definition(" ".join(comment), line, number))
        elif text.startswith(("use ", "pub use ", "module ")):
            name = None
        elif name:
            found[name] = found[name]._replace(body=f"{found[name].body}\n{line}")
        # (an operator's binding is between its comment and its definition)
        if not text.startswith("infix"):
            comment = []
    return found, head


@dataclass
class Specs:
    """All definitions, with what each uses; the comments and the imports of their files; and the places that a file
    passes on."""

    all: dict[Place, Definition] = field(default_factory=dict)
    heads: dict[tuple[str, str], str] = field(default_factory=dict)
    imports: dict[tuple[str, str], Imports] = field(default_factory=dict)
    passed: dict[Place, Place] = field(default_factory=dict)

    def add_file(self, path: Path) -> None:
        crate, file = path.parts[-3], path.stem
        lines = path.read_text(encoding="utf-8").splitlines()
        names, self.heads[crate, file] = read_file(path)
        self.all.update({Place(crate, file, it): definition for it, definition in names.items()})
        self.imports[crate, file] = imported(lines)
        passed = imported(it for it in lines if it.startswith("pub use")).names
        self.passed.update({Place(crate, file, it): place for it, place in passed.items()})

    @functools.cached_property
    def uses(self) -> dict[Place, set[Place]]:
        return {
            it: set(self.resolved(definition.body, self.imports[it.crate, it.file], it)) - {it}
            for it, definition in self.all.items()
        }

    def resolved(self, text: str, imports: Imports, within: Place | None = None) -> Iterator[Place]:
        """The definitions that a text names, given what its file imports."""
        text = re.sub(r"--.*", "", text)
        for word in WORD.findall(text):
            first, _, second = word.partition(".")
            place: Place | None
            if first in imports.files and second:
                place = Place(*imports.files[first], second)
            else:
                own = Place(within.crate, within.file, first) if within else None
                place = imports.names.get(word) or imports.names.get(first) or own
            while place in self.passed:
                place = self.passed[place]
            if place in self.all:
                yield place

    def reached(self, start: Iterable[Place]) -> set[Place]:
        """The definitions that these use, by however many steps, and these."""
        found: set[Place] = set()
        left = list(start)
        while left:
            place = left.pop()
            if place not in found:
                found.add(place)
                left += self.uses[place]
        return found

    @functools.cached_property
    def cited(self) -> set[Place]:
        """The definitions that public contracts cite: clauses of public functions and of traits' methods, views of
        types, and what an impl gives for a relation of its trait."""
        found: set[Place] = set()
        for path in sorted(ROOT.glob("crates/*/src/**/*.rt")):
            lines = path.read_text(encoding="utf-8").splitlines()
            texts = [it.clauses for it in functions_of(path) if it.is_public]
            texts += [it for it in lines if re.match(r"\s*ghost (?!coded|invariant|use)\w+ =", it)]
            found.update(self.resolved("\n".join(texts), imported(lines)))
        return found

    def cited_by(self, crate: str, name: str) -> set[Place]:
        """The definitions that the clauses of a crate's functions of this name cite."""
        found: set[Place] = set()
        for path in sorted(ROOT.glob(f"crates/{crate}/src/**/*.rt")):
            lines = path.read_text(encoding="utf-8").splitlines()
            for it in functions_of(path):
                if name in (it.name, f"{it.owner}::{it.name}") and it.is_public:
                    found.update(self.resolved(it.clauses, imported(lines)))
        return found


def read_specs() -> Specs:
    """Reads the definitions of all crates."""
    found = Specs()
    for path in sorted(ROOT.glob("crates/*/specs/*.antt")):
        found.add_file(path)
    return found


def clauses_below(lines: list[str], at: int) -> str:
    """The clauses below the head of a function."""
    text, inside = [], 0
    for line in lines[at:]:
        is_clause = CLAUSE.match(line)
        if is_clause or inside > 0:
            inside = line.count("{") - line.count("}") + (0 if is_clause else inside)
            text.append(line)
            if inside <= 0 and line.rstrip().endswith(";"):
                break
        elif line.strip() in ("{", "{}") or line.rstrip().endswith((";", "{", "{}")):
            break
    return "\n".join(text)


def functions_of(path: Path) -> Iterator[Function]:
    """The functions of a file of sources."""
    lines = path.read_text(encoding="utf-8").splitlines()
    crate = path.relative_to(ROOT / "crates").parts[0]
    comment: list[str] = []
    owner, is_open = "", False
    for at, line in enumerate(lines):
        if OWNER.match(line):
            head = re.split(r"\{|\bwhere\b", line)[0]
            is_open = bool(re.match(r"pub trait |impl.* for ", line))
            of = re.sub(r".* for |impl(<[^{]*?>)? |(pub )?trait ", "", head)
            names = re.findall(r"\w+", re.sub(r"<[^<>]*(<[^<>]*>[^<>]*)*>", "", of))
            owner = names[0] if names else ""
        elif line == "}":
            owner, is_open = "", False
        text = line.strip()
        if text.startswith("///"):
            comment.append(text[3:].strip())
        elif match := FUNCTION.match(line):
            is_public = match[2] == "pub " or (is_open and not match[2])
            clauses = clauses_below(lines, at)
            owned_by = owner if match[1] else ""
            yield Function(crate, owned_by, match[3], is_public, " ".join(comment), clauses, at + 1)
            comment = []
        elif not text.startswith("#["):
            comment = []


def first_sentence(text: str) -> str:
    """The first sentence of a comment."""
    match = re.match(r"(.+?\.)(?= [A-Z`(]|$)", text)
    return match[1] if match else text
