"""The names of functions, definitions, modules, fields and lemmas of crates/*: none is a participle or a
preposition alone (`made`, `of`), or ends in `_told`, `_shown` or `_made`; and no two crates define one name in their
specs. The file names.txt lists the exceptions, a line each: what has the name, its crates, the name, and the reason. A
name that isn't listed fails, and so does a line whose name is gone. `tests/run --write names` writes
names.txt anew: reasons stay, and a new exception gets the reason "to be renamed"."""
from __future__ import annotations

import collections
import re
from collections.abc import Iterator
from pathlib import Path
from typing import NamedTuple

import pytest
from program import ROOT

LIST = Path(__file__).resolve().with_name("names.txt")
HEAD = """# Names that tests/sources/test_names.py would refuse, each with its reason; tests/run --write names makes it.
# What has the name, its crates, the name: the reason.
"""
NEW = "to be renamed"
# Participles that don't end in "ed", but for those that are a verb's plain form, too (read, run, set, cut, put, split,
# come).
PARTICIPLES = set(
    """
    become begun bent bound bought broken brought built caught chosen dealt done drawn driven fallen fed felt forbidden
    forgotten fought found given gone got grown heard held hidden kept known laid led left lent lost made meant met paid
    risen said seen sent shown shut slept sold sought spent spoken stood stuck struck sunk sworn swept swum taken taught
    thought thrown told torn understood undone unseen withdrawn won worn woven written
""".split()
)
PREPOSITIONS = set(
    """
    about above across after again against along alongside also among around at back before behind below beneath beside
    besides between beyond by down during else ever from here into just near of off on once onto only out outside over
    past per round since so still than then there through till to together too toward towards under until up upon via
    with within without yet
""".split()
)
NO_PARTICIPLES = set(
    "bed bleed breed exceed feed heed hundred indeed kindred need proceed red seed shed speed succeed weed".split()
)
ENDINGS = re.compile(r"_(told|shown|made)$")
DEFINED = re.compile(r"( *)(?:abbrev |unfoldable )?pub (?:(record|data) )?([^\s:({]+)")
FIELD = re.compile(r"    (?:pub(?:\([^)]*\))? )?(\w+): ")


class Name(NamedTuple):
    kind: str
    crates: str
    name: str

    def __str__(self) -> str:
        return " ".join(self)


def is_bare(name: str) -> bool:
    """Whether a name is a participle or a preposition alone, or ends like one that says what was done."""
    word = name.lower()
    is_alone = re.fullmatch(r"[A-Z]?[a-z]+\d*", name) is not None
    is_participle = word in PARTICIPLES or word.endswith("ed") and word not in NO_PARTICIPLES
    return is_alone and (is_participle or word in PREPOSITIONS) or ENDINGS.search(name) is not None


def lines_of(path: Path) -> list[str]:
    return path.read_text(encoding="utf-8").splitlines()


def names_in_rattle(path: Path) -> Iterator[tuple[str, str]]:
    """The functions and the fields of a file of code. (A function in an impl of a trait has the trait's name.)"""
    in_impl, in_struct = False, False
    for line in lines_of(path):
        if re.match(r"impl.* for |(pub )?struct |impl|(pub )?(trait|enum|fn) |}", line):
            in_impl, in_struct = (
                re.match(r"impl.* for ", line) is not None,
                re.match(r"(pub )?struct .*{$", line) is not None,
            )
        if in_struct and (match := FIELD.match(line)):
            yield "field", match[1]
        elif not in_impl and (match := re.match(r" *(?:pub(?:\([^)]*\))? )?(?:const )?fn (\w+)", line)):
            yield "function", match[1]


def names_in_specs(path: Path) -> Iterator[tuple[str, str]]:
    """The definitions and the fields of a file of specs/ or proofs/. Constructors of data have the names of the
    cases."""
    block: str | None = None
    depth = 0
    for line in lines_of(path):
        indent = len(line) - len(line.lstrip())
        if line.strip() and indent <= depth:
            block = None
        match = DEFINED.match(line)
        if not match or match[3] in ("use", "mod"):
            continue
        if block:
            yield "field" if block == "record" else "case", match[3]
        else:
            yield "definition", match[3]
            block, depth = match[2], indent


def all_names() -> tuple[set[Name], dict[str, set[str]]]:
    """Each name of each crate with its kind, and the crates whose specs/ define each name."""
    found: set[Name] = set()
    homes: dict[str, set[str]] = collections.defaultdict(set)
    for crate in sorted(it for it in (ROOT / "crates").iterdir() if it.is_dir()):
        paths = [*crate.glob("src/**/*.rt"), *crate.glob("specs/**/*.antt"), *crate.glob("proofs/*.antt")]
        for path in paths:
            if path.stem.lower() not in ("lib", "main", "mod"):
                found.add(Name("module", crate.name, path.stem))
            is_proof = path.parent.name == "proofs"
            for kind, name in names_in_rattle(path) if path.suffix == ".rt" else names_in_specs(path):
                found.add(Name("lemma" if is_proof and kind == "definition" else kind, crate.name, name))
                if kind == "definition" and not is_proof:
                    homes[name].add(crate.name)
    return found, homes


def refused() -> Iterator[Name]:
    """The names that the rule refuses."""
    found, homes = all_names()
    yield from (it for it in found if it.kind != "case" and is_bare(it.name))
    yield from (Name("homes", ",".join(sorted(crates)), name) for name, crates in homes.items() if len(crates) > 1)


def listed() -> dict[Name, str]:
    """The exceptions with their reasons."""
    lines = lines_of(LIST) if LIST.exists() else []
    parts = [it.partition(": ") for it in lines if it and not it.startswith("#")]
    return {Name(*name.split(" ")): reason for name, _, reason in parts}


@pytest.fixture(scope="module")
def found(request: pytest.FixtureRequest) -> list[Name]:
    names = sorted(refused())
    if request.config.getoption("--write"):
        reasons = listed()
        LIST.write_text(HEAD + "".join(f"{it}: {reasons.get(it, NEW)}\n" for it in names), encoding="utf-8")
    return names


def test_new_names_are_not_refused(found: list[Name]) -> None:
    exceptions = listed()
    assert not [str(it) for it in found if it not in exceptions], "rename them"


def test_exceptions_are_still_there(found: list[Name]) -> None:
    gone = listed().keys() - set(found)
    assert not [str(it) for it in gone], "tests/run --write names takes them out"
