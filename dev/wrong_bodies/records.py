"""Records of outcomes: crates whose wrong bodies were all refused, and wrong bodies whose refusals say little."""
from __future__ import annotations

import hashlib
import subprocess
from collections.abc import Iterable
from pathlib import Path

from .edits import Edit, bodies_of

# Crates with the sums over which all their wrong bodies were refused.
RECORD = "tests/refused.txt"
RECORD_HEAD = (
    "# Written by dev/refuse_bodies.py: crates whose wrong bodies were all refused, and a sum of what "
    "that rests on.\n"
)
# Wrong bodies whose refusals rest on the shape of their function.
SHAPE_BOUND = "tests/shape_bound.txt"
SHAPE_BOUND_HEAD = (
    "# Written by dev/refuse_bodies.py --control: wrong bodies whose refusals say little, since a "
    "neutral edit isn't proved either.\n"
)


def needed(root: Path, names: Iterable[str]) -> dict[str, str]:
    """Returns the lines of crates.txt for these crates and for all below them, by name."""
    lines = (root / "crates.txt").read_text(encoding="utf-8").splitlines()
    listed = {it.partition(":")[0].split()[0]: it for it in lines if ":" in it and not it.startswith("#")}
    taken, todo = set(), [*names]
    while todo:
        name = todo.pop()
        if name in listed and name not in taken:
            taken.add(name)
            todo += listed[name].partition(":")[2].split()
    return {name: line for name, line in listed.items() if name in taken}


def sum_of(root: Path, name: str) -> str:
    """Returns a sum of all that the refusals of a crate's wrong bodies rest on: the toolchain, the sources, and the
    bodies, in whatever files they are."""
    kit = subprocess.run(["rt", "version"], stdout=subprocess.PIPE, check=True).stdout
    digest = hashlib.sha256(kit)
    for crate, line in sorted(needed(root, [name]).items()):
        digest.update(line.encode())
        for part in ("src", "specs", "proofs"):
            for file in sorted((root / "crates" / crate / part).rglob("*.*")):
                digest.update(repr((str(file.relative_to(root)), file.read_bytes())).encode())
    for body in sorted(bodies_of(root / "crates" / name), key=lambda it: it.name):
        digest.update(repr((body.name, body.path, [tuple(it) for it in body.pairs])).encode())
    return digest.hexdigest()


def read_lines(file: Path) -> list[str]:
    lines = file.read_text(encoding="utf-8").splitlines() if file.exists() else []
    return [it for it in lines if not it.startswith("#")]


def read_record(root: Path) -> dict[str, str]:
    """Returns for each crate of the record the sum over which all its wrong bodies were refused."""
    pairs = (it.split() for it in read_lines(root / RECORD))
    return {name: refused_over for name, refused_over in pairs}


def write_record(root: Path, name: str, refused_over: str) -> None:
    """Records a crate's sum, and removes crates that are gone."""
    sums = {**read_record(root), name: refused_over}
    lines = [f"{it} {sums[it]}\n" for it in sorted(sums) if (root / "crates" / it).is_dir()]
    (root / RECORD).parent.mkdir(exist_ok=True)
    (root / RECORD).write_text(RECORD_HEAD + "".join(lines), encoding="utf-8")


def read_shape_bound(root: Path) -> set[str]:
    """Returns the wrong bodies whose refusals say little, by the record, as CRATE/NAME."""
    return set(read_lines(root / SHAPE_BOUND))


def write_shape_bound(root: Path, held: list[Edit], others: list[Edit]) -> None:
    """Records of which functions that have wrong bodies of another shape a neutral edit is proved, and of which it
    isn't."""
    bound = read_shape_bound(root).difference(*(it.bodies for it in held)).union(*(it.bodies for it in others))
    if bound or (root / SHAPE_BOUND).exists():
        crates = {it.partition("/")[0] for it in bound}
        known = {f"{crate}/{body.name}" for crate in crates for body in bodies_of(root / "crates" / crate)}
        lines = [f"{it}\n" for it in sorted(bound & known)]
        (root / SHAPE_BOUND).write_text(SHAPE_BOUND_HEAD + "".join(lines), encoding="utf-8")
