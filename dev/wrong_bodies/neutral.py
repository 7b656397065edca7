"""Neutral edits: one value of a function becomes two cases with the same result. Where the prover refuses such an edit,
the proof rests on the function's shape, and the refusals of wrong bodies that change the shape say little."""
from __future__ import annotations

import re
from collections.abc import Iterator
from pathlib import Path

from .edits import FUNCTION, BadEdit, Edit, Function, Hunk, Place

IN_TWO = "{0}if 1 < 2 {{ {1} }} else {{ {1} }}{2}"
# What a neutral edit splits: an arm of a match; a value that is named, assigned or returned; a statement; the last
# value of a block.
SPLIT = (
    re.compile(r"(\s*[^\s].*? => )((?!return\b|break\b|continue\b|\{).+)(,)"),
    re.compile(r"(\s*(?:let [^=]+?|[\w.*\[\]]+(?: [-+*/|&^])?) ?= )(.+)(;)"),
    re.compile(r"(\s*return )(.+)(;)"),
    re.compile(r"(\s*)(?!let\b|return\b|break\b|continue\b|prove!|use\b)(\w[^{}]*;)()"),
    re.compile(r"(\s*)(?!let\b|return\b|break\b|continue\b|&&)([\w&*!(\[].*[^;{,])()"),
)
# What gives a function its shape: branches, loops and exits.
SHAPE = re.compile(r"\b(?:if|else|match|for|while|return|continue|break)\b|\?|&&|\|\|")


def neutral_edits(root: Path, edits: dict[str, list[Edit]], of_all: bool) -> tuple[dict[str, list[Edit]], list[str]]:
    """Returns a neutral edit for each function with wrong bodies, or only with such of another shape, by crate, and the
    functions for which there is none."""
    found: dict[str, list[Edit]] = {}
    without = []
    for name, of_crate in edits.items():
        by_place: dict[Place, list[Edit]] = {}
        for edit in of_crate:
            by_place.setdefault(edit.functions[0].place, []).append(edit)
        for same in by_place.values():
            try:
                neutral = neutral_edit(root / "crates" / name, same)
                if of_all or neutral.bodies:
                    found.setdefault(name, []).append(neutral)
            except BadEdit as why:
                without.append(f"{name}/{same[0].functions[0].name}: {why}")
    return found, without


def neutral_edit(folder: Path, edits: list[Edit]) -> Edit:
    """Returns an edit that makes two cases of a value in a function: in a line that a wrong body changes, or else in
    the first one in which there is a value, or else of the last value. A value of which a proof file names a call is
    taken last."""
    function = edits[0].functions[0]
    path, at = function.place
    lines = (folder / path).read_text(encoding="utf-8").split("\n")
    body = body_of(lines, at)
    shaped = [it for it in edits if any(changes_shape(folder, hunk) for hunk in it.hunks)]
    changed = [it.first for edit in [*shaped, *edits] for it in edit.hunks if it.path == path and it.first in body]
    single = [Hunk(path, i, i + 1, [new]) for i in [*changed, *body] if (new := split_in_two(lines, i))]
    named = names_in_proofs(folder, function)
    hunks = sorted(
        [*single, *last_in_two(path, lines, body)],
        key=lambda it: not named.isdisjoint(step_names("\n".join(lines[it.first : it.last]))),
    )
    if not hunks:
        raise BadEdit("no line of it has a value by itself")
    return Edit(f"{folder.name}/{function.name}", hunks[:1], [function], [it.name for it in shaped])


def changes_shape(folder: Path, hunk: Hunk) -> bool:
    """Whether an edit adds or removes a branch, a loop or an exit."""
    was = (folder / hunk.path).read_text(encoding="utf-8").split("\n")[hunk.first : hunk.last]
    return sorted(SHAPE.findall("\n".join(was))) != sorted(SHAPE.findall("\n".join(hunk.lines)))


def body_of(lines: list[str], at: int) -> range:
    """Returns the numbers of the lines of a function's body."""
    match = FUNCTION.match(lines[at])
    assert match
    opened = re.compile(rf"{match[1]}\{{|(?! *(?:ensures|requires|decreases)\b).* \{{")
    start = next((i for i in range(at, len(lines)) if opened.fullmatch(lines[i])), at)
    end = next((i for i in range(start, len(lines)) if lines[i] == f"{match[1]}}}"), start)
    return range(start + 1, end)


def split_in_two(lines: list[str], at: int) -> str | None:
    """Returns a line with its value as two cases, or None if it has none by itself."""
    for place, pattern in enumerate(SPLIT):
        match = pattern.fullmatch(lines[at])
        is_last = lines[at + 1].strip().startswith("}") and re.search(r"[;{}]$", lines[at - 1])
        if match and is_whole(match[2]) and (is_last or place < len(SPLIT) - 1):
            return IN_TWO.format(*match.groups())
    return None


def last_in_two(path: str, lines: list[str], body: range) -> Iterator[Hunk]:
    """Yields the edit that makes two cases of the last statement or value of a body, unless it is no value."""
    pad = indent_of(lines[body.start])
    ends = [i for i in body if re.match(rf"{pad}\S", lines[i]) and re.search(r"(;|^ *\})$", lines[i])]
    first = next((i + 1 for i in reversed(ends) if i + 1 < body.stop), body.start)
    last = lines[first : body.stop]
    if last and not re.match(r" *(?:let|return|break|continue|prove!|use|for|while)\b", last[0]):
        yield Hunk(path, first, body.stop, [f"{pad}if 1 < 2 {{", *last, f"{pad}}} else {{", *last, f"{pad}}}"])


def indent_of(line: str) -> str:
    return line[: len(line) - len(line.lstrip())]


def step_names(text: str) -> set[str]:
    """Returns what a check may call the steps of a text: by the calls in it, by tests for equality, and by what takes
    its value."""
    calls = re.findall(r"(\w+)(?:::<[^()]*>)?\(", text) + re.findall(r"\blet (?:mut )?(\w+)", text)
    return {*calls, *(["eq"] if " == " in text else []), *(["ne"] if " != " in text else [])}


def names_in_proofs(folder: Path, function: Function) -> set[str]:
    """Returns the parts of the names of steps that the proof files of a function name."""
    found: set[str] = set()
    for file in (folder / "proofs").rglob("*/*.antt"):
        module = file.parent.relative_to(folder / "proofs")
        if function.is_named(f"{folder.name}::{'::'.join(module.parts).replace('+', '')}"):
            steps = re.findall(r"\b(?:c|w)\.([\w-]+)", file.read_text(encoding="utf-8"))
            found.update(part for step in steps for part in step.split("-"))
    return found


def is_whole(text: str) -> bool:
    """Whether the brackets of a text are closed in it, and none that isn't opened in it."""
    opened: list[str] = []
    for it in re.sub(r'"(?:[^"\\]|\\.)*"|\'(?:[^\'\\]|\\.)\'', "", text):
        if it in "([{":
            opened.append(")]}"["([{".index(it)])
        elif it in ")]}" and (not opened or opened.pop() != it):
            return False
    return not opened
