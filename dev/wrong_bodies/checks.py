"""What a check said of functions, and what that decides for the edits of a round."""
from __future__ import annotations

import re
from collections.abc import Callable
from dataclasses import dataclass, field

from .edits import Edit, Function

NOT_PROVED = re.compile(r"fn (\S+?): (?:not proved|no proof|(?=depends on a hole))(?:[:;] )?(.*)")
# That a function is not proved because of another one, or of a copy that is not made yet.
RESTS = re.compile(
    r"(?:in `\S+`, of this cycle of calls: )?it (?:calls|passes|is passed|uses|names|reads|drops)\b"
    r"|depends on a hole in\b|the borrow checker's part in its proof is not made yet"
)
# An open goal, by its name: one that search leaves, or one that a note reports with its place in the sources.
SEARCHED = re.compile(r"`(?:search|grind)` (?:did not prove|gave up\b).*")
NOTED = re.compile(r"note: (?:\./)?(src/\S+?):(\d+):\d+: it is not proved that .*?\(`([^`]+)`\)")
ERROR = re.compile(r"(?:\./)?(\S+?):(\d+):\d+: error\S*: (.*)")
GONE = re.compile(r"has no field|is not in scope|has no `|was not admitted")

# Returns the function around a line of a source, or None.
Finder = Callable[[str, int], Function | None]


@dataclass
class Said:
    """What a check said: which functions have open goals, which only rest on one that is not proved, and what else."""

    status: int
    text: str
    is_verdict: bool
    proved: list[str]
    # By function, the file that answers its goals. Functions that call one another have one file.
    files: dict[str, str]
    errors: list[tuple[str, str, str]]
    # The functions in which the check stopped, and why.
    broken: list[tuple[Function | None, str]]
    # By function: open goals, functions that it rests on, and what else keeps it from being proved.
    goals: dict[str, list[str]] = field(default_factory=dict)
    rests: dict[str, set[str]] = field(default_factory=dict)
    others: dict[str, str] = field(default_factory=dict)

    def take_reasons(self, function: str, reasons: list[str]) -> None:
        """Takes up why a function isn't proved."""
        resting = {name for it in reasons if RESTS.match(it) for name in re.findall(r"`(\S+?)`", it)}
        goals = [it for it in reasons if SEARCHED.match(it)]
        if resting:
            self.rests.setdefault(function, set()).update(resting)
        if goals:
            self.goals.setdefault(function, []).extend(goals)
        if not resting and not goals:
            self.others[function] = "; ".join(it for it in reasons if it) or "no reason is given"

    def own(self) -> list[str]:
        """Returns the functions that are not proved, and not because of another one."""
        return [*self.goals, *(it for it in self.others if it not in self.goals)]

    def errors_in_proofs(self, edit: Edit) -> list[str]:
        """Returns what is wrong in the proof files of an edit's functions. (That of functions which call one another
        has the name of the first, with a plus sign.)"""
        crate = edit.name.partition("/")[0]
        names = [
            (f"{crate}::{path[len('proofs/'):].rpartition('/')[0].replace('+', '').replace('/', '::')}", why)
            for path, _, why in self.errors
            if path.startswith("proofs/")
        ]
        return [why for name, why in names if any(it.is_named(name) for it in edit.functions)]

    def broken_by(self, edit: Edit) -> str | None:
        """Returns why an edit does not compile, where the check stopped within its functions."""
        places = edit.places()
        return next((why for function, why in self.broken if function and function.place in places), None)

    def open_goals(self, edit: Edit) -> list[str]:
        """Returns the open goals of an edit's functions, and what their proof files answer wrongly."""
        goals = [goal for it in edit.own(self.goals) for goal in self.goals[it]]
        return goals + [it for it in self.errors_in_proofs(edit) if not GONE.search(it)]


def no_function(path: str, line: int) -> None:
    """Finds no function, where no edit is tried."""


def read_said(status: int, text: str, function_at: Finder = no_function) -> Said:
    """Reads the output of a check."""
    lines = text.splitlines()
    is_verdict = re.search(r"^(logic=(not-)?proved|only=\d+)", text, re.M) is not None
    errors = [(it[1], it[2], it[3]) for it in map(ERROR.match, lines) if it]
    said = Said(
        status,
        text,
        is_verdict,
        proved=re.findall(r"^fn (\S+): (?:proved|no holes)$", text, re.M),
        files=dict(re.findall(r"^fn (\S+?): no proof: expected answers in (\S+);", text, re.M)),
        errors=errors,
        broken=[
            (function_at(path, int(line)), why)
            for path, line, why in errors
            if path.startswith("src/") and not is_verdict
        ],
    )
    noted = [(function_at(it[1], int(it[2])), it[3]) for it in map(NOTED.match, lines) if it]
    for match in map(NOT_PROVED.fullmatch, lines):
        if match:
            said.take_reasons(match[1], (match[2] or "").split("; "))
            goals = [goal for function, goal in noted if function and function.is_named(match[1])]
            if goals:
                said.goals.setdefault(match[1], []).extend(goals)
    return said


def decide(batch: list[Edit], said: Said) -> None:
    """Decides for each edit of a round whether it is refused, has a fault, or is to be tried again with fewer
    others."""
    files = {said.files.get(it) for edit in batch for it in edit.own(said.own())} - {None}
    strange = [it for it in said.own() if not any(edit.own([it]) for edit in batch) and said.files.get(it) not in files]
    for edit in batch:
        is_alone = len(batch) == 1
        is_sure = said.is_verdict and (is_alone or not strange)
        if why := said.broken_by(edit):
            edit.fault = f"it does not compile: {why}"
        elif said.is_verdict and said.open_goals(edit):
            # (a goal of its own is open whatever became of others: its proof rests on their contracts alone)
            edit.is_refused, edit.goals = True, said.open_goals(edit)
        elif is_sure and said.errors_in_proofs(edit) and not edit.own(said.rests):
            edit.fault = "a proof file names what the edit took away, and nothing else refuses it: change a value"
        elif is_sure and edit.own(said.proved) and not edit.own([*said.rests, *said.others]):
            edit.fault = "NOT REFUSED: its function is still proved"
        elif is_alone:
            edit.fault = fault_alone(edit, said, strange)
        elif strange or not said.is_verdict and not any(said.broken_by(it) for it in batch):
            edit.room = max(1, len(batch) // 2)
        elif said.is_verdict and not edit.own(said.rests):
            edit.room = len(batch) - 1
        edit.is_apart = not edit.is_refused and not edit.fault


def fault_alone(edit: Edit, said: Said, strange: list[str]) -> str:
    """Returns what is wrong with an edit that was tried alone, and that no open goal refuses."""
    if not said.is_verdict:
        return "it does not compile: " + next((why for *_, why in said.errors), last_lines(said.text))
    if own := edit.own(said.others):
        return "not proved, and no open goal is named: " + "; ".join(said.others[it] for it in own)
    if strange:
        return f"its own function is proved, and only {', '.join(strange)} is not: change the body, not the contract"
    return "NOT REFUSED: its function is still proved"


def last_lines(text: str) -> str:
    return " / ".join(text.splitlines()[-3:])
