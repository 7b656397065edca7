"""Sends a plan to the program, and what came of it."""
from __future__ import annotations

from collections.abc import Sequence
from dataclasses import dataclass, field

from thesaurus_desk.journal import Answer, Request, Step
from thesaurus_desk.journal.edit_conflicts import Conflict
from thesaurus_desk.journal.references import resolve_request
from thesaurus_desk.store.changes import Change
from thesaurus_desk.store.program import Program


@dataclass(slots=True)
class Outcome:
    """What came of a plan.

    `state` is done; refused; fault (the program or the journal couldn't); unknown (not even a look at the store shows
    whether it was performed); lost (it wasn't performed); or conflict (what the form's author saw has changed, and
    nothing was sent)."""

    state: str
    steps: list[Step] = field(default_factory=list)
    # The number of the plan in the journal.
    plan: int | None = None
    # Which step was refused, counted from 1, and the program's answer to it.
    at: int | None = None
    answer: Answer | None = None
    conflict: Conflict | None = None

    @property
    def is_done(self) -> bool:
        return self.state == "done"

    @property
    def failed(self) -> Step | None:
        """The step that was refused."""
        return self.steps[self.at - 1] if self.at else None

    @property
    def made(self) -> int | None:
        """The number of the first resource or posting that was made."""
        return next((it.answer["ok"] for it in self.steps if it.answer and "ok" in it.answer), None)

    def number(self, place: int) -> int | None:
        """Returns the number that the request at a place, counted from 1, has made or found."""
        answer = self.steps[place - 1].answer or {}
        return answer.get("ok", answer.get("again"))

    def numbers(self) -> list[int | None]:
        """Returns the number that each request has made or found."""
        return [self.number(place) for place in range(1, len(self.steps) + 1)]


def is_own(step: Step) -> bool:
    """Whether the program doesn't see a step: the desk itself keeps values, and an outside concept that is known
    needn't be made."""
    return step.request["do"] == "set" or bool((step.foreseen or {}).get("known"))


def requests_for(steps: Sequence[Step]) -> tuple[list[Step], list[Request]]:
    """Returns the steps of a plan that the program sees, and their requests with the references that these have among
    themselves."""
    left = [it for it in steps if not is_own(it)]
    places = {id(it): place for place, it in enumerate(left, 1)}
    names: list[int | str | None] = []
    for it in steps:
        known = it.foreseen or {}
        same = names[known["same"] - 1] if "same" in known else known.get("ok")
        names.append(same if known.get("known") else f"${places.get(id(it), 0)}")
    return left, [resolve_request(it.request, names) for it in left]


def send(program: Program, outcome: Outcome) -> list[Change]:
    """Has the program perform a plan, notes what came of it, and returns the changes of rows that were made. Raises
    NoAnswer if that isn't known."""
    left, requests = requests_for(outcome.steps)
    answer = program.ask({"perform": requests}) if left else {"changes": [], "done": []}
    if "done" not in answer:
        refuse(outcome, left, left[answer.pop("at", 1) - 1], answer)
        return []
    outcome.state = "done"
    for step in outcome.steps:
        step.state, step.answer = "done", step.foreseen
    for step, its in zip(left, answer["done"], strict=True):
        step.answer = its
    changes: list[Change] = answer["changes"]
    return changes


def refuse(outcome: Outcome, left: Sequence[Step], failed: Step, answer: Answer) -> None:
    """Notes a refusal or a fault."""
    outcome.state = "fault" if "fault" in answer else "refused"
    outcome.at = next(place for place, it in enumerate(outcome.steps, 1) if it is failed)
    outcome.answer = answer
    for step in left:
        step.state, step.answer = (outcome.state, answer) if step is failed else ("unsent", None)
