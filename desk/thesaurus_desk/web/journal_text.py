"""Puts plans of the journal, refusals and differences into the reader's words."""
from __future__ import annotations

from collections.abc import Iterable, Mapping, Sequence
from dataclasses import dataclass, field
from typing import Any

from markupsafe import Markup, escape

from thesaurus_desk.clock import time_element
from thesaurus_desk.journal import Plan, Step
from thesaurus_desk.journal.edit_conflicts import OF_FIELD, Change, Conflict
from thesaurus_desk.journal.entries import Request
from thesaurus_desk.journal.recovery import RESTORED
from thesaurus_desk.journal.references import REFERENCE
from thesaurus_desk.store.plan_execution import Outcome
from thesaurus_desk.web import context
from thesaurus_desk.web.context import person, say, the_desk, the_replica, words
from thesaurus_desk.web.refusals import explain, explain_state, label_of
from thesaurus_desk.web.request_text import sentence_of
from thesaurus_tools.fields import HIDDEN
from thesaurus_tools.row_changes import OUTSIDE

# How many steps of a plan are shown where many plans are.
MOST_STEPS = 6


@dataclass(frozen=True)
class PageLinks:
    """Terms and links as the reader's pages have them. `made`: the terms of what isn't there yet, by references."""

    made: Mapping[str, str] = field(default_factory=dict)

    def term(self, number: int) -> str:
        return context.term(number)

    def link(self, number: int) -> Markup:
        return context.link(number)

    def new(self, reference: str) -> Markup:
        """Returns the term of what a reference stands for; nothing if it isn't known."""
        if reference.startswith(f"${OUTSIDE}"):
            return self.elsewhere(self.made[reference]) if reference in self.made else Markup()
        return Markup('<span dir="auto">{}</span>').format(self.made[reference]) if reference in self.made else Markup()

    def elsewhere(self, iri: str) -> Markup:
        """Returns the IRI of a concept elsewhere, with what it is called there, if that is known."""
        return context.name_elsewhere(iri)

    def field(self, name: str) -> str:
        return context.field_words(name)

    def candidate_above(self, number: int) -> int | None:
        """Returns a broader concept that is a candidate, if there is one."""
        it, statuses = the_replica().get(number), the_desk().replica.statuses()
        return next((one for one in sorted(it.broader) if statuses.get(one) in HIDDEN), None) if it else None

    def returned(self, number: int) -> int | None:
        """Returns the live concept as which a dead one has come back, if its end was taken back."""
        return context.returned_as(number)


LINKS = PageLinks()


@dataclass(frozen=True)
class PlanText:
    """A plan of the journal for a page: a sentence for each step, with the reason if it was refused.

    `restored`: what is said of a store that was restored from a backup. `changed`: what another program changed."""

    plan: Plan
    lines: list[tuple[Markup, str, Markup]]
    # How many further steps it has.
    more: int = 0
    restored: str | Markup = ""
    changed: Sequence[int] = ()
    # What is said of the file, or the long change, whose first part it is; and whether its refused rows are kept.
    whole: str = ""
    has_refused: bool = False


@dataclass(frozen=True)
class ConflictText:
    """What was changed in a resource since a form was made: the differences with their signs, and the plans that made
    them, with who and when. `is_own`: the form's author made all of them."""

    number: int
    changes: list[tuple[str, Markup]]
    plans: list[PlanText]
    is_own: bool


def tell_plan(plan: Plan, most: int = MOST_STEPS, number: int | None = None) -> PlanText:
    """Returns a plan in the reader's words: of each step its sentence, its state, and why it was refused. In the
    history of a resource these are the steps that concern it."""
    steps = [it for it in plan.steps if number is None or number in it.numbers] or plan.steps
    shown = steps[:most]
    refused = [it for it in steps[most:] if it.state in ("refused", "fault")]
    lines = [(tell_step(it), it.state, why_refused(it)) for it in (*shown, *refused)]
    changed = () if plan.steps else the_desk().history.resources_changed_by(plan.id)
    whole, others = tell_whole(plan) if number is None and plan.first is None else ("", 0)
    restored, has_refused = tell_restored(plan.note or ""), bool(whole) and the_desk().batches.has_refused(plan.id)
    return PlanText(plan, lines, len(steps) - len(lines) + others, restored, changed, whole, has_refused)


def tell_whole(plan: Plan) -> tuple[str, int]:
    """Returns what is said of a file, or of a long change, and how many steps its further parts have; of a plan without
    further parts nothing."""
    batches = the_desk().batches
    batch, (parts, steps) = batches.of(plan.id), batches.counts(plan)
    others = max(0, steps - len(plan.steps))
    if batch is None and parts < 2:
        return "", others
    if batch is None or plan.takes_back:
        text = say("changes.parts", n=parts)
    else:
        text = say(f"changes.{'table' if plan.action == 'table' else 'vocabulary'}", name=batch.name, n=steps)
    if batch and batch.refused:
        text = f"{text} {say('bring_in.refused', n=batch.refused)}"
    if batch is None or batch.is_done:
        return text, others
    how = "is_under_way" if batches.is_under_way(batch.plan) else "was_cut"
    return f"{text} {say(f'changes.{how}')}", others


def tell_restored(note: str) -> str | Markup:
    """Returns what the note of a plan says of a backup; nothing if it is about something else."""
    if not note.startswith(RESTORED):
        return ""
    at = note.removeprefix(RESTORED).removeprefix(" of ")
    return say("changes.restored_of", at=time_element(at)) if at else say("changes.restored")


def tell_step(step: Step) -> Markup:
    """Returns a step as a sentence."""
    return sentence_of(step.request, step.answer, the_replica(), words(), LINKS, step.kept)


def why_refused(step: Step) -> Markup:
    """Returns why a step was refused; nothing for any other."""
    if step.state not in ("refused", "fault") or not step.answer:
        return Markup("")
    return explain(step.answer, step.request, the_replica(), words(), LINKS)


def tell_plans(plans: Iterable[Plan], number: int | None = None) -> list[PlanText]:
    """Returns plans in the reader's words; in the history of a resource, what of them concerns it."""
    return [tell_plan(it, number=number) for it in plans]


def tell_outcome(outcome: Outcome) -> Markup:
    """Returns why a plan wasn't performed: what is so, with whom, and what can be done."""
    step = outcome.failed
    if outcome.state in ("unknown", "lost") or step is None or outcome.answer is None:
        return explain_state(outcome.state, words())
    why = explain(outcome.answer, with_scheme(step.request, outcome), the_replica(), words(), LINKS)
    if len(outcome.steps) < 2:
        return why
    return escape(say("refusals.Step.text", why=why, step=tell_step(step)))


def with_scheme(request: Request, outcome: Outcome) -> Request:
    """Returns a request about what its plan made, with the scheme of that."""
    owner = str(request.get("owner", ""))
    if not REFERENCE.fullmatch(owner) or int(owner[1:]) > len(outcome.steps):
        return request
    maker = outcome.steps[int(owner[1:]) - 1].request
    source = the_replica().view(maker["source"]) if maker["do"] == "split" else None
    return {**request, "scheme": source.scheme if source is not None else maker.get("scheme")}


def tell_conflict(conflict: Conflict) -> ConflictText:
    """Returns a conflict in the reader's words."""
    is_own = {it.user for it in conflict.plans} == {person().name}
    return ConflictText(conflict.number, tell_changes(conflict.changes), tell_plans(conflict.plans), is_own)


def tell_change(change: Change) -> Markup:
    """Returns a difference between what was seen and what is."""
    name, value = change.name, change.value
    if name.startswith(OF_FIELD):
        its = context.field_words(name.removeprefix(OF_FIELD))
        if name == f"{OF_FIELD}status":
            return escape(say("edit.conflict.value", field=its, text=say(f"status.{value[1]}")))
        text = Markup('<span class="lines" lang="{}" dir="auto">{}</span>').format(value[0], value[1])
        return escape(say("edit.conflict.value", field=its, text=text))
    if name in ("pref", "alt", "hidden", "scope"):
        return escape(
            say("edit.conflict.label", kind=say(f"kinds.label.{name}"), label=label_of(words(), value[1], value[0]))
        )
    if name in ("typed", "untyped", "mappings"):
        return escape(say("edit.conflict.link", kind=say(f"kinds.link.{value[0]}"), other=context.link(value[1])))
    if name in ("related", "collections", "members"):
        return escape(say("edit.conflict.link", kind=say(f"edit.conflict.{name}"), other=context.link(value)))
    return escape(say(f"edit.conflict.{name}", **single_value(name, value)))


def single_value(name: str, value: Any) -> dict[str, Any]:
    """Returns what is said of a value that there is once."""
    if name == "postings":
        return {"n": value}
    return {"other": context.link(value)} if name == "replaced" and value else {}


def tell_changes(changes: Iterable[Change]) -> list[tuple[str, Markup]]:
    """Returns differences with their signs. A link of the hierarchy is named once, by its type."""
    return [(it.sign, tell_change(it)) for it in changes if it.name not in ("broader", "narrower")]
