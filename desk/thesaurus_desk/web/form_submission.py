"""Sends what a form asks for, and shows what came of it: the next page, the form again, or what others changed."""
from __future__ import annotations

from collections.abc import Callable, Sequence
from typing import Any

from flask import render_template, request

from thesaurus_desk.journal import Step
from thesaurus_desk.journal.edit_conflicts import OF_FIELD, Conflict, value_now
from thesaurus_desk.journal.entries import Request
from thesaurus_desk.store.plan_execution import Outcome, unsent
from thesaurus_desk.web.context import go, person, say, the_desk, the_rights
from thesaurus_desk.web.forms import FormState, Problem
from thesaurus_desk.web.journal_text import MOST_STEPS, tell_conflict, tell_outcome, tell_step
from thesaurus_desk.web.refusals import blamed_field
from thesaurus_tools.fields import tidy

Show = Callable[[FormState, int], Any]
# Returns the form with what is wrong in it, or None; it is asked while nothing else is performed.
Check = Callable[[], FormState | None]
# Returns the field of a form that a refused request comes from.
Blame = Callable[[Request], str]

# What the form of a value has of what its author saw.
OLD = ("old_tag", "old", "old_source")


def submit(
    action: str,
    requests: Sequence[Request],
    *,
    then: str | Callable[[Outcome], str],
    show: Show,
    may_cut: bool = False,
    check: Check | None = None,
    blame: Blame | None = None,
    hidden: Sequence[str] = (),
) -> Any:
    """Performs what a form asks for, with what its author saw.

    Returns a redirection to the next page; or the page of the form by `show`, with what was refused at its field.
    `check`: what must hold that no request says, such as that nobody has just done the same.
    `hidden`: the fields that the form has and doesn't show; what is wrong with one of them is said of the form.
    """
    seen, desk, role = request.form.getlist("seen"), the_desk(), person().role
    rights = the_rights()
    requests = rights.completed(requests, role)
    if refused := rights.refusal(requests, role):
        return show(problem_in(request.form.get("form", ""), "", say(refused)), 403)
    with desk.alone() as is_free:
        wrong = check() if check is not None and is_free else None
        if wrong is not None:
            return show(wrong, 409)
        if is_free:
            outcome = desk.perform(person().name, action, requests, seen=seen, may_cut=may_cut)
        else:
            outcome = unsent(requests, desk.fault_of_now(False))
    if outcome.state == "conflict":
        return conflict_page(outcome, requests)
    if not outcome.is_done:
        return show(refused_form(outcome, blame, hidden), 409)
    return go(then if isinstance(then, str) else then(outcome), outcome.plan)


def refused_form(outcome: Outcome, blame: Blame | None = None, hidden: Sequence[str] = ()) -> FormState:
    """Returns the form as it was sent, with why it was refused beside the field concerned, if the form shows it."""
    field = blamed_field(outcome.answer or {})
    if blame is not None and field in ("text", "new") and outcome.failed is not None:
        field = blame(outcome.failed.request)
    is_shown = field in request.form and field not in hidden
    problem = Problem(field if is_shown else "", tell_outcome(outcome))
    return FormState(request.form.get("form", ""), request.form, [problem])


def problem_in(form: str, field: str, text: str, choices: Sequence[int] = ()) -> FormState:
    """Returns the form as it was sent, with what is wrong in a field."""
    return FormState(form, request.form, [Problem(field, text)], list(choices))


def conflict_page(outcome: Outcome, requests: Sequence[Request]) -> Any:
    """Shows what was changed since the form was opened, who and when, and what the form wants; and asks again."""
    conflict = outcome.conflict
    assert conflict is not None
    stale = f"{conflict.number}.{conflict.part}."
    marks = [conflict.seen if it.startswith(stale) else it for it in request.form.getlist("seen")]
    fields = [(name, it) for name, it in request.form.items(multi=True) if name not in ("token", "once", "seen")]
    is_value = conflict.part.startswith(OF_FIELD) and "old_tag" in request.form
    fields = with_value_of_now(fields, conflict) if is_value else fields
    return (
        render_template(
            "resource/conflict.html",
            conflict=tell_conflict(conflict),
            wanted=[tell_step(Step(it)) for it in requests[:MOST_STEPS]],
            more=max(0, len(requests) - MOST_STEPS),
            fields=[*fields, *(("seen", it) for it in marks)],
            path=request.path,
            new_of=conflict.part.removeprefix(OF_FIELD) if is_value and request.form.get("new") else "",
        ),
        409,
    )


def with_value_of_now(fields: Sequence[tuple[str, str]], conflict: Conflict) -> list[tuple[str, str]]:
    """Returns the fields of a form of a value with what is there now in place of what its author saw."""
    sent = dict(fields)
    old = tidy(sent.get("old", ""), "text")
    seen = sent["old_tag"], old, sent.get("old_source", "")
    now = dict(zip(OLD, (value_now(conflict, seen) if old else None) or ("", "", "")))
    return [(name, now.get(name, it)) for name, it in fields]
