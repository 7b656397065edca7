"""What a page says first: what was just done, and what the desk found at its start."""
from __future__ import annotations

from dataclasses import dataclass

from flask import request, url_for
from markupsafe import Markup, escape

from thesaurus_desk.journal import Plan, Step
from thesaurus_desk.journal.history import ENDING
from thesaurus_desk.store.model import View
from thesaurus_desk.store.text_keys import fold
from thesaurus_desk.web.context import link, person, say, tags, the_desk, the_entry, the_replica, words
from thesaurus_desk.web.journal_text import PlanText, tell_plan
from thesaurus_desk.web.pages.changes import has_take_back
from thesaurus_desk.web.refusals import label_of

# How many steps of a plan a page says.
MOST_STEPS = 4
# The requests that give a term to a concept.
GIVE_TERMS = ("concept", "split", "addLabel", "relabel")


@dataclass(frozen=True)
class Notice:
    """A plan that was just done: its first steps in words, how many more there are, and where it is taken back."""

    told: PlanText
    more: int
    take_back: str
    # Which concepts came back under other numbers; and of each term that it gave to a concept, which others have it.
    remarks: list[Markup]


def notice_of_plan() -> Notice | None:
    """Returns the plan that the address names, if the reader sent it or proposed it."""
    text = request.args.get("done", "")
    if not text.isascii() or not text.isdigit() or len(text) > 12 or not person().name:
        return None
    plan = the_desk().journal.plan(int(text))
    if plan is None or person().name not in (plan.user, plan.proposer):
        return None
    path = url_for("changes.take_back", number=plan.id) if has_take_back(plan) else ""
    remarks = concepts_back(plan)
    more = max(0, len(plan.steps) - MOST_STEPS)
    plan.steps = plan.steps[:MOST_STEPS]
    remarks += [terms_elsewhere(it) for it in plan.steps if it.state == "done"]
    return Notice(tell_plan(plan), more, path, [it for it in remarks if it])


def concepts_back(plan: Plan) -> list[Markup]:
    """Returns which concepts came back under other numbers by a plan that has taken another one back."""
    undone = the_desk().journal.plan(plan.takes_back) if plan.takes_back else None
    steps = undone.steps if undone and plan.state == "done" else []
    ended = [it.request[ENDING[it.request["do"]]] for it in steps if it.request["do"] in ENDING]
    return [escape(say("changes.remark.new_number", about=link(it))) for it in ended[:MOST_STEPS]]


def terms_elsewhere(step: Step) -> Markup:
    """Returns which other concepts of its thesaurus have the term that a step gave to a concept, or nothing."""
    asked, replica = step.request, the_replica()
    owner = asked.get("owner") or (step.answer or {}).get("ok")
    view = replica.view(owner) if isinstance(owner, int) and asked["do"] in GIVE_TERMS else None
    if view is None or view.kind != "concept" or asked.get("kind", "pref") not in ("pref", "alt"):
        return Markup()
    tag, text = str(asked["tag"]).lower(), asked["text"]
    others = [it for it in having_term(tag, text) if it.scheme == view.scheme and it.number != owner]
    if not others:
        return Markup()
    concepts = Markup(", ").join(link(it) for it in replica.ordered([it.number for it in others], tags()))
    return escape(say("home.elsewhere", label=label_of(words(), text, tag), concepts=concepts))


def having_term(tag: str, text: str) -> list[View]:
    """Returns the live concepts with a preferred or alternative term in a language but for case and accents."""
    views = (the_replica().view(it.number) for it in the_replica().named(text, ("concept",), True))
    return [
        it
        for it in views
        if it is not None and any(tag == its and fold(text) == fold(one) for its, one in (*it.pref, *it.alt))
    ]


def warnings() -> list[str]:
    """Returns what editors must know: open plans, a restored backup, changes by other means, an ended program, files
    that are gone; and heads, whether the users' file is damaged."""
    if not person().may("editor"):
        return []
    desk, accounts = the_desk(), the_entry().accounts
    found = {
        "open": bool(desk.journal.open_plans()),
        "restored": desk.found.restored is not None,
        "changed": bool(desk.found.changed),
        "ended": desk.program.has_ended(),
        "replaced": desk.has_lost_file(),
        "users": person().may("head") and bool(accounts and accounts.fault),
    }
    return [name for name, is_so in found.items() if is_so]
