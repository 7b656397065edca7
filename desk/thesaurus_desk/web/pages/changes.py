"""The journal: recent changes with filters, what is open, and taking a change back."""
from __future__ import annotations

from collections.abc import Iterable, Mapping
from datetime import datetime, timedelta
from typing import Any
from urllib.parse import urlencode

from flask import Blueprint, Response, abort, render_template, request
from markupsafe import Markup

from thesaurus_desk.auth.route_roles import role
from thesaurus_desk.clock import span_of
from thesaurus_desk.journal import Filter, Plan, Step
from thesaurus_desk.journal.undo import Remark, TakeBack
from thesaurus_desk.store.plan_outcome import Outcome
from thesaurus_desk.store.program import LONGEST_PLAN
from thesaurus_desk.store.undo_run import UndoRun, undo_run
from thesaurus_desk.web.context import go, own_path, page_number, person, say, the_desk, the_replica, the_rights, words
from thesaurus_desk.web.forms import FormState, Problem
from thesaurus_desk.web.journal_text import LINKS, tell_outcome, tell_plan, tell_plans
from thesaurus_desk.web.list_forms import in_other_form
from thesaurus_desk.web.paths import concept_path, path_to
from thesaurus_desk.web.request_text import sentence_of
from thesaurus_desk.web.spreadsheets import sheet_of_rows
from thesaurus_desk.web.undo_pages import show_undo

pages = Blueprint("changes", __name__)
PAGE = 50
# How many concepts are named that can't be ended, and how many lines the page has of what takes a change back.
MOST_NAMED, MOST_LINES = 20, 200
# How many resources a page of those that were changed shows, and how many plans of each.
CHANGED_PAGE, MOST_OF_ONE = 100, 20
FORM = "back"
# What the address of the journal may ask for.
ASKED = ("concept", "by", "kind", "since", "until", "part_of")
WEEK = 7
# The name of other programs among the users. (No user has it.)
OTHERS = " "
# The kinds of changes that one may ask for, with their requests.
KINDS = {
    "new": ("concept", "collection", "scheme", "outside"),
    "terms": ("addLabel", "dropLabel", "relabel"),
    "links": ("link", "unlink"),
    "merge": ("merge",),
    "split": ("split",),
    "end": ("deprecate",),
    "records": ("post", "withdraw", "import"),
    "values": ("set",),
}
# After these, though not all is as it was, no look is needed before: a concept has another number, or has ended.
USUAL = ("new number", "dead")
# The requests that nothing takes back.
STAYING = ("scheme", "collection", "outside")


@pages.get("/changes")
def changes() -> Any:
    """Shows plans, the last first: of a resource, of a user, of a kind, from a day on, up to a day."""
    asked = query_fields()
    number = number_of(asked.get("concept", ""))
    before = number_of(request.args.get("before", ""))
    part_of = number_of(request.args.get("part_of", ""))
    which = filter_of(asked)
    # (a file, or a long change, is one entry, but where single steps are asked for)
    is_grouped = not (number or part_of or which.requests)
    found = the_desk().history.recent(
        number=number, before=before, which=which, part_of=part_of, is_grouped=is_grouped, most=PAGE + 1
    )
    return render_template(
        "changes/page.html",
        plans=tell_plans(found[:PAGE], number),
        further=f"{path_to('changes.changes')}?{urlencode({**asked, 'before': found[PAGE - 1].id})}"
        if len(found) > PAGE
        else "",
        number=number if number and the_replica().kind(number) else None,
        asked=asked,
        table=f"{path_to('changes.as_csv')}?{urlencode(asked)}" if asked else path_to("changes.as_csv"),
        users=the_desk().history.users(),
        others=OTHERS,
        kinds=KINDS,
        open_plans=tell_plans(the_desk().journal.open_plans()),
        has_take_back=has_take_back,
        **days_asked(),
    )


def days_asked() -> dict[str, str]:
    """Returns the days that are asked for most: a week ago, and the first of this month; on that day, of the last."""
    today = datetime.now().astimezone().date()
    return {"week": str(today - timedelta(WEEK)), "first": str((today - timedelta(1)).replace(day=1))}


def query_fields() -> dict[str, str]:
    """Returns what the address asks for of the journal."""
    return {name: it for name in ASKED if (it := request.args.get(name, ""))}


def filter_of(asked: Mapping[str, str]) -> Filter:
    """Returns the filter that is asked for: from the begin of a day on, up to the end of a day."""
    user = asked.get("by")
    first, last = (span_of(asked.get(it, "").strip()) for it in ("since", "until"))
    return Filter(
        user="" if user == OTHERS else user,
        since=first and first[0],
        until=last and last[1],
        requests=KINDS.get(asked.get("kind", "")),
    )


def number_of(text: str) -> int | None:
    """Returns a number of a query, or None."""
    return int(text) if text.isascii() and text.isdigit() and len(text) < 11 else None


@pages.get("/changes.csv")
def as_csv() -> Response:
    """Returns the journal as a table: all of it, or what is asked for."""
    asked = query_fields()
    lines = the_desk().history.csv(number_of(asked.get("concept", "")), filter_of(asked))
    headers = {"Content-Disposition": 'attachment; filename="changes.csv"'}
    return Response(lines, content_type="text/csv; charset=utf-8", headers=headers)


@pages.get("/changes/<int:number>/refused.csv")
def refused_rows(number: int) -> Response:
    """Returns the rows of a table that were refused as a table again, with the reasons."""
    rows = the_desk().batches.refused(number)
    if not rows:
        abort(404)
    return sheet_of_rows("refused", map(tuple, rows))


@pages.get("/changed-since")
def changed_since() -> Any:
    """Shows the resources that were changed from a day on, each with who changed what."""
    since = request.args.get("since", "")
    span = span_of(since.strip())
    found = the_desk().history.changed_since(span[0]) if span else []
    known = [it for it, _ in found if the_replica().kind(it)]
    if (other := in_other_form("changed", lambda: known)) is not None:
        return other
    page, begin = page_number(), span[0] if span else ""
    shown = known[page * CHANGED_PAGE :][:CHANGED_PAGE]
    # (with one plan more of each than the page shows)
    plans = the_desk().history.changes_of(shown, begin, MOST_OF_ONE + 1)
    return render_template(
        "changes/since.html",
        since=since,
        begin=begin,
        found={number: tell_plans(its, number) for number, its in plans.items()},
        path=f"{path_to('changes.changed_since')}?{urlencode({'since': since})}",
        page=page,
        size=CHANGED_PAGE,
        most=MOST_OF_ONE,
        count=len(known),
    )


@pages.post("/changes/<int:number>/close")
@role("editor")
def close(number: int) -> Any:
    """Closes a plan of which nobody knows what came of it: somebody has looked at the pages concerned."""
    the_desk().journal.close_plan(plan_or_404(number).id, person().name)
    return go(path_to("changes.changes"))


# --- taking back ---


def is_whole(plan: Plan) -> bool:
    """Whether a plan was done, and nobody has taken it back."""
    return plan.state == "done" and bool(plan.steps) and not plan.taken_back_by


def may_do(steps: Iterable[Step]) -> bool:
    """Whether the reader's role is one that may do the same."""
    return person().role >= the_rights().lowest_role_of(list(steps))


def may_take_back(plan: Plan, back: TakeBack) -> bool:
    """Whether the reader may take a plan back: whoever may do the same as all its parts, and what takes them back."""
    steps = (step for part in the_desk().journal.parts(plan) for step in part.steps)
    return is_whole(plan) and may_do(steps) and person().role >= back.lowest_role_by(the_rights())


def has_take_back(plan: Plan) -> bool:
    """Whether a list offers the reader to take a plan back: nothing removes a scheme, a collection or an address."""
    return is_whole(plan) and may_do(plan.steps) and any(it.request["do"] not in STAYING for it in plan.steps)


def plan_or_404(number: int) -> Plan:
    """Returns a plan of the journal."""
    plan = the_desk().journal.plan(number)
    if plan is None:
        abort(404)
    return plan


def whole_or_404(number: int) -> Plan:
    """Returns a plan of the journal, or the first part of the one whose part it is: all parts are taken back as one."""
    plan = plan_or_404(number)
    return plan_or_404(plan.first) if plan.first else plan


@pages.get("/changes/<int:number>/back")
def look_at_taking_back(number: int) -> Any:
    """Shows what takes a plan back, what it leaves, and what others have changed since."""
    plan = whole_or_404(number)
    return back_page(plan, the_desk().take_back(plan), FormState(), 200)


def back_page(plan: Plan, back: TakeBack, state: FormState, status: int) -> Any:
    """Returns the page on which a plan is taken back. Its form carries the last plan that its author sees."""
    lines = [sentence_of(it, None, the_replica(), words(), LINKS) for it in back.requests[:MOST_LINES]]
    return (
        render_template(
            "changes/back.html",
            told=tell_plan(plan),
            back=back,
            lines=lines,
            more=len(back.requests) - len(lines),
            remarks=[tell_remark(it) for it in back.remarks[:MOST_LINES]],
            later=tell_plans(back.later),
            may=may_take_back(plan, back),
            last=max([plan.id, *(it.id for it in back.later)]),
            next=next_path(),
            state=state,
            form=FORM,
        ),
        status,
    )


def tell_remark(remark: Remark) -> Markup:
    """Returns what isn't taken back as a sentence."""
    is_resource = remark.name not in ("withdrawn", "moved on") and the_replica().kind(remark.number or 0)
    about = LINKS.link(remark.number or 0) if is_resource else Markup("{}").format(remark.number or "")
    return Markup("{}").format(say(f"changes.remark.{remark.name.replace(' ', '_')}", about=about, text=remark.text))


@pages.post("/changes/<int:number>/back")
@role("indexer")
def take_back(number: int) -> Any:
    """Takes a plan back, as far as that can be, in one plan."""
    with the_desk().alone() as is_free:
        # (whoever presses the button twice waits here, and finds that it was taken back)
        begun = begin_taking_back(whole_or_404(number), is_free)
    if not isinstance(begun, UndoRun):
        return begun
    path = concept_path(begun.outcome.made) if makes_concept(begun) else next_path()
    return show_undo(begun, path, lambda it: refusal_of(number, it))


def refusal_of(number: int, outcome: Outcome) -> Any:
    """Returns the page on which a plan is taken back, with why a part of that wasn't done."""
    plan = whole_or_404(number)
    return refusal_page(plan, the_desk().take_back(plan), "", tell_outcome(outcome))


def begin_taking_back(plan: Plan, is_free: bool) -> Any:
    """Takes a plan back, or the first part of a long one, unless something else took too long. Returns what came of
    that, or a page that shows why it isn't done."""
    if plan.taken_back_by:
        return go(next_path(), plan.taken_back_by)
    tag, text = request.form.get("tag", "").strip().lower(), " ".join(request.form.get("text", "").split())
    back = the_desk().take_back(plan, (tag, text) if text else None)
    if not may_take_back(plan, back):
        return back_page(plan, back, FormState(), 403)
    if problem := problem_of(back, is_free, bool(text)):
        return refusal_page(plan, back, *problem)
    run = undo_run(the_desk(), person().name, back)
    run.perform_part()
    return run if run.outcome.is_done else refusal_page(plan, back, "", tell_outcome(run.outcome))


def problem_of(back: TakeBack, is_free: bool, has_label: bool) -> tuple[str, Any] | None:
    """Returns why a plan isn't taken back as it was asked for: the field of the form, and the text."""
    if not is_free or len(back.requests) > LONGEST_PLAN and the_desk().threads.is_full:
        return "", say("refusals.Busy.text")
    if back.is_too_long:
        return "", say("changes.too_long")
    if back.has_later_parts:
        return "", say("changes.later_parts")
    if back.in_use:
        concepts = Markup(", ").join(map(LINKS.link, back.in_use[:MOST_NAMED]))
        return "", say("changes.in_use", n=len(back.in_use), concepts=concepts)
    if any(it.id > last_seen(back.plan) for it in back.later):
        return "", say("changes.look_first")
    if "at_once" in request.form and any(it.name not in USUAL for it in back.remarks):
        return "", say("changes.look_at_rest")
    if not back.requests:
        return "", say("changes.nothing")
    return ("text", say("changes.choose_label")) if back.needs_label and not has_label else None


def last_seen(plan: Plan) -> int:
    """Returns the last plan that the author of the form has seen: the one to be taken back, if it says no other."""
    return number_of(request.form.get("last", "")) or plan.id


def refusal_page(plan: Plan, back: TakeBack, field: str, text: str) -> Any:
    """Returns the page on which a plan is taken back, with what is wrong in a field of its form."""
    return back_page(plan, back, FormState(FORM, request.form, [Problem(field, text)]), 409)


def next_path() -> str:
    """Returns the page to which taking back leads: the one from which it was asked for, with its filters."""
    return own_path(request.values.get("next") or path_to("changes.changes"))


def makes_concept(run: UndoRun) -> bool:
    """Whether a concept comes back under another number by what is undone as one."""
    return run.batch is None and any(it["do"] in ("concept", "split") for it in run.requests)
