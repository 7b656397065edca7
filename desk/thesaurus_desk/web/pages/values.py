"""The values of fields beside terms: definitions, notes, notations, and the office's own fields."""
from __future__ import annotations

from functools import partial
from typing import Any

from flask import Blueprint, abort, redirect, render_template, request

from thesaurus_desk.auth.route_roles import role
from thesaurus_desk.journal.entries import Request
from thesaurus_desk.journal.values import member_of, set_request
from thesaurus_desk.web.context import page_number, say, tags, the_desk, the_fields, the_replica
from thesaurus_desk.web.form_submission import problem_in, submit
from thesaurus_desk.web.forms import FormState
from thesaurus_desk.web.list_forms import in_other_form
from thesaurus_desk.web.pages.edit import form_text, resource, show_again
from thesaurus_desk.web.paths import concept_path, path_to
from thesaurus_desk.web.value_copies import copies_from_ended, copy_requests, values_of
from thesaurus_tools.fields import DATES, OFFERED, WITH_PAGES, Field, text_fields, tidy

pages = Blueprint("values", __name__)

PAGE = 500
# The concepts in use that have a value of a field, and those that have none.
WITH, WITHOUT = (
    "SELECT num FROM resource WHERE kind = 2 AND live = 1"
    f" AND num {test} (SELECT owner FROM value WHERE field = ?) ORDER BY num"
    for test in ("IN", "NOT IN")
)


@pages.post("/c/<int:number>/values")
@role("editor")
def change_value(number: int) -> Any:
    """Adds a value, changes one or removes one: `old` is empty where one is added, `new` where one is removed."""
    view = resource(number)
    field = the_fields().get(form_text("field"))
    if field is None or view.kind not in field.owners or field.name in WITH_PAGES:
        abort(400)
    requests = requests_of(number, field)
    then = f"{concept_path(number)}#at-{form_text('form')}"
    if not requests:
        return redirect(then, 303)
    again = partial(show_again, number)
    if field.tag == "language" and not form_text("tag") and form_text("new"):
        return again(problem_in(form_text("form"), "tag", say("refusals.BadTag.text", tag="")), 409)
    return submit("value", requests, then=then, show=again)


def requests_of(owner: int, field: Field) -> list[Request]:
    """Returns the requests that a form of a field asks for; none, if it changes nothing."""
    old, new = (tidy(request.form.get(it, ""), field.kind) for it in ("old", "new"))
    old_source, source = (tidy(request.form.get(it, ""), "line") if field.has_source else "" for it in SOURCES)
    old_tag, tag = form_text("old_tag"), form_text("tag").lower() if field.tag == "language" else form_text("tag")
    before = (old_tag, member_of(old, old_source)) if old else None
    after = (tag, member_of(new, source)) if new else None
    if before == after:
        return []
    if before and after and before[0] == after[0]:
        return [set_request(owner, field.name, tag, old=before[1], new=after[1])]
    gone = [set_request(owner, field.name, before[0], old=before[1])] if before else []
    return [*gone, *([set_request(owner, field.name, after[0], new=after[1])] if after else [])]


SOURCES = ("old_source", "source")


# --- lists ---


@pages.get("/lists/field/<name>")
@role("reader")
def field_list(name: str) -> Any:
    """Shows the concepts that have a value of a field, or those that have none."""
    field, replica = the_fields().get(name), the_replica()
    if field is None or "concept" not in field.owners:
        abort(404)
    is_without = request.args.get("have") != "yes"
    numbers = replica.ordered(replica.numbers_of(WITHOUT if is_without else WITH, name), tags())
    if (other := in_other_form(name, lambda: numbers)) is not None:
        return other
    page = page_number()
    return render_template(
        "values/list.html",
        field=field,
        is_without=is_without,
        count=len(numbers),
        numbers=numbers[page * PAGE : (page + 1) * PAGE],
        size=PAGE,
        path=path_to("values.field_list", name=name) + ("" if is_without else "?have=yes"),
    )


@pages.get("/lists/ended-values")
@role("reader")
def ended_list() -> Any:
    """Shows the concepts with values of fields that another program has ended."""
    return ended_page(FormState(), 200)


def ended_page(state: FormState, status: int) -> Any:
    """Returns the list, with what each concept has, and the one to which it can be copied."""
    rows = []
    for number in the_desk().history.ended_elsewhere():
        target = the_replica().final(number)
        rows.append((number, target, copies_from_ended(number, target) if target else [], values_of(number)))
    page = page_number()
    shown = rows[page * PAGE : (page + 1) * PAGE]
    return render_template("values/ended.html", rows=shown, count=len(rows), size=PAGE, state=state), status


@pages.post("/c/<int:number>/values/copy")
@role("editor")
def copy_values(number: int) -> Any:
    """Copies the values of a concept that has ended to the one that replaces it."""
    target = the_replica().final(number)
    if the_replica().is_live(number) or not target:
        abort(400)
    copies = copies_from_ended(number, target)
    requests = copy_requests(copies, target, [str(it.value.id) for it in copies])
    if not requests:
        return redirect(path_to("values.ended_list"), 303)
    return submit("value", requests, then=path_to("values.ended_list"), show=ended_page)


@pages.get("/lists/taken-numbers")
@role("head")
def taken_list() -> Any:
    """Shows the resources with values that another program has left with other terms alone."""
    return taken_page(FormState(), 200)


def taken_page(state: FormState, status: int) -> Any:
    """Returns the list, with what each has, and the term that it had."""
    found = list(the_desk().history.taken_numbers().items())
    page = page_number()
    shown = [(number, name, values_of(number)) for number, name in found[page * PAGE : (page + 1) * PAGE]]
    return render_template("values/taken.html", rows=shown, count=len(found), size=PAGE, state=state), status


@pages.post("/c/<int:number>/values/taken")
@role("head")
def settle_taken(number: int) -> Any:
    """Says that the values of a resource are its own; or removes them, as they are those of another one."""
    resource(number)
    if form_text("do", ("keep", "drop")) == "keep":
        the_desk().values.keep_at(number)
        return redirect(path_to("values.taken_list"), 303)
    held = [it for its in the_desk().values.of(number).values() for it in its]
    if not held:
        return redirect(path_to("values.taken_list"), 303)
    requests = [set_request(number, it.field, it.tag, old=it.member) for it in held]
    return submit("value", requests, then=path_to("values.taken_list"), show=taken_page)


def counts_without() -> dict[str, int]:
    """Returns the number of concepts in use that have no value of a field, for each field; those that are wanted first
    come first."""
    live, having = the_replica().count_concepts(), the_desk().values.count_concepts()
    fields = [it for it in text_fields(the_fields()).values() if "concept" in it.owners and it.name not in DATES]
    fields.sort(key=lambda it: it.name not in OFFERED)
    return {it.name: live - having.get(it.name, 0) for it in fields if not it.is_retired}
