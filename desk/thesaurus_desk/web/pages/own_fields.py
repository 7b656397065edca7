"""The fields that an office makes and changes itself, and which fields everybody sees: kept by the head."""
from __future__ import annotations

from collections.abc import Mapping
from dataclasses import replace
from typing import Any

from flask import Blueprint, abort, redirect, render_template, request

from thesaurus_desk.auth.route_roles import role
from thesaurus_desk.web.context import say, the_desk, the_fields
from thesaurus_desk.web.forms import FormState, Problem
from thesaurus_desk.web.pages.edit import form_text
from thesaurus_desk.web.paths import path_to
from thesaurus_desk.words import LANGUAGES
from thesaurus_tools.export_values import DATES, OF_VOCABULARY
from thesaurus_tools.fields import IRI, KINDS, LINE, NAME, OWNERS, WITH_PAGES, WORK, Field, tidy
from thesaurus_tools.rdf_writer import split_property

pages = Blueprint("own_fields", __name__)

FORM, CHANGING = "field", "change-field"
# The kinds of values that have a language.
OF_LANGUAGE = ("text",)


@pages.get("/fields")
@role("editor", act="fields")
def fields() -> Any:
    """Shows the fields; the form that changes one of the office's is opened on demand."""
    return fields_page(FormState(), changed=the_fields().get(request.args.get("change", "")))


def fields_page(state: FormState, status: int = 200, changed: Field | None = None) -> Any:
    """Returns the page of the fields, with the form as it was sent, and the form that changes a field."""
    page = render_template(
        "values/fields.html",
        state=state,
        form=FORM,
        changing=CHANGING,
        changed=changed if changed is not None and changed.is_own else None,
        found=[it for it in the_fields().values() if it.name not in WITH_PAGES],
        kinds=[(it, say(f"fields.kind.{it}")) for it in KINDS],
        owners=[(it, say(f"fields.owners.{it}")) for it in OWNERS],
        languages=LANGUAGES,
        inner=WORK,
    )
    return page, status


@pages.post("/fields")
@role("editor", act="fields")
def make_field() -> Any:
    """Makes a field."""
    made = field_of_form()
    if problems := problems_of(made, the_fields()):
        return fields_page(FormState(FORM, request.form, problems), 409)
    the_desk().values.write_field(replace(made, place=len(own_fields())))
    return redirect(f"{path_to('own_fields.fields')}#field-{made.name}", 303)


def own_fields() -> list[Field]:
    """Returns the fields that the office has made, in their order."""
    return [it for it in the_fields().values() if it.is_own]


def field_of_form() -> Field:
    """Returns the field that a form asks for."""
    kind = form_text("kind", KINDS)
    return Field(
        form_text("name"),
        kind,
        tuple(it for it in OWNERS if it in request.form.getlist("owner")),
        "many" in request.form,
        "language" if kind in OF_LANGUAGE else "",
        choices_of_form(kind),
        property=form_text("property"),
        is_public="public" in request.form,
        names=names_of_form(),
        is_own=True,
    )


def choices_of_form(kind: str) -> tuple[str, ...]:
    """Returns the choices that a form has for a field of a kind."""
    choices = (tidy(it, "line") for it in request.form.get("choices", "").splitlines()) if kind == "choice" else ()
    return tuple(dict.fromkeys(it for it in choices if it))


def names_of_form() -> dict[str, str]:
    """Returns the names that a form has for a field, by language."""
    names = {it: tidy(request.form.get(f"name-{it}", ""), "line") for it in LANGUAGES}
    return {tag: it for tag, it in names.items() if it}


def problems_of(made: Field, others: Mapping[str, Field]) -> list[Problem]:
    """Returns what is wrong with a field beside others."""
    return [Problem(name, say(f"fields.wrong.{name}")) for name in wrong_parts(made, others)]


def wrong_parts(made: Field, others: Mapping[str, Field]) -> list[str]:
    """Returns the names of the parts of a field that can't be so beside others."""
    names = list(made.names.values())
    is_wrong = {
        "name": not NAME.fullmatch(made.name) or made.name in others,
        "names": not names or not all(len(it) <= 100 and LINE.fullmatch(it) for it in names),
        "owner": not made.owners,
        "choices": made.kind == "choice" and not made.choices,
        "property": made.property != "" and not is_property(made.property, others),
    }
    return [name for name, it in is_wrong.items() if it]


def is_property(iri: str, others: Mapping[str, Field]) -> bool:
    """Whether an IRI can be a property in each form of RDF, and is none of another field, or of what else there is."""
    try:
        split_property(iri)
    except ValueError:
        return False
    taken = {*(it.property for it in others.values()), *OF_VOCABULARY, *DATES}
    return IRI.fullmatch(iri) is not None and iri not in taken


@pages.post("/fields/<name>")
@role("editor", act="fields")
def change_field(name: str) -> Any:
    """Changes a field that the office has made, moves it among those, retires it, or takes it up again; shows a field
    to everybody, or to users alone."""
    field, do = the_fields().get(name), form_text("do", ("save", "up", "down", "retire", "resume", "publish", "hide"))
    is_fixed = name in WITH_PAGES or do not in ("publish", "hide") and field is not None and not field.is_own
    if field is None or is_fixed or do == "publish" and name in WORK:
        abort(404)
    if do == "save":
        return save_field(field)
    if do in ("up", "down"):
        move_field(field, -1 if do == "up" else 1)
        return redirect(f"{path_to('own_fields.fields')}#field-{name}", 303)
    if do in ("retire", "resume"):
        field = replace(field, is_retired=do == "retire")
    else:
        field = replace(field, is_public=do == "publish")
    the_desk().values.write_field(field)
    return redirect(f"{path_to('own_fields.fields')}#field-{name}", 303)


def save_field(field: Field) -> Any:
    """Gives a field the names, the choices and the property of the form."""
    changed = replace(field, names=names_of_form(), choices=choices_of_form(field.kind), property=form_text("property"))
    others = {name: it for name, it in the_fields().items() if name != field.name}
    if problems := problems_of(changed, others):
        return fields_page(FormState(CHANGING, request.form, problems), 409, field)
    the_desk().values.write_field(changed)
    return redirect(f"{path_to('own_fields.fields')}#field-{field.name}", 303)


def move_field(field: Field, by: int) -> None:
    """Puts a field of the office one place up or down among the others."""
    found = own_fields()
    at = found.index(field)
    found.insert(max(0, at + by), found.pop(at))
    for place, it in enumerate(found):
        the_desk().values.write_field(replace(it, place=place))
