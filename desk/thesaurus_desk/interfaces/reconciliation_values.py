"""What the Reconciliation Service API says of concepts that a client has: values of properties, previews, flyouts."""
from __future__ import annotations

from dataclasses import dataclass
from typing import Any

from markupsafe import Markup
from thesaurus_desk.interfaces.reconciliation_queries import BadQuery, Json, Reconciler
from thesaurus_desk.store.model import View
from thesaurus_desk.store.text_keys import has_language
from thesaurus_desk.words import Words
from thesaurus_desk.words.field_words import field_name
from thesaurus_tools.fields import Field

# What a row can be extended with, by the name of the property, beside the fields that everybody sees.
PROPERTIES = {
    "prefLabel": "Preferred term", "altLabel": "Alternative term", "scopeNote": "Scope note", "broader": "Broader term",
    "narrower": "Narrower term", "related": "Related term", "exactMatch": "Exact match", "iri": "Address",
}  # fmt: skip
# Those of which a language can be chosen: texts, and concepts by their terms.
OF_TEXTS, OF_CONCEPTS = ("prefLabel", "altLabel", "scopeNote"), ("broader", "narrower", "related")
# Each language, with its tag after each text.
ALL = "*"
MOST_ROWS, MOST_LANGUAGES, LONGEST_TAG = 1000, 200, 100
PREVIEW = Markup(
    '<!DOCTYPE html><html lang="{lang}"><head><meta charset="utf-8"><title>{name}</title></head>'
    "<body>{body}</body></html>"
)
BODY = Markup("<p>{path}</p><h1>{name} <small>{number}</small></h1>{notes}<p>{others}</p>")


@dataclass(frozen=True)
class Column:
    """A property by which rows are extended, in a language; "" is the first that a concept has."""

    of: str
    title: str
    lang: str = ""

    @property
    def name(self) -> str:
        """What the column is called."""
        return f"{self.title} ({self.lang})" if self.lang not in ("", ALL) else self.title


def fields_of(reconciler: Reconciler) -> dict[str, Field]:
    """Returns the fields with which a row can be extended, by the names of the properties."""
    return {it.name: it for it in reconciler.source.fields() if it.name not in PROPERTIES and "concept" in it.owners}


def properties_of(reconciler: Reconciler) -> dict[str, str]:
    """Returns what a row can be extended with: the names of properties, with what they are called."""
    english = Words("en")
    names = {name: field_name(it, english) for name, it in fields_of(reconciler).items()}
    return {**PROPERTIES, **{name: f"{it[:1].upper()}{it[1:]}" for name, it in names.items()}}


def read_columns(asked: Any, known: dict[str, str]) -> list[Column]:
    """Returns the properties that a client asks for, each once. Raises BadQuery for one that isn't there."""
    found: dict[str, Column] = {}
    for it in asked:
        name = it.get("id") if isinstance(it, dict) else None
        if not isinstance(name, str) or name not in known:
            raise BadQuery(f"a property is one of {', '.join(known)}")
        settings = it.get("settings")
        lang = settings.get("lang", "") if isinstance(settings, dict) else ""
        if not isinstance(lang, str) or len(lang) > LONGEST_TAG:
            raise BadQuery("the setting lang is the tag of a language, or *")
        found.setdefault(name, Column(name, known[name], lang.lower()))
    return list(found.values())


def extend(reconciler: Reconciler, asked: Any) -> Json:
    """Returns the values of properties for rows. Raises BadQuery."""
    if not isinstance(asked, dict) or not all(isinstance(asked.get(it), list) for it in ("ids", "properties")):
        raise BadQuery("extend needs ids and properties")
    if len(asked["ids"]) > MOST_ROWS:
        raise BadQuery(f"at most {MOST_ROWS} rows are extended at once")
    columns = read_columns(asked["properties"], properties_of(reconciler))
    rows = {str(it): row_of(reconciler, str(it), columns) for it in asked["ids"]}
    return {"meta": [{"id": it.of, "name": it.name} for it in columns], "rows": rows}


def row_of(reconciler: Reconciler, name: str, columns: list[Column]) -> Json:
    """Returns the values of a row's properties; none for a concept that isn't there."""
    number = reconciler.source.number_of(name)
    view = reconciler.replica.view(number) if number is not None else None
    return {it.of: values(reconciler, view, it) if view is not None else [] for it in columns}


def values(reconciler: Reconciler, view: View, column: Column) -> list[Json]:
    """Returns the values of a property of a concept."""
    replica = reconciler.replica
    if column.of == "iri":
        return [{"str": view.iri}]
    if column.of == "exactMatch":
        return [{"str": replica.iri(other)} for kind, other in view.mappings if kind == "exact"]
    if column.of not in OF_CONCEPTS:
        return [{"str": it} for it in texts(reconciler, view, column)]
    others: tuple[int, ...] = getattr(view, column.of)
    lang = "" if column.lang == ALL else column.lang
    return [{"id": str(it), "name": reconciler.term(it, lang)} for it in others]


def texts(reconciler: Reconciler, view: View, column: Column) -> list[str]:
    """Returns the terms, notes or values of a concept in the language of a column; those that have none all the
    same."""
    kinds = {"prefLabel": view.pref, "altLabel": view.alt, "scopeNote": view.scope}
    its = [it for it in reconciler.source.values(view.number) if it.field.name == column.of]
    if any(it.field.tag != "language" for it in its):
        return [it.text for it in its]
    found = kinds[column.of] if column.of in OF_TEXTS else [(it.tag, it.text) for it in its]
    if column.lang == ALL:
        return [f"{text} ({tag})" for tag, text in found]
    lang = column.lang or next((it for it in reconciler.langs if any(has_language(tag, it) for tag, _ in found)), "")
    return [text for tag, text in found if has_language(tag, lang)]


def settings_of(reconciler: Reconciler) -> list[Json]:
    """Returns what a client may set of a property: its language."""
    choices = [{"value": "", "name": "the first that there is"}, {"value": ALL, "name": "all, with their tags"}]
    choices += [{"value": it, "name": it} for it in reconciler.langs[:MOST_LANGUAGES]]
    text = "Of the terms and notes, and of the terms of other concepts."
    language = {"name": "lang", "label": "Language", "type": "select", "default": "", "help_text": text}
    return [{**language, "choices": choices}]


def body_of(reconciler: Reconciler, number: int) -> Markup:
    """Returns what there is to say of a concept in short."""
    view = reconciler.replica.view(number)
    defined = [it.text for it in reconciler.source.values(number) if it.field.name == "definition"][:1]
    said = [*(text for _, text in (view.scope[:1] if view else ())), *defined]
    notes = Markup("").join(Markup("<p>{}</p>").format(text) for text in said)
    others = " · ".join(text for _, text in ((*view.pref, *view.alt)[:8] if view else ()))
    path = reconciler.way(number, " › ")
    return BODY.format(name=reconciler.term(number), number=number, path=path, notes=notes, others=others)


def preview(reconciler: Reconciler, number: int) -> Markup:
    """Returns a small page about a concept."""
    return PREVIEW.format(lang=reconciler.langs[0], name=reconciler.term(number), body=body_of(reconciler, number))
