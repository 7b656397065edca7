"""The columns of lists as tables: which there are, their headings, and what they have of a resource."""
from __future__ import annotations

from collections.abc import Iterable, Sequence
from typing import NamedTuple

from thesaurus_desk.journal.edit_conflicts import mark_of_row
from thesaurus_desk.store.model import View
from thesaurus_desk.web.context import field_words, person, say, status_words, tags, the_desk, the_fields, the_replica
from thesaurus_tools.fields import OFFERED, Field, table_fields
from thesaurus_tools.headings import OF_FIELD, TAG, WORDS, find_column
from thesaurus_tools.kinds import BROADER, LABEL_KINDS, MAPPINGS
from thesaurus_tools.table_writer import JOINT, is_plain
from thesaurus_tools.values import cell_of

# Of how many languages a table has terms, and of how many languages or codes the values of a field: those of the reader
# first. And how many columns a table may have.
MOST_LANGUAGES = 12
MOST_COLUMNS = 200
# What only those see who sign in: how many records there are, and a mark of what a resource was.
SIGNED_IN = ("records", "seen")
# What each table has: by these rows are understood.
FIXED = ("number", "seen")
SHOWN = ("address", "kind", "term", "language", "state", "replaced")
LINKS = (*BROADER, "narrower", "related", "member", "members")


class ListColumn(NamedTuple):
    """A column: what it has, and of which language, or of which code. `name` is that of a kind of label or link, of a
    field, or of what a list shows."""

    name: str
    tag: str = ""

    def __str__(self) -> str:
        return f"{self.name}@{self.tag}" if self.tag else self.name


def with_tag(name: str, tag: str) -> str:
    """Returns the heading of a column in a language, or with a code."""
    return f"{name} ({tag})" if tag in WORDS["languages"] else f"{name}@{tag}" if tag else name


def heading_of(column: ListColumn) -> str:
    """Returns the heading of a column, by which it is understood when the table is brought in: in the reader's words,
    or else with the names that tables know."""
    name, tag = column
    if name in the_fields():
        return heading_of_field(the_fields()[name], tag)
    if name == "alt" or name in ("broader", "members"):
        heading = with_tag(say(f"lists.column.{'alternative' if name == 'alt' else name}"), tag)
    elif name in LABEL_KINDS:
        heading = with_tag(say(f"kinds.label.{name}"), tag)
    elif name in (*LINKS, *MAPPINGS):
        heading = say(f"kinds.link.{'collection' if name == 'member' else name}")
    else:
        return say(f"lists.column.{name}")
    return heading if find_column(heading, "")[1:] == (name, tag) else str(column)


def heading_of_field(field: Field, tag: str) -> str:
    """Returns the heading of a column of values; with the field's own name, if it would be taken for something else."""
    name = field_words(field.name)
    heading = with_tag(name, tag)
    is_understood = find_column(heading, "", table_fields(the_fields()))[1:] == (f"{OF_FIELD}{field.name}", tag)
    return heading if is_understood else f"{name} [{field.name}]{f'@{tag}' if tag else ''}"


def value_columns() -> list[ListColumn]:
    """Returns the columns of the fields that the reader sees, in the languages or with the codes that there are."""
    used = the_desk().values.tags()
    found: list[ListColumn] = []
    for field in table_fields(the_fields()).values():
        if field.is_public or person().name:
            its = {tag for name, tag in used if name == field.name}
            # (a column is there to be filled in)
            if field.name in OFFERED or field.is_own and not field.is_retired:
                its.add(tags()[0] if field.tag == "language" else "")
            its_order = sorted(its, key=lambda tag: (tags().index(tag) if tag in tags() else len(tags()), tag))
            found += [ListColumn(field.name, tag) for tag in its_order[:MOST_LANGUAGES]]
    return found


def columns_named(*names: str) -> list[ListColumn]:
    """Returns columns without a language."""
    return [ListColumn(it) for it in names]


def usual_columns(more: Sequence[str] = ()) -> list[ListColumn]:
    """Returns the columns that a list has unless others are chosen; `more` names further ones, as members."""
    alternative = [ListColumn("alt", it) for it in tags()[:MOST_LANGUAGES]]
    return [
        *columns_named("number", "address", "kind", "term", "language"),
        *alternative,
        *columns_named("broader"),
        *value_columns(),
        *columns_named("state", "replaced", "records", *more, "seen"),
    ]


def columns_to_translate(tag: str) -> list[ListColumn]:
    """Returns the columns that a list of what has no term in a language has unless others are chosen."""
    terms = [ListColumn(it, tag) for it in ("pref", "alt", "scope")]
    return [*columns_named("number", "term", "language", "broader"), *terms, *columns_named("seen")]


def column_groups() -> list[tuple[str, list[ListColumn]]]:
    """Returns the columns that may be chosen, in groups with their names."""
    terms = [ListColumn(kind, it) for it in tags()[:MOST_LANGUAGES] for kind in LABEL_KINDS]
    return [
        ("shown", [it for it in columns_named(*SHOWN, "records") if is_seen(it)]),
        ("terms", terms),
        ("links", columns_named(*LINKS)),
        ("mappings", columns_named(*MAPPINGS)),
        ("values", value_columns()),
    ]


def is_seen(column: ListColumn) -> bool:
    """Whether the reader sees what a column has."""
    return bool(person().name) or column.name not in SIGNED_IN


def chosen_columns(names: Iterable[str], language: str) -> list[ListColumn]:
    """Returns the columns that an address names, with those of the preferred terms and the notes of a further language,
    which is to be translated into; nothing if it names none."""
    asked = {ListColumn(*it.partition("@")[::2]) for it in names}
    known = [it for _, columns in column_groups() for it in columns]
    of_languages = sorted(it for it in asked if it.name in LABEL_KINDS and TAG.fullmatch(it.tag) and it not in known)
    if TAG.fullmatch(language):
        of_languages.append(ListColumn("pref", language))
    chosen = [*(it for it in known if it in asked), *of_languages]
    first, last = (columns_named(it) for it in FIXED)
    return [*first, *dict.fromkeys(chosen[:MOST_COLUMNS]), *last] if chosen else []


# --- cells ---


def several(texts: Iterable[str]) -> str:
    """Returns several texts as one cell, without those that have the sign between them."""
    return f" {JOINT} ".join(it for it in texts if JOINT not in it)


def name_in_cell(number: int) -> str:
    """Returns how a cell names a resource: a concept by its term if no other one has that; else by its number."""
    text = the_replica().term(number, tags())[1]
    hits = the_replica().named(text, live=True)
    return text if [it.number for it in hits] == [number] and is_plain(text) else str(number)


def target_in_cell(number: int) -> str:
    """Returns how a cell names what a concept is mapped to: an external concept by its address."""
    return the_replica().iri(number) if the_replica().kind(number) == "outside" else str(number)


def cell_of_column(view: View, column: ListColumn, last: int, has_below: bool) -> object:
    """Returns what a column has of a resource; `last` is the journal's last plan."""
    name, tag = column
    if name in LABEL_KINDS:
        texts = [text for its, text in view.terms(name) if its == tag]
        return "".join(texts[:1]) if name == "scope" else several(texts)
    if name in MAPPINGS:
        return several(target_in_cell(number) for kind, number in view.mappings if kind == name)
    if name in LINKS:
        return several(map(name_in_cell, ends_of(view, name)))
    if name == "status":
        return status_words(view.number)
    if name in the_fields():
        held = the_desk().values.of(view.number).get(name, ())
        return cell_of(the_fields()[name], [it.text for it in held if it.tag == tag])
    if name == "seen":
        desk = the_desk()
        return mark_of_row(desk.replica, desk.values, view.number, has_below=has_below, plan=last)
    return shown_of(view, name)


def ends_of(view: View, name: str) -> Sequence[int]:
    """Returns the other ends of the links of a column."""
    if name == "members":
        return the_replica().ordered(view.members, tags())
    if name in BROADER[1:]:
        return [number for kind, number in view.above if kind == name]
    found: Sequence[int] = view.collections if name == "member" else getattr(view, name)
    return found


def shown_of(view: View, name: str) -> object:
    """Returns what a list shows of a resource."""
    if name == "records":
        return the_replica().postings.count_records_at(view.number)
    if name in ("term", "language"):
        return the_replica().term(view.number, tags())[name == "term"]
    return {
        "number": view.number,
        "address": view.iri,
        "kind": say(f"kinds.resource.{view.kind}"),
        "state": say(f"lists.state.{'live' if view.is_live else 'dead'}"),
        "replaced": view.replaced or "",
    }[name]
