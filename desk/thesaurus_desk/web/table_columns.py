"""What the columns of a table hold, in the reader's words, and the choices for those that aren't understood."""
from __future__ import annotations

from collections.abc import Iterable, Mapping
from dataclasses import dataclass

from thesaurus_desk.web.context import field_words, say, tags, the_desk, the_fields
from thesaurus_desk.words.languages import language_name
from thesaurus_tools.fields import Field, is_tag, table_fields
from thesaurus_tools.headings import LEFT_OUT, OF_FIELD, TAG, TERMS, UNKNOWN, Column
from thesaurus_tools.kinds import BROADER, LABEL_KINDS, MAPPINGS
from thesaurus_tools.spreadsheets import Row

# How many columns a page offers choices for.
MOST_CHOICES = 40
OF_ROWS = ("concept", "iri", "code", "old", "new", "into", "do", "label", "lang", "text", "seen")
OF_LINKS = (*BROADER, "narrower", "related", *MAPPINGS, "member", "members")
OF_RECORDS = ("record", "key")
# A column of terms without a language is only compared.
COMPARED = "pref"


@dataclass(frozen=True)
class Choice:
    """A column with a choice of what it holds: its place, and one of its values."""

    place: int
    column: Column
    example: str

    @property
    def field(self) -> str:
        """The name of its field in a form."""
        return f"column-{self.place}"


def choices_of(columns: list[Column], rows: Iterable[Row]) -> tuple[list[Choice], list[Choice]]:
    """Returns the columns that have values and weren't understood, and the others."""
    examples = dict[int, str]()
    for row in rows:
        for place, cell in enumerate(row.cells):
            if cell:
                examples.setdefault(place, cell)
        if len(examples) == len(columns):
            break
    all_columns = [Choice(place, it, examples.get(place, "")) for place, it in enumerate(columns)]
    unclear = [it for it in all_columns if it.column.role == UNKNOWN and it.example]
    return unclear, [it for it in all_columns if it not in unclear]


def chosen_columns(columns: list[Column], fields: Mapping[str, str]) -> list[Column]:
    """Returns columns as the fields of a form choose them; those without a field, or with another value, stay."""
    found = []
    for place, it in enumerate(columns):
        role, _, tag = fields.get(f"column-{place}", "").partition("@")
        is_known = role in (LEFT_OUT, COMPARED, *OF_ROWS, *OF_LINKS, *OF_RECORDS) and not tag
        is_term = role in (*LABEL_KINDS, *TERMS) and TAG.fullmatch(tag)
        field = table_fields(the_fields()).get(role.removeprefix(OF_FIELD)) if role.startswith(OF_FIELD) else None
        is_value = field is not None and is_tag(field, tag)
        found.append(it._replace(role=role, tag=tag) if is_known or is_term or is_value else it)
    return found


def column_words(column: Column) -> str:
    """Returns what a column holds."""
    role, tag = column.role, column.tag
    if role in (LEFT_OUT, UNKNOWN):
        return say("bring_in.left_out")
    if role == COMPARED and not tag:
        return say("bring_in.compared")
    if column.field:
        name, is_language = field_words(column.field), the_fields()[column.field].tag == "language"
        return f"{name} ({language_name(tag) if is_language else tag})" if tag else name
    name = say(f"kinds.label.{role}") if role in LABEL_KINDS else role_words(role)
    return f"{name} ({language_name(tag)})" if tag else name


def role_words(role: str) -> str:
    """Returns what a column with a role holds that is no term in a language."""
    is_link = role in OF_LINKS and role not in ("member", "members")
    return say(f"kinds.link.{role}" if is_link else f"bring_in.role.{role}")


def role_groups(columns: Iterable[Column]) -> list[tuple[str, list[tuple[str, str]]]]:
    """Returns what a column may hold, in groups: for each the heading, and pairs of a value and its words."""
    languages = list(dict.fromkeys((*tags(), *(it.tag for it in columns if it.tag))))
    terms = [
        (say(f"kinds.label.{kind}"), [(f"{kind}@{tag}", column_words(Column("", kind, tag))) for tag in languages])
        for kind in LABEL_KINDS
    ]
    terms[0][1].append((COMPARED, say("bring_in.compared")))
    groups = (("row", OF_ROWS), ("links", OF_LINKS), ("records", OF_RECORDS))
    others = [(say(f"bring_in.role_groups.{name}"), [(it, role_words(it)) for it in roles]) for name, roles in groups]
    return [*terms, (say("fields.title"), value_choices(languages)), *others]


def value_choices(languages: Iterable[str]) -> list[tuple[str, str]]:
    """Returns the fields whose values a column may hold, each in the languages or with the codes that there are, as
    pairs of a value and its words."""
    fields = [it for it in table_fields(the_fields()).values() if not it.is_retired]
    columns = [Column("", f"{OF_FIELD}{it.name}", tag) for it in fields for tag in tags_of(it, languages)]
    return [(str(it), column_words(it)) for it in columns]


def tags_of(field: Field, languages: Iterable[str] = ()) -> list[str]:
    """Returns the languages of a field, or the codes of its values; that which says nothing is the first."""
    if field.tag == "language":
        return list(languages)
    return ["", *sorted(tag for name, tag in the_desk().values.tags() if name == field.name and tag)]
