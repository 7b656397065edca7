"""The fields of a resource that the desk keeps beside the store: definitions, notes, notations, sources, and those that
an office makes itself. What a value of each looks like, and its property in RDF."""
from __future__ import annotations

import json
import re
from collections.abc import Callable, Iterable, Mapping
from dataclasses import asdict, dataclass, field, replace
from typing import Any
from urllib.parse import quote, unquote

from thesaurus_tools.ntriples import DCTERMS, SKOS, XSD, Iri, Literal, Node
from thesaurus_tools.rdf_writer import ISO_THES

# The kinds of resources that may have values.
OWNERS = ("scheme", "concept", "collection")
# The kinds of values of which an office may make fields.
KINDS = ("text", "line", "choice", "date", "number", "link")
# The most characters of a value, of a line, and of the numbers of resources.
LONGEST, LONGEST_LINE, LONGEST_LIST = 20_000, 1_000, 200_000
TAG = re.compile(r"[a-z]{1,8}(-[a-z0-9]{1,8})*")
CODE = re.compile(r"[^\s\x00-\x1f\x7f]+( [^\s\x00-\x1f\x7f]+)*")
LINE = re.compile(r"[^\x00-\x1f\x7f]+")
TEXT = re.compile(r"[^\x00-\x09\x0b-\x1f\x7f]+")
IRI = re.compile(r"[A-Za-z][A-Za-z0-9+.-]*:[^\x00-\x20<>\"{}|^`\\]+")
DATE = re.compile(r"[0-9]{4}(-(0[1-9]|1[0-2])(-(0[1-9]|[12][0-9]|3[01]))?)?")
CLOCK = r"[T ]([01][0-9]|2[0-3]):[0-5][0-9](:[0-5][0-9](\.[0-9]{1,9})?)?(Z|[+-][0-9]{2}:[0-9]{2})?"
TIME = re.compile(rf"{DATE.pattern}|[0-9]{{4}}-(0[1-9]|1[0-2])-(0[1-9]|[12][0-9]|3[01]){CLOCK}")
NUMBER = re.compile(r"-?[0-9]{1,18}(\.[0-9]{1,18})?")
RESOURCE = re.compile(r"[1-9][0-9]{0,9}")
RESOURCES = re.compile(r"[1-9][0-9]{0,9}( [1-9][0-9]{0,9})*")
# The names that an office may give its fields: they are in requests, tables and addresses.
NAME = re.compile(r"[a-z][A-Za-z0-9]{1,30}")
FORMS: dict[str, Callable[[str], Any]] = {
    "text": TEXT.fullmatch,
    "line": LINE.fullmatch,
    "code": CODE.fullmatch,
    "date": DATE.fullmatch,
    "time": TIME.fullmatch,
    "number": NUMBER.fullmatch,
    "link": IRI.fullmatch,
    "resource": RESOURCE.fullmatch,
    "resources": RESOURCES.fullmatch,
}
MOST = {"text": LONGEST, "resources": LONGEST_LIST}
DATATYPES = {4: "gYear", 7: "gYearMonth", 10: "date"}


@dataclass(frozen=True, slots=True)
class Field:
    """A field. Each of its values has a tag: a language, the name of a code, or nothing."""

    name: str
    # text (with line breaks), line, code, choice, date, time (a date, perhaps with the time of day), number or link;
    # resource or resources (their numbers).
    kind: str = "text"
    owners: tuple[str, ...] = OWNERS
    is_many: bool = True
    # What a tag is: "language", "code" or "" (there is none).
    tag: str = ""
    choices: tuple[str, ...] = ()
    # Whether no two resources of a scheme that are in use have one value.
    is_unique: bool = False
    # Whether a value may have a source.
    has_source: bool = False
    # Its property in RDF; with none it isn't in RDF.
    property: str = ""
    is_public: bool = True
    # Whether no new values come.
    is_retired: bool = False
    # What it is called, by language; those that each desk has are named by its words.
    names: Mapping[str, str] = field(default_factory=dict)
    # Whether the office has made it, and its place among those.
    is_own: bool = False
    place: int = 0


def names_resources(it: Field) -> bool:
    """Whether a value of a field names resources: in a request it is a list of their numbers."""
    return it.kind in ("resource", "resources")


def note_field(name: str, is_public: bool = True) -> Field:
    """Returns the field of a kind of notes of SKOS."""
    return Field(name, tag="language", has_source=True, property=SKOS + name, is_public=is_public)


def place_field(name: str, kind: str = "resource") -> Field:
    """Returns a field of collections that says where they are, or what is in them."""
    return Field(name, kind, ("collection",), is_many=False)


# The concept below which an array is, the collection within which another one is, and the order of what is in one.
SUPERORDINATE, WITHIN, ORDER = "superordinate", "within", "order"
PLACE_FIELDS = (SUPERORDINATE, WITHIN, ORDER)
# What a concept is that isn't approved; no value says that it is. As long as it is one of the first two, the public
# doesn't see it.
STATUSES = ("candidate", "review", "revise")
HIDDEN = STATUSES[:2]
# What is to be done with a concept: by whom, until when, and what. It is never public.
WORK = ("person", "due", "task")


def work_field(name: str, kind: str) -> Field:
    """Returns a field of what is to be done with a concept."""
    return Field(name, kind, ("concept",), is_many=False, is_public=False)


def description_field(name: str, kind: str = "line", tag: str = "") -> Field:
    """Returns a field of a scheme that describes it, by a property of Dublin Core."""
    return Field(name, kind, ("scheme",), tag=tag, property=DCTERMS + name)


# What describes a scheme, where it is shown as a whole.
DESCRIPTION = ("title", "creator", "publisher", "license", "description")
# What says that a scheme has been released: the names of the releases. It has a page of its own, as places have.
RELEASE = "release"
WITH_PAGES = (*PLACE_FIELDS, RELEASE)
# The fields that are shown beside the term of a concept.
OF_WORK = ("status", *WORK)
# Where a term comes from: a value is the term itself, with its language and its source. It is shown beside the term.
TERM_SOURCE = "termSource"
# The fields whose values may be IRIs.
MAYBE_IRI = ("source", "creator", "publisher", "license")
NOTES = ("definition", "example", "generalNote", "historyNote", "editorialNote", "changeNote")
# When a resource was made and last changed before the desk had it.
DATES = ("created", "modified")
STANDARD = {
    it.name: it
    for it in (
        note_field("definition"),
        note_field("example"),
        replace(note_field("generalNote"), property=SKOS + "note"),
        note_field("historyNote"),
        note_field("editorialNote", is_public=False),
        note_field("changeNote", is_public=False),
        Field("notation", "code", tag="code", is_unique=True, property=SKOS + "notation"),
        Field("source", "line", property=DCTERMS + "source"),
        Field(TERM_SOURCE, "line", tag="language", has_source=True),
        *(Field(it, "time", is_many=False) for it in DATES),
        description_field("title", tag="language"),
        description_field("creator"),
        description_field("publisher"),
        description_field("license"),
        description_field("description", "text", "language"),
        Field(RELEASE, "line", ("scheme",)),
        place_field(SUPERORDINATE),
        place_field(WITHIN),
        place_field(ORDER, "resources"),
        replace(work_field("status", "choice"), choices=STATUSES, property=ISO_THES + "status"),
        work_field("person", "line"),
        work_field("due", "date"),
        work_field("task", "text"),
    )
}
# The fields that pages and tables offer before others.
OFFERED = ("definition", "notation")
# The fields that each desk has, by their properties.
BY_PROPERTY = {it.property: it for it in STANDARD.values() if it.property}


def text_fields(fields: Mapping[str, Field]) -> dict[str, Field]:
    """Returns the fields that say what a resource is: none of its terms and places, of releases, and of what is to be
    done."""
    return {name: it for name, it in fields.items() if name not in (*WITH_PAGES, *OF_WORK, TERM_SOURCE)}


def in_rdf(fields: Mapping[str, Field]) -> dict[str, Field]:
    """Returns the fields that everybody sees of what a resource is, or of its status, if the head shows that."""
    return {name: it for name, it in fields.items() if it.is_public and name not in (*WITH_PAGES, *WORK)}


def table_fields(fields: Mapping[str, Field]) -> dict[str, Field]:
    """Returns the fields of which tables have columns: those, and statuses and tasks."""
    return {name: it for name, it in fields.items() if name not in WITH_PAGES}


# What displays for print call the fields that each desk has.
MARKS = {
    "definition": "DEF",
    "example": "EX",
    "generalNote": "NOTE",
    "historyNote": "HN",
    "editorialNote": "EN",
    "changeNote": "CN",
    "source": "SRC",
}


def mark_of(it: Field, lang: str) -> str:
    """Returns what a display in a language calls a field: one of the office by its name in it, or in another one."""
    its_name = next(iter(it.names.values()), it.name)
    return MARKS.get(it.name, it.names.get(lang.partition("-")[0], its_name))


def written_field(it: Field) -> str:
    """Returns a field that the office has made as a text."""
    return json.dumps({name: value for name, value in asdict(it).items() if name not in ("name", "is_own")})


def read_field(name: str, text: str) -> Field:
    """Returns a field that the office has made."""
    its = json.loads(text)
    return Field(name, **{key: tuple(it) if isinstance(it, list) else it for key, it in its.items()}, is_own=True)


def all_fields(made: Iterable[tuple[str, str]]) -> dict[str, Field]:
    """Returns the fields by their names: those that each desk has, of which an office may have chosen who sees them,
    and those that it has made, whose names and texts are given."""
    found = [read_field(name, text) for name, text in made]
    read = {it.name: it for it in sorted(found, key=lambda it: (it.place, it.name))}
    chosen = {name: replace(it, is_public=read[name].is_public) for name, it in STANDARD.items() if name in read}
    return {**STANDARD, **read, **chosen}


def tidy(text: str, kind: str) -> str:
    """Returns a value as a form or a file has it in the form that is kept: without spaces at the ends of lines, and of
    one line where its kind has no line breaks."""
    if kind != "text":
        return " ".join(text.split())
    lines = text.replace("\r\n", "\n").replace("\r", "\n").split("\n")
    return "\n".join(it.rstrip() for it in lines).strip()


def is_value(it: Field, tag: str, text: str) -> bool:
    """Whether a field takes a value with a tag."""
    return is_tag(it, tag) and len(text) <= MOST.get(it.kind, LONGEST_LINE) and has_form(it, text)


def is_tag(it: Field, tag: str) -> bool:
    """Whether a field takes a tag: a language in lower case; the name or the IRI of a code, or none; none."""
    if it.tag == "language":
        return len(tag) <= 35 and TAG.fullmatch(tag) is not None
    return tag == "" or it.tag == "code" and len(tag) <= 512 and CODE.fullmatch(tag) is not None


def has_form(it: Field, text: str) -> bool:
    """Whether a text has the form of a field's values."""
    return text in it.choices if it.kind == "choice" else FORMS[it.kind](text) is not None


def node_of(it: Field, tag: str, text: str, base: str) -> Node:
    """Returns a value in RDF. The name of a code becomes a datatype of this thesaurus, unless it is an IRI."""
    if it.kind == "link" or it.name in MAYBE_IRI:
        return Iri(text) if it.kind == "link" else source_node(text)
    if it.tag == "language":
        return Literal(text, tag)
    if it.kind in ("date", "time"):
        return time_node(text)
    if it.kind == "number":
        return Literal(text, "", XSD + "decimal")
    return Literal(text, "", datatype_of(tag, base))


def source_node(text: str) -> Node:
    """Returns a source in RDF: an address, or a text."""
    return Iri(text) if IRI.fullmatch(text) and "://" in text else Literal(text)


def time_node(text: str) -> Literal:
    """Returns a date, or one with the time of day, in RDF."""
    name = DATATYPES.get(len(text)) or ("dateTime" if "T" in text else "")
    return Literal(text, "", XSD + name if name else "")


def datatype_of(code: str, base: str) -> str:
    """Returns the datatype of notations of a code: its IRI, or one below the base of the store; none without a code."""
    return code if not code or IRI.fullmatch(code) else f"{base}code/{quote(code)}"


def code_of(datatype: str, base: str) -> str:
    """Returns the name of the code of a datatype; its IRI, if it isn't one of this thesaurus."""
    start = f"{base}code/"
    if datatype == XSD + "string":
        return ""
    return unquote(datatype.removeprefix(start)) if base and datatype.startswith(start) else datatype
