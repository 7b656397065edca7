"""Writes the concepts of a store as a table, in the form that tools/from-table reads."""
from __future__ import annotations

import csv
import io
from collections import Counter
from collections.abc import Iterable, Iterator

from thesaurus_tools.command_line import USAGE, ToolError
from thesaurus_tools.fields import STANDARD, is_tag
from thesaurus_tools.formulas import guard
from thesaurus_tools.headings import TAG, Fields
from thesaurus_tools.kinds import BROADER, LABEL_KINDS, MAPPINGS
from thesaurus_tools.link_rules import IRI_FORM
from thesaurus_tools.store import End, Resource, Store
from thesaurus_tools.values import as_in_cell, cell_of

NUMBERED = ("number", "iri", "records")
LINKED = (*BROADER, "narrower", "related", *MAPPINGS, "member")
# Columns with the names of what is mapped to, which a table that comes back only shows, by the kinds of mappings.
NAMES = {f"{it}Label": it for it in MAPPINGS}
TURNED = {"broad": "narrow", "narrow": "broad"}
# What an option says that writes cells as they are.
RAW = "write cells as they are: without it, those that a spreadsheet would take for formulas have an apostrophe"
# What parts several values of a cell.
JOINT = "|"


def read_column_names(text: str, fields: Fields) -> list[str]:
    """Returns the columns that an option names, as number,pref@en,broader,definition@en. Raises ToolError for another
    name."""
    names = [it.strip() for it in text.split(",") if it.strip()]
    for it in names:
        kind, _, tag = it.partition("@")
        is_value = kind in fields and is_tag(fields[kind], tag)
        if not (it in (*NUMBERED, *LINKED, *NAMES) or kind in LABEL_KINDS and TAG.fullmatch(tag) or is_value):
            if kind in STANDARD and not fields:
                raise ToolError(f"{it} is kept by a desk: --journal FILE names its journal, --desk asks it", USAGE)
            values = (f"{name}@TAG" if field.tag == "language" else name for name, field in fields.items())
            known = ", ".join((*NUMBERED, *(f"{kind}@TAG" for kind in LABEL_KINDS), *LINKED, *NAMES, *values))
            raise ToolError(f"no column is called {it}: there are {known}", USAGE)
    return names


def is_plain(text: str) -> bool:
    """Whether a cell with a term is read as that term: not as a number or an IRI, and not as several."""
    is_number = text.removeprefix("#").isdigit()
    return not (is_number or JOINT in text or text[:1] in "<'" or text[-1:] == ">" or IRI_FORM.fullmatch(text))


def texts_of(store: Store, number: int, kind: str, tag: str) -> list[str]:
    """Returns the labels of a kind of a resource in a language."""
    return [it.text for it in store.labels_of.get(number, ()) if (it.kind, it.tag) == (kind, tag)]


def shown_texts(store: Store, number: int, kind: str, tag: str) -> list[str]:
    """Returns the labels that a cell has: several without those that have the sign between them; a scope note is alone
    in its cell, and may have the sign itself."""
    texts = texts_of(store, number, kind, tag)
    return texts[:1] if kind == "scope" else [it for it in texts if JOINT not in it]


def ends_of(store: Store, number: int, kind: str) -> list[End]:
    """Returns the other ends of a resource's links of a kind; `broader` has those of all types."""
    if kind in ("broader", "narrower"):
        return [*(store.broader(number) if kind == "broader" else store.narrower(number))]
    if kind in ("member", "members"):
        return store.others(number, ["member"], at_a=kind == "members", at_b=kind == "member")
    there = store.others(number, [kind], at_a=True, at_b=kind not in BROADER and kind not in TURNED)
    return there + (store.others(number, [TURNED[kind]], at_b=True) if kind in TURNED else [])


class TableWriter:
    """Writes rows of concepts. `lost` counts texts that a cell with several can't hold."""

    def __init__(self, store: Store, names: list[str], lang: str):
        self.store, self.names, self.lang = store, names, lang
        self.counts = store.count_postings() if "records" in names else {}
        self.lost: Counter[str] = Counter()
        terms = Counter((it.tag, it.text) for it in store.labels if it.kind == "pref")
        # Terms by which a concept can be named: those that only one has in the language.
        self.unique = {
            it.owner: it.text
            for it in store.labels
            if it.kind == "pref" and it.tag == lang and terms[it.tag, it.text] == 1 and is_plain(it.text)
        }

    def rows(self, concepts: Iterable[Resource]) -> Iterator[list[str]]:
        """Yields the heading, and a row for each concept."""
        yield self.names
        for it in concepts:
            yield [self.cell(it.number, name) for name in self.names]

    def cell(self, number: int, name: str) -> str:
        """Returns the cell of a concept in a column."""
        if name == "number":
            return str(number)
        if name == "iri":
            return f"{self.store.base}{number}"
        if name == "records":
            return str(self.counts.get(number, 0))
        if name in NAMES:
            return JOINT.join(self.store.term(it, [self.lang]) for it in ends_of(self.store, number, NAMES[name]))
        kind, _, tag = name.partition("@")
        if kind in LABEL_KINDS:
            shown = shown_texts(self.store, number, kind, tag)
            self.lost[name] += len(texts_of(self.store, number, kind, tag)) - len(shown)
            return JOINT.join(shown)
        if name not in LINKED:
            values = self.store.values_of.get(number, ())
            shown = [as_in_cell(it) for it in values if (it.field, it.tag) == (kind, tag)]
            return cell_of(self.store.fields[kind], shown)
        return JOINT.join(self.named(it) for it in ends_of(self.store, number, kind))

    def named(self, end: End) -> str:
        """Returns how a row names a concept: by its term if only it has that, or else by its number."""
        return end if isinstance(end, str) else self.unique.get(end, str(end))


def table_text(rows: Iterable[list[str]], for_excel: bool, is_raw: bool = False) -> str:
    """Returns rows as CSV; for Excel with semicolons, and a mark by which it knows UTF-8. What a spreadsheet would take
    for a formula is guarded, unless the cells are to be as they are."""
    out = io.StringIO()
    writer = csv.writer(out, delimiter=";" if for_excel else ",", lineterminator="\r\n" if for_excel else "\n")
    writer.writerows(row if is_raw else [guard(it) for it in row] for row in rows)
    return ("\ufeff" if for_excel else "") + out.getvalue()


def columns_with_something(store: Store, concepts: Iterable[Resource], lang: str) -> list[str]:
    """Returns the columns in which some concepts have something: their languages in the order of their tags, one of
    them first."""
    numbers = {it.number for it in concepts}
    labels = {(it.kind, it.tag) for it in store.labels if it.owner in numbers}
    values = {(it.field, it.tag) for number in numbers for it in store.values_of.get(number, ())}
    kinds = {it.kind for it in store.links if it.a in numbers or it.b in numbers}

    def tagged(kind: str, found: Iterable[tuple[str, str]]) -> list[str]:
        tags = sorted((tag for its, tag in found if its == kind), key=lambda tag: (tag != lang, tag))
        return [f"{kind}@{tag}" if tag else kind for tag in tags]

    columns = ["number", "iri"]
    for kind in LABEL_KINDS:
        columns += tagged(kind, labels)
    for field in store.fields:
        columns += tagged(field, values)
    hierarchy = ["broader", "narrower"] if not kinds.isdisjoint(BROADER) else []
    return columns + hierarchy + [it for it in (*BROADER[1:], "related", *MAPPINGS, "member") if it in kinds]
