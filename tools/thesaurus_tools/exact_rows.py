"""Turns a row of a table that came back into requests, of which each cell says exactly what the concept is to have.

A cell is compared with what a table shows of its column. What a table can't show beside others, as a term with the sign
that parts terms, or a second note, a cell doesn't remove."""
from __future__ import annotations

from collections.abc import Callable, Iterable, Iterator
from functools import cached_property
from itertools import zip_longest
from typing import NamedTuple, Protocol

from thesaurus_tools.concept_finder import ConceptFinder, RowError
from thesaurus_tools.drafts import Draft, Reference
from thesaurus_tools.headings import LINKS, Column
from thesaurus_tools.kinds import BROADER, LABEL_KINDS, MAPPINGS
from thesaurus_tools.store import End
from thesaurus_tools.table_writer import JOINT, TURNED, ends_of, shown_texts
from thesaurus_tools.values import FieldValue, as_in_cell, cell_of, member_of, member_of_cell, set_request, texts_of

# Whether what a mark stands for is still as it was.
IsSeen = Callable[[str], bool]
# What a table shows of a column: texts, or the other ends of links.
Shown = list[End]


class Cells(Protocol):
    """What reads the cells of a row."""

    draft: Draft
    columns: list[Column]
    finder: ConceptFinder

    def values(self, role: str, cells: list[str]) -> list[tuple[Column, str]]:
        ...

    def values_of_fields(self, cells: list[str]) -> dict[tuple[str, str], list[str]]:
        ...

    def address_elsewhere(self, text: str) -> str:
        ...

    def add_link(self, kind: str, concept: Reference, text: str) -> Iterator[dict]:
        ...

    def set_preferred(self, owner: Reference, tag: str, text: str, keep: bool) -> Iterator[dict]:
        ...


class Difference(NamedTuple):
    """What the cells of a column say of a concept: what they have, and in what that differs from what is there."""

    column: Column
    before: Shown
    wanted: Shown

    @property
    def gone(self) -> Shown:
        """What the cells no longer have."""
        return [it for it in self.before if it not in self.wanted]

    @property
    def new(self) -> Shown:
        """What is only in the cells."""
        return [it for it in self.wanted if it not in self.before]


class ExactRows:
    """Reads rows of which each cell says exactly what a concept is to have."""

    def __init__(self, reader: Cells, keeps: bool):
        self.reader, self.draft, self.store = reader, reader.draft, reader.draft.store
        # Whether a preferred term that is replaced becomes an alternative one, if no column says that.
        self.keeps = keeps
        roles = {(it.role, it.tag): it for it in reader.columns}
        self.columns = [it for it in roles.values() if is_exact(it) and (not it.field or it.field in self.store.fields)]

    @cached_property
    def finder(self) -> ConceptFinder:
        """Finds what the names of cells meant before the table."""
        draft = Draft(self.store, self.draft.langs)
        return ConceptFinder(draft, self.reader.finder.lang, self.reader.finder.scheme)

    def changes(self, concept: Reference, cells: list[str], is_seen: bool) -> Iterator[dict]:
        """Yields the requests that give a concept what a row says. Raises RowError if it isn't as the row saw it."""
        differences = self.differences(concept, cells)
        if not is_seen:
            self.check_same(concept, cells, differences)
        of_links = [it for it in differences if it.column.role in LINKS]
        kind = self.kind_of_places(concept, of_links)
        for it in of_links:
            yield from self.unlink(concept, it, of_links)
        yield from self.change_labels(concept, [it for it in differences if it.column.role in LABEL_KINDS])
        for it in differences:
            if it.column.field:
                yield from self.set_values(concept, it)
        for it in of_links:
            yield from self.link(concept, it, kind)

    def keeps_term(self, tag: str) -> bool:
        """Whether a preferred term in a language that is replaced becomes an alternative one: if there is a column of
        these, its cell says it."""
        return self.keeps and not any((it.role, it.tag) == ("alt", tag) for it in self.columns)

    # --- what cells say ---

    def differences(self, concept: Reference, cells: list[str]) -> list[Difference]:
        """Returns what the columns of a row say of a concept, without those that say what is there."""
        values = self.reader.values_of_fields(cells)
        found = []
        for column in self.columns:
            before = self.shown(concept, column)
            wanted: Shown = [*values.get((column.field, column.tag), ())]
            if not column.field:
                texts = [text for its, text in self.reader.values(column.role, cells) if its.tag == column.tag]
                is_link = column.role in LINKS
                wanted = [
                    self.end(column.role, concept, it, before) if is_link else export_spelling(it, before)
                    for it in texts
                ]
            found.append(Difference(column, before, list(dict.fromkeys(wanted))))
        return [it for it in found if it.gone or it.new]

    def shown(self, concept: Reference, column: Column) -> Shown:
        """Returns what a table shows of a concept in a column, as the store is before the table."""
        if not isinstance(concept, int):
            return []
        if column.role in LINKS:
            return ends_of(self.store, concept, column.role)
        if column.role in LABEL_KINDS:
            return [*shown_texts(self.store, concept, column.role, column.tag)]
        held = self.store.values_of.get(concept, ())
        texts = [as_in_cell(it) for it in held if (it.field, it.tag) == (column.field, column.tag)]
        # (as a cell of them is read)
        field = self.store.fields[column.field]
        return [*texts_of(field, cell_of(field, texts))]

    def end(self, role: str, concept: Reference, text: str, before: Shown) -> End:
        """Returns what a cell of links names, as names were before the table, or else as rows so far give them."""
        if role in MAPPINGS and (address := self.reader.address_elsewhere(text)):
            return address
        if (number := self.finder.number_of(text)) in before and number:
            return number
        scheme = None if role in MAPPINGS else self.draft.scheme_of(concept)
        kind = "collection" if role == "member" else "concept"
        for finder in (self.finder, self.reader.finder):
            try:
                return finder.find_any(text) if role == "members" else finder.find(text, kind, scheme)
            except RowError:
                if finder is self.reader.finder:
                    raise
        raise AssertionError

    def check_same(self, concept: Reference, cells: list[str], differences: list[Difference]) -> None:
        """Raises RowError with both versions of a row whose concept was changed since; one that says what the concept
        has now is as good as done."""
        if differences:
            own = {its.column: self.cell(its.column, its.wanted) for its in differences}
            now = {its.column: self.cell(its.column, its.before) for its in differences}
            here, there = ("; ".join(f"{it.heading} “{text}”" for it, text in its.items()) for its in (own, now))
            raise RowError("changed_since", term=self.draft.term(concept), here=here, now=there)

    def cell(self, column: Column, shown: Shown) -> str:
        """Returns what a table shows in a column as a text."""
        if column.field:
            return cell_of(self.store.fields[column.field], [str(it) for it in shown])
        is_end = column.role in LINKS
        return f" {JOINT} ".join(self.store.term(it, self.draft.langs) if is_end else str(it) for it in shown)

    # --- terms and notes ---

    def change_labels(self, owner: Reference, differences: list[Difference]) -> Iterator[dict]:
        """Yields the requests for terms and notes: one text has one role, and a concept is never without a preferred
        term."""
        others = [it for it in differences if it.column.role != "pref"]
        preferred = [it for it in differences if it.column.role == "pref"]
        for it in others:
            yield from self.drop(owner, it.column, it.gone)
        for it in preferred:
            if len(it.wanted) > 1:
                values = ", ".join(map(str, it.wanted))
                raise RowError("several_values", role=it.column.heading, values=values)
            for text in it.new:
                yield from self.reader.set_preferred(owner, it.column.tag, str(text), self.keeps_term(it.column.tag))
        for it in preferred:
            yield from self.drop(owner, it.column, it.gone if not it.wanted else [])
        for it in others:
            for text in it.new:
                role, tag = it.column.role, it.column.tag
                if (role, tag, text) not in self.draft.labels_of(owner):
                    yield {"do": "addLabel", "owner": owner, "kind": role, "tag": tag, "text": text}

    def drop(self, owner: Reference, column: Column, texts: Iterable[End]) -> Iterator[dict]:
        """Yields the requests that remove terms or notes."""
        for text in texts:
            if (column.role, column.tag, text) in self.draft.labels_of(owner):
                yield {"do": "dropLabel", "owner": owner, "kind": column.role, "tag": column.tag, "text": text}

    # --- values ---

    def set_values(self, owner: Reference, difference: Difference) -> Iterator[dict]:
        """Yields the requests for the values of a field; the source of what is changed stays."""
        field, tag = difference.column.field, difference.column.tag
        held = self.draft.held(owner, field, tag)
        old = [it for it in held if as_in_cell(it) in difference.gone]
        new = [it for it in map(str, difference.new) if it not in map(as_in_cell, held)]
        yield from value_requests(owner, (field, tag), old, new)

    # --- links ---

    def unlink(self, concept: Reference, difference: Difference, others: list[Difference]) -> Iterator[dict]:
        """Yields the requests that remove the links of a column. Raises RowError if another cell still has one."""
        role = difference.column.role
        for end in difference.gone:
            if role == "broader" and self.is_named_by_type(concept, end, others):
                raise RowError("in_other_column", text=self.store.term(end, self.draft.langs))
            for kind, a, b in links_as(role, concept, end):
                if self.draft.has_link(kind, a, b):
                    yield {"do": "unlink", "kind": kind, "a": a, "b": self.store.outside.get(str(b), b)}

    def is_named_by_type(self, concept: Reference, end: End, differences: list[Difference]) -> bool:
        """Whether the column of a type still has a broader concept."""
        for column in self.columns:
            if column.role in BROADER[1:] and end in self.shown(concept, column):
                return not any(it.column == column and end in it.gone for it in differences)
        return False

    def kind_of_places(self, concept: Reference, differences: list[Difference]) -> str:
        """Returns the kind of a place that a row gives without a type: that of those which it takes, if they have
        one."""
        gone = {it for its in differences if its.column.role == "broader" for it in its.gone}
        kinds = {kind for kind, above in self.draft.broader_links(concept) if above in gone}
        return kinds.pop() if len(kinds) == 1 else "broader"

    def link(self, concept: Reference, difference: Difference, kind_of_place: str) -> Iterator[dict]:
        """Yields the requests that add the links of a column."""
        role = difference.column.role
        for end in difference.new:
            its = role if role not in ("broader", "narrower") else kind_of_place if role == "broader" else "broader"
            if isinstance(end, str) and role in MAPPINGS:
                yield from self.reader.add_link(role, concept, end)
            elif not any(self.draft.has_link(*it) for it in links_as(role, concept, end)):
                a, b = (end, concept) if role in ("narrower", "member") else (concept, end)
                yield {"do": "link", "kind": "member" if role == "members" else its, "a": a, "b": b}


def is_exact(column: Column) -> bool:
    """Whether the cells of a column say what a concept is to have."""
    return bool(column.role in LABEL_KINDS and column.tag or column.role in LINKS or column.field)


def export_spelling(text: str, before: Shown) -> End:
    """Returns the text of which a cell may have lost a space that isn't plain at its ends, or the text of the cell."""
    return next((it for it in before if str(it).strip() == text), text)


def links_as(role: str, concept: Reference, end: End) -> list[tuple[str, Reference, Reference]]:
    """Returns the links that a column shows, with their kinds and ends as a store may have them."""
    if role in ("broader", "narrower"):
        return [(it, concept, end) if role == "broader" else (it, end, concept) for it in BROADER]
    if role in ("member", "members"):
        return [("member", end, concept) if role == "member" else ("member", concept, end)]
    turned = [(TURNED.get(role, role), end, concept)] if role in MAPPINGS and isinstance(end, int) else []
    return [(role, concept, end), *turned]


def value_requests(owner: Reference, key: tuple[str, str], old: list[FieldValue], new: Iterable[str]) -> Iterator[dict]:
    """Yields the requests that put values of a field, in a language or with a code, in the place of others."""
    for before, text in zip_longest(old, new):
        source = before.source if before else ""
        member = member_of(before.text, source) if before else None
        yield set_request(owner, *key, old=member, new=None if text is None else member_of_cell(key[0], text, source))
