"""Finds the concepts that people name in tables: by number, IRI, old code or term."""
from __future__ import annotations

import re
from collections import defaultdict
from functools import cached_property

from thesaurus_tools.command_line import ToolError
from thesaurus_tools.drafts import Draft, Reference
from thesaurus_tools.link_rules import IRI_FORM
from thesaurus_tools.table_messages import ROWS

SHOWN = 6


class RowError(ToolError):
    """Why a row of a table can't be done: the key of its text in ROWS, by which others translate it, and its values."""

    def __init__(self, key: str, **values: object):
        super().__init__(ROWS[key].format(**values))
        self.key, self.values = key, values


class ConceptFinder:
    """Finds the one live concept, or collection, that a cell names."""

    def __init__(self, draft: Draft, lang: str, scheme: int | None):
        self.draft, self.lang, self.scheme = draft, lang, scheme
        store = draft.store
        self.by_iri = {it.b: it.a for it in store.links if it.kind == "exact" and isinstance(it.b, str)}

    def find(self, name: str, kind: str = "concept", scheme: int | None = None) -> Reference:
        """Returns what a name stands for. Raises RowError if nothing has it, or several have it."""
        number = self.number_of(name)
        text = name.removeprefix("<").removesuffix(">").strip()
        return self.live(number, kind) if number else self.find_text(text, kind, scheme or self.scheme)

    def find_any(self, name: str) -> Reference:
        """Returns what a name stands for; of a number or an address also a collection, a scheme, or what is no longer
        in use. Raises RowError."""
        return self.number_of(name) or self.find(name)

    def number_of(self, name: str) -> int | None:
        """Returns the resource that a name gives by its number or its address, if it does."""
        resources, base = self.draft.store.resources, self.draft.store.base
        text = name.removeprefix("<").removesuffix(">").strip()
        number = text.removeprefix(base) if base and text.startswith(base) else text.removeprefix("#")
        if re.fullmatch("[0-9]{1,10}", number) and int(number) in resources:
            return int(number)
        return int(self.by_iri[text]) if IRI_FORM.fullmatch(text) and text in self.by_iri else None

    @cached_property
    def by_notation(self) -> dict[tuple[str, str], set[Reference]]:
        """The resources that have a notation, by its code and its text."""
        found: dict[tuple[str, str], set[Reference]] = defaultdict(set)
        for number, values in self.draft.store.values_of.items():
            for it in values:
                if it.field == "notation":
                    found[it.tag, it.text].add(number)
        return found

    def find_notation(self, code: str, text: str) -> Reference:
        """Returns the live concept that has a notation of a code. Raises RowError if none has it, or several have
        it."""
        holders = {it for it in self.by_notation.get((code, text), ()) if self.is_of(it, "concept", self.scheme)}
        live = {it for it in holders if self.draft.is_live(it)}
        if len(live) == 1:
            return live.pop()
        if live:
            raise RowError("several_have", text=text, concepts=self.candidates(live))
        if holders:
            raise RowError("term_of_ended", text=text, concepts=self.candidates(holders))
        raise RowError("not_called", kind="concept", text=text)

    def live(self, number: int, kind: str) -> int:
        """Returns a number whose resource is live and of the kind. Raises RowError for another one."""
        found = self.draft.store.resources[number]
        if found.kind != kind:
            raise RowError("wrong_kind", number=number, found=found.kind, kind=kind)
        self.check_live(number)
        return number

    def check_live(self, concept: Reference) -> None:
        """Raises RowError for what is no longer in use."""
        if isinstance(concept, int) and not self.draft.is_live(concept):
            end = self.draft.store.live_end(concept)
            dead = {"number": concept, "term": self.draft.term(concept)}
            if end and self.draft.is_live(end):
                raise RowError("merged", **dead, end=end, its_term=self.draft.term(end))
            raise RowError("ended", **dead)

    def find_text(self, text: str, kind: str, scheme: int | None) -> Reference:
        """Returns what has a text as its code or term: the first kind of label by which somebody has it decides."""
        holders = {it for it in self.draft.by_text.get(text, ()) if self.is_of(it[0], kind, scheme)}
        live = {it for it in holders if self.draft.is_live(it[0])}
        for wanted in (("pref", self.lang), ("pref", None), ("alt", self.lang), ("alt", None), ("hidden", None)):
            found = {owner for owner, its, tag in live if its == wanted[0] and wanted[1] in (None, tag)}
            if len(found) == 1:
                return found.pop()
            if found:
                raise RowError("several_have", text=text, concepts=self.candidates(found))
        if holders:
            raise RowError("term_of_ended", text=text, concepts=self.candidates({it[0] for it in holders}))
        raise RowError("not_called", kind=kind, text=text)

    def is_of(self, owner: Reference, kind: str, scheme: int | None) -> bool:
        """Whether a resource is of a kind, and in a scheme if one is given."""
        known = self.draft.store.resources.get(owner) if isinstance(owner, int) else None
        is_kind = known.kind == kind if known else kind == "concept"
        return is_kind and scheme in (None, self.draft.scheme_of(owner))

    def candidates(self, found: set[Reference]) -> str:
        """Returns the numbers and terms of some concepts."""
        listed = sorted(found, key=str)
        names = ", ".join(f"{it} ({self.draft.term(it)})" for it in listed[:SHOWN])
        return names + (", …" if len(listed) > SHOWN else "")
