"""Turns the rows of a table into requests about records: postings, withdrawals, and splits by a list of records."""
from __future__ import annotations

import hashlib
from collections import defaultdict
from collections.abc import Iterator
from functools import cached_property
from typing import Protocol

from thesaurus_tools.concept_finder import ConceptFinder, RowError
from thesaurus_tools.drafts import Draft, Reference
from thesaurus_tools.headings import Column
from thesaurus_tools.store import Posting


class Cells(Protocol):
    """What reads the cells of a row."""

    draft: Draft
    finder: ConceptFinder
    # The line of the row, and that of an earlier one with which it is done.
    line: int
    part_of: int

    def values(self, role: str, cells: list[str]) -> list[tuple[Column, str]]:
        ...

    def value(self, role: str, cells: list[str]) -> str:
        ...

    def concept(self, cells: list[str]) -> Reference:
        ...

    def language(self, cells: list[str]) -> str:
        ...

    def add_links(self, concept: Reference, cells: list[str]) -> Iterator[dict]:
        ...


class PostingRows:
    """Reads rows about records, over the postings that the store has."""

    def __init__(self, reader: Cells):
        self.reader = reader
        # The postings that earlier rows withdraw, or give to a new concept.
        self.gone: set[int] = set()
        # The records and concepts that earlier rows index.
        self.posted: set[tuple[str, Reference]] = set()
        # The splits of the table so far, by concept and new term, each with the line of its first row.
        self.splits: dict[tuple[Reference, str, str], tuple[int, dict]] = {}

    @cached_property
    def by_key(self) -> dict[str, Posting]:
        """The postings of the store."""
        return {it.key: it for it in self.reader.draft.store.each_posting()}

    @cached_property
    def standing(self) -> dict[tuple[str, Reference], list[int]]:
        """The numbers of the postings that aren't withdrawn, by record and place."""
        found: dict[tuple[str, Reference], list[int]] = defaultdict(list)
        for it in self.by_key.values():
            if not it.is_withdrawn:
                found[it.record, it.place].append(it.number)
        return found

    def at(self, record: str, place: Reference) -> list[int]:
        """Returns the postings of a record at a concept, but for those that an earlier row takes away."""
        return [it for it in self.standing.get((record, place), ()) if it not in self.gone]

    def record(self, cells: list[str]) -> str:
        if not (record := self.reader.value("record", cells)):
            raise RowError("no_record")
        return record

    def post(self, name: str, cells: list[str]) -> Iterator[dict]:
        """Yields the requests that index a record with each concept of a row, unless it is indexed so, or the posting
        with the row's key was withdrawn."""
        record, key, wanted = self.record(cells), self.reader.value("key", cells), self.wanted(cells)
        if key and len(wanted) > 1:
            raise RowError("key_of_several", value=key, n=len(wanted))
        for it in wanted:
            made = key or self.made_key(record, it)
            known = self.by_key.get(made)
            if known and known.record == record and it in (str(known.first), str(known.place)):
                continue
            concept = self.reader.finder.find(it)
            is_known = known and known.record == record and concept in (known.first, known.place)
            is_there = not key and ((record, concept) in self.posted or self.at(record, concept))
            if not is_known and not is_there:
                self.posted.add((record, concept))
                yield {"do": "post", "key": made, "record": record, "concept": concept}

    def made_key(self, record: str, concept: str) -> str:
        """Returns the key of a posting without one: made of the record, of the concept, and of the postings that the
        record had there and that are withdrawn, whose keys are never free."""
        parts = [record, concept]
        while True:
            made = hashlib.sha256("\0".join(parts).encode()).hexdigest()[:32]
            known = self.by_key.get(made)
            if not known or not known.is_withdrawn and known.number not in self.gone:
                return made
            parts.append(str(known.number))

    def wanted(self, cells: list[str]) -> list[str]:
        """Returns what a row names the concepts of its record by: all of the first column that names any."""
        for role in ("into", "concept", "iri", "code", "pref"):
            if named := [text for _, text in self.reader.values(role, cells)]:
                return named
        raise RowError("no_concept")

    def withdraw(self, name: str, cells: list[str]) -> Iterator[dict]:
        """Yields the requests that withdraw the postings of a record at a concept."""
        numbers = self.found(self.reader.value("record", cells), self.reader.concept(cells))
        self.gone.update(numbers)
        self.posted.discard((self.reader.value("record", cells), self.reader.concept(cells)))
        yield from ({"do": "withdraw", "posting": it} for it in numbers)

    def found(self, record: str, concept: Reference) -> list[int]:
        """Returns the postings of a record at a concept. Raises RowError if there are none."""
        if not (numbers := self.at(record, concept)):
            raise RowError("not_indexed", record=record, term=self.reader.draft.term(concept))
        return numbers

    def split(self, name: str, cells: list[str]) -> Iterator[dict]:
        """Yields the split that gives the record to a new concept; or else has that of an earlier row give it, too."""
        record, concept, text = self.record(cells), self.reader.concept(cells), self.reader.value("new", cells)
        tag = self.reader.language(cells)
        if not text:
            raise RowError("no_preferred")
        if not tag:
            raise RowError("no_language", term=self.reader.draft.term(concept))
        numbers = self.found(record, concept)
        self.gone.update(numbers)
        line, split = self.splits.get((concept, tag, text), (0, {}))
        if line:
            split["postings"] += numbers
            self.reader.part_of = line
            return
        split = {"as": name, "do": "split", "source": concept, "tag": tag, "text": text, "postings": numbers}
        self.splits[concept, tag, text] = (self.reader.line, split)
        yield split
        yield from self.reader.add_links(f"${name}", cells)
