"""Look-ups of postings and of records."""
from __future__ import annotations

import json
from collections.abc import Iterable, Iterator, Sequence
from typing import Any

from thesaurus_desk.store.model import Posting
from thesaurus_desk.store.read_transactions import ReadTransactions, Row
from thesaurus_desk.store.search import MOST_WEIGHED
from thesaurus_desk.store.text_keys import LAST, fold

PAGE = 100
COLUMNS = "num, pkey, record, first_at, at, withdrawn"
# Standing postings at a concept or at one below it.
AT_BELOW = (
    "WITH RECURSIVE below (n) AS (VALUES (?1) UNION SELECT hier.a FROM below JOIN hier ON hier.b = n)"
    " SELECT {} FROM below CROSS JOIN posting ON at = n AND withdrawn = 0 {}"
)


class Postings:
    """All postings, withdrawn ones among them."""

    def __init__(self, store: ReadTransactions) -> None:
        self.store = store

    def made_of(self, rows: Sequence[Row]) -> list[Posting]:
        """Returns the postings of some rows, with their moves."""
        found = {it[0]: Posting(it[0], it[1], it[2], it[3], it[4], it[5] == 1) for it in rows}
        test = "posting IN (SELECT value FROM json_each(?))"
        moves = f"SELECT posting, num, source, target FROM move WHERE {test} ORDER BY num"
        for posting, *move in self.store.all(moves, json.dumps(list(found))) if found else ():
            found[posting].moves += ((move[0], move[1], move[2]),)
        return list(found.values())

    def find(self, test: str, *values: Any) -> list[Posting]:
        """Returns the postings that pass a test, in the order of their numbers."""
        return self.made_of(self.store.all(f"SELECT {COLUMNS} FROM posting WHERE {test} ORDER BY num", *values))

    def get(self, number: int) -> Posting | None:
        """Returns the posting of a number."""
        return next(iter(self.find("num = ?", number)), None)

    def several(self, numbers: Iterable[int]) -> list[Posting]:
        """Returns the postings of some numbers that there are, in the order of their numbers."""
        return self.find("num IN (SELECT value FROM json_each(?))", json.dumps(list(numbers)))

    def records_of(self, numbers: Iterable[int]) -> set[str]:
        """Returns the records of the postings of some numbers."""
        query = "SELECT DISTINCT record FROM json_each(?) CROSS JOIN posting ON num = value"
        return {it[0] for it in self.store.all(query, json.dumps(list(numbers)))}

    def with_key(self, key: str) -> Posting | None:
        """Returns the posting that has a key."""
        return next(iter(self.find("pkey = ?", key)), None)

    def of_record(self, record: str) -> list[Posting]:
        """Returns the postings of a record, withdrawn ones among them, in the order of their numbers."""
        return self.find("record = ?", record)

    def indexed_of(self, records: Iterable[str]) -> set[str]:
        """Returns which of some records have a standing posting."""
        query = "SELECT DISTINCT record FROM json_each(?) CROSS JOIN posting ON record = value AND withdrawn = 0"
        return {it[0] for it in self.store.all(query, json.dumps(list(records)))}

    # --- at a concept ---

    def count_at(self, concept: int) -> int:
        """Returns the number of postings assigned to a concept."""
        query = "SELECT count(*) FROM posting WHERE at = ? AND withdrawn = 0"
        return self.store.once(("at", concept), lambda: self.store.value(query, concept) or 0, ("postings",))

    def count_records_at(self, concept: int) -> int:
        """Returns the number of records indexed with a concept, each counted once."""
        # (without a hint the other index of places is taken, and the records are sorted)
        places = "posting INDEXED BY posting_place WHERE at = ? AND withdrawn = 0"
        query = f"SELECT count(DISTINCT record) FROM {places}"
        return self.store.once(("records", concept), lambda: self.store.value(query, concept) or 0, ("postings",))

    def records_at(self, concept: int) -> set[str]:
        """Returns the records indexed with a concept."""
        places = "posting INDEXED BY posting_place WHERE at = ? AND withdrawn = 0"
        return {it[0] for it in self.store.all(f"SELECT DISTINCT record FROM {places}", concept)}

    def numbers_at(self, concept: int) -> list[int]:
        """Returns the numbers of the postings assigned to a concept, in their order."""
        return self.store.numbers_of("SELECT num FROM posting WHERE at = ? AND withdrawn = 0 ORDER BY num", concept)

    def places_after(self, number: int) -> list[int]:
        """Returns the concepts to which the postings after one are assigned, in order."""
        return self.store.numbers_of("SELECT DISTINCT at FROM posting WHERE num > ? ORDER BY at", number)

    def page_at(self, concept: int, page: int = 1, size: int = PAGE) -> list[Posting]:
        """Returns a page of the postings assigned to a concept, by number. Pages count from 1."""
        where = "num IN (SELECT num FROM posting WHERE at = ? AND withdrawn = 0 ORDER BY num LIMIT ? OFFSET ?)"
        return self.find(where, concept, size, (page - 1) * size) if page > 0 else []

    def repeated_at(self, concept: int) -> int:
        """Returns how many records a concept has more than once."""
        query = (
            "SELECT count(*) FROM (SELECT 1 FROM posting INDEXED BY posting_place WHERE at = ? AND withdrawn = 0"
            " GROUP BY record HAVING count(*) > 1)"
        )
        return self.store.once(("repeated", concept), lambda: self.store.value(query, concept) or 0, ("postings",))

    def again(self, postings: Iterable[Posting]) -> frozenset[int]:
        """Returns the numbers of those postings whose record the same concept has in an earlier one."""
        query = "SELECT min(num) FROM posting INDEXED BY posting_place WHERE at = ? AND record = ? AND withdrawn = 0"
        firsts = ((it.number, self.store.value(query, it.place, it.record)) for it in postings if not it.is_withdrawn)
        return frozenset(number for number, first in firsts if first != number)

    # --- at a concept or at one below it ---

    def count_below(self, concept: int) -> int:
        """Returns the number of postings assigned to a concept or to one below it."""
        query = AT_BELOW.format("count(*)", "")
        parts = ("postings", "links")
        return self.store.once(("below", concept), lambda: self.store.value(query, concept) or 0, parts)

    def count_records_below(self, concept: int) -> int:
        """Returns the number of records indexed with a concept or with one below it, each counted once."""
        query = AT_BELOW.format("count(DISTINCT record)", "")
        parts = ("postings", "links")
        return self.store.once(("records below", concept), lambda: self.store.value(query, concept) or 0, parts)

    def page_below(self, concept: int, page: int = 1, size: int = PAGE) -> list[Posting]:
        """Returns a page of the postings assigned to a concept or to one below it, by number. Pages count from 1."""
        numbers = AT_BELOW.format("num", "ORDER BY num LIMIT ?2 OFFSET ?3")
        return self.find(f"num IN ({numbers})", concept, size, (page - 1) * size) if page > 0 else []

    def numbers_below(self, concept: int) -> list[int]:
        """Returns the numbers of the postings assigned to a concept or to one below it, in their order."""
        return self.store.numbers_of(AT_BELOW.format("num", "ORDER BY num"), concept)

    def each_at(self, concept: int, with_below: bool = False) -> Iterator[Posting]:
        """Yields the postings assigned to a concept, or to it and those below it, in the order of their numbers."""
        numbers = self.numbers_below(concept) if with_below else self.numbers_at(concept)
        for at in range(0, len(numbers), PAGE):
            yield from self.several(numbers[at : at + PAGE])

    # --- all ---

    def totals(self) -> dict[str, int]:
        """Returns the numbers of postings as the program's `GET /totals` has them."""
        accepted = self.store.value("SELECT coalesce(max(num), 0) FROM posting")
        withdrawn = self.store.value("SELECT value FROM total WHERE name = 'withdrawn'") or 0
        return {"accepted": accepted, "standing": accepted - withdrawn, "withdrawn": withdrawn}

    def records_like(self, text: str, most: int = 30) -> list[str]:
        """Returns names of records that have a text at their beginning, or else from some word on, in their order."""
        folded = fold(text.strip())
        if not folded:
            return []
        # (a bound before they are in order: a short text has hundreds of thousands)
        parts = "SELECT part, record, is_whole FROM record_part WHERE part >= ? AND part < ? ORDER BY part LIMIT ?"
        query = f"SELECT part, name, is_whole FROM ({parts}) JOIN record ON id = record"
        found = sorted(self.store.all(query, folded, folded + LAST, MOST_WEIGHED))
        first = [name for _, name, is_whole in found if is_whole]
        others = dict.fromkeys(name for _, name, is_whole in found if not is_whole)
        return [*first, *(it for it in others if it not in first[:most])][:most]
