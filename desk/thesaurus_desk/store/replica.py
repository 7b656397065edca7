"""The replica with all look-ups of it: what pages see of the store."""
from __future__ import annotations

import sqlite3
from collections.abc import Sequence
from pathlib import Path

from thesaurus_desk.store.model import Hit, Term
from thesaurus_desk.store.postings import Postings
from thesaurus_desk.store.public_view import show_to_public
from thesaurus_desk.store.read_transactions import in_one_transaction
from thesaurus_desk.store.resources import Resources
from thesaurus_desk.store.schema import KINDS
from thesaurus_desk.store.search import MOST_SHOWN, MOST_WEIGHED, has_parts
from thesaurus_desk.store.search import BY_TEXT, COLUMNS, LabelFilter, Search, entry_of
from thesaurus_desk.store.text_keys import has_language
from thesaurus_desk.store.text_keys import LAST, fold
from thesaurus_tools.table_store import TableStore

# The terms by which a thesaurus is listed: preferred and alternative ones of live concepts.
LISTED = (
    "FROM label l CROSS JOIN resource r ON r.num = l.owner AND r.kind = 2 AND r.live = 1"
    " WHERE l.kind < 3 AND l.tag = ? AND l.fold >= ? AND l.fold < ?"
)
# The first of the tags of preferred and alternative terms, and each next one: the index has far more rows.
TAGS = (
    "WITH RECURSIVE tags (tag) AS (SELECT min(tag) FROM label WHERE kind < 3 UNION ALL"
    " SELECT (SELECT min(tag) FROM label WHERE kind < 3 AND tag > tags.tag) FROM tags WHERE tags.tag IS NOT NULL)"
    " SELECT tag FROM tags WHERE tag IS NOT NULL"
)


def no_names(iri: str) -> list[Term]:
    """Returns what is known of the names of a concept elsewhere: nothing."""
    return []


class Replica(Resources):
    """The store as it is after the last plan.

    Safe for several threads: each has a connection of its own. `reading` has several look-ups see one moment."""

    def __init__(self, path: Path) -> None:
        super().__init__(path)
        self.postings = Postings(self)
        self.index = Search(self)
        self.names = no_names

    def digest(self) -> str:
        """Returns the digest of all rows of the store."""
        return str(self.value("SELECT value FROM replica WHERE name = 'digest'"))

    def as_store(self) -> TableStore:
        """Returns the tables as the tools see those of a store: they have the same names and columns."""
        return TableStore("the store", self.connection()).read_base()

    # --- statuses ---

    def statuses(self) -> dict[int, str]:
        """Returns the statuses of the concepts that have one: all others are approved."""
        query = "SELECT owner, text FROM value WHERE field = 'status'"
        return self.once("statuses", lambda: {owner: text for owner, text in self.all(query)}, ("statuses",))

    @property
    def hides(self) -> bool:
        """Whether the public doesn't see all concepts."""
        return self.once("hides", lambda: self.one("SELECT 1 FROM hidden LIMIT 1") is not None, ("statuses",))

    # --- records below a concept ---

    def count_below(self, number: int) -> int:
        """Returns the number of postings assigned to a concept or to one below it."""
        return self.postings.count_below(number)

    def count_records(self, number: int) -> int:
        """Returns the number of records indexed with a concept, each counted once."""
        return self.postings.count_records_at(number)

    def count_records_below(self, number: int) -> int:
        """Returns the number of records indexed with a concept or with one below it, each counted once."""
        return self.postings.count_records_below(number)

    def has_records(self, number: int) -> bool:
        """Whether a record is indexed with a concept."""
        return self.one("SELECT 1 FROM posting WHERE at = ? AND withdrawn = 0 LIMIT 1", number) is not None

    # --- languages ---

    @property
    def tags(self) -> dict[str, int]:
        """How many preferred labels each language tag of a label has."""
        query = "SELECT tag, preferred FROM language"
        return self.once("language", lambda: {tag: count for tag, count in self.all(query)}, ("labels",))

    def languages(self) -> list[str]:
        """Returns the languages of preferred labels, the commonest first."""
        return [tag for tag, count in sorted(self.tags.items(), key=lambda it: (-it[1], it[0])) if count]

    def tags_of(self, lang: str) -> list[str]:
        """Returns the tags of a language that preferred and alternative terms have."""
        tags = self.once("tags", lambda: [it[0] for it in self.all(TAGS)], ("labels",))
        return [it for it in tags if has_language(it, lang)]

    # --- labels ---

    def holder(self, scheme: int | None, tag: str, text: str) -> int | None:
        """Returns the live concept of a scheme that has a preferred label."""
        for _, number, kind, its_tag, its_text in self.index.same(text, LabelFilter(live=True)):
            head = self.head(number)
            if (kind, its_tag, its_text) == ("pref", tag.lower(), text) and head and head[2] == scheme:
                return number
        return None

    def named(self, text: str, kinds: Sequence[str] = ("concept",), live: bool | None = None) -> list[Hit]:
        """Returns resources that have a label with the same folded text."""
        found: dict[int, Hit] = {}
        for entry in self.index.same(text, LabelFilter(kinds, live=live)):
            found.setdefault(entry[1], Hit(*entry[1:]))
        return list(found.values())

    @in_one_transaction
    def search(
        self,
        query: str,
        *,
        most: int = MOST_SHOWN,
        weigh: int = MOST_WEIGHED,
        prefer: str | None = None,
        lang: str | None = None,
        live: bool | None = None,
        scheme: int | None = None,
        kinds: Sequence[str] = ("concept",),
    ) -> list[Hit]:
        """Returns the resources found by a number, an IRI or a text, each once, the best first.

        `lang` leaves out labels in other languages; `prefer` only puts those of a language first. Old codes are
        hidden labels. `weigh` bounds the labels that are looked at."""
        query = query.strip()
        found = self.index.find(query, LabelFilter(kinds, scheme, live, lang), prefer, most, weigh)
        plain = query.removeprefix("#")
        number = int(plain) if plain.isascii() and plain.isdigit() and len(plain) < 11 else self.by_iri(query)
        it = self.head(number or 0)
        if it and KINDS[it[1]] in kinds and scheme in (None, it[2]) and live in (None, it[3] == 1):
            tag, text = self.term(it[0], [prefer] if prefer else [])
            found = [Hit(it[0], "pref", tag, text), *(hit for hit in found if hit.number != it[0])]
        return found[:most]

    # --- lists of terms ---

    @in_one_transaction
    def beginning(self, letter: str, lang: str, scheme: int | None = None) -> list[Hit]:
        """Returns the preferred and alternative terms of live concepts that begin with a letter, in their order."""
        query = f"SELECT {COLUMNS} {LISTED} AND (?4 IS NULL OR r.scheme = ?4)"
        rows = (it for tag in self.tags_of(lang) for it in self.all(query, tag, letter, letter + LAST, scheme))
        return [Hit(*it[1:]) for it in sorted(map(entry_of, rows))]

    @in_one_transaction
    def count_beginning(self, letter: str, lang: str) -> int:
        """Returns how many terms `beginning` returns."""

        def count() -> int:
            return sum(self.value(f"SELECT count(*) {LISTED}", it, letter, letter + LAST) for it in self.tags_of(lang))

        return self.once(("beginning", letter, lang), count, ("labels", "resources"))

    @in_one_transaction
    def page_beginning(self, letter: str, lang: str, page: int, size: int) -> list[Hit]:
        """Returns a page of what `beginning` returns; pages count from 0."""
        tags = self.tags_of(lang)
        if len(tags) != 1:
            return self.beginning(letter, lang)[page * size : (page + 1) * size]
        query = f"SELECT {COLUMNS} {LISTED} ORDER BY {BY_TEXT} LIMIT ? OFFSET ?"
        rows = self.all(query, tags[0], letter, letter + LAST, size, page * size)
        return [Hit(*it[1:]) for it in map(entry_of, rows)]

    def has_beginning(self, letter: str, lang: str, scheme: int | None = None) -> bool:
        """Whether `beginning` returns a term."""
        query = f"SELECT 1 {LISTED} AND (?4 IS NULL OR r.scheme = ?4) LIMIT 1"
        return any(self.one(query, it, letter, letter + LAST, scheme) for it in self.tags_of(lang))

    @in_one_transaction
    def matching(
        self, pattern: str, *, scheme: int | None = None, lang: str | None = None, kinds: Sequence[str] = ("concept",)
    ) -> list[Hit]:
        """Returns the labels of live resources that a pattern with * for any text matches as a whole, without regard
        to case and accents. A pattern of * alone matches none."""
        if not pattern.strip("* "):
            return []
        parts = [fold(it) for it in pattern.split("*")]
        found = self.index.all(LabelFilter(kinds, scheme, True, lang), parts[0])
        return [Hit(*it[1:]) for it in found if has_parts(parts, it[0])]

    @in_one_transaction
    def containing(self, text: str, most: int = MOST_SHOWN) -> list[Hit]:
        """Returns resources with a term, an old code or a scope note that contains a text, also within a word: each
        once, terms first."""
        return self.index.find_within(text, most)

    @in_one_transaction
    def letters_of(self, lang: str, scheme: int | None = None) -> list[str]:
        """Returns the first letters of the terms of live concepts in a language, folded, in their order."""

        def find() -> list[str]:
            return [it for it in self.letters() if self.has_beginning(it, lang, scheme)]

        return list(self.once(("letters of", lang, scheme), find, ("labels", "resources")))

    def letters(self) -> list[str]:
        """Returns the first letters of labels, folded, in their order."""

        def find() -> list[str]:
            found, at = [], ""
            query = "SELECT fold FROM label WHERE kind < 4 AND fold >= ? ORDER BY fold LIMIT 1"
            while (folded := self.value(query, at)) is not None:
                found.append(folded[:1])
                at = folded[:1] + LAST
            return found

        return list(self.once("letters", find, ("labels",)))


class PublicReplica(Replica):
    """What the public sees of the store: no concept whose status hides it."""

    def connect(self) -> sqlite3.Connection:
        """Returns a new connection, which sees the tables without these concepts."""
        rows = super().connect()
        rows.execute("PRAGMA query_only = 0")
        show_to_public(rows)
        rows.execute("PRAGMA query_only = 1")
        return rows
