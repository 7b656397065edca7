"""Finds labels by SQL: the very text, labels that begin so, labels with a word for each word, one typing error
forgiven; and labels and notes by what is inside them."""
from __future__ import annotations

from collections.abc import Callable, Iterable, Iterator, Sequence
from dataclasses import dataclass
from typing import Any

from thesaurus_desk.store.model import Hit
from thesaurus_desk.store.read_transactions import ReadTransactions, Row
from thesaurus_desk.store.schema import KIND_NUMBER
from thesaurus_desk.store.text_keys import LAST, WORD, fold
from thesaurus_tools.table_store import KIND_OF_LABEL

# A label: folded, then its owner, kind, tag and text.
Entry = tuple[str, int, str, str, str]
# How many labels a search weighs, and how many it returns.
MOST_WEIGHED, MOST_SHOWN = 2000, 30
# How many words of a query count.
MOST_WORDS = 16
# A word must have this number of letters for a typing error in it to be forgiven, and be one of the first.
LONG, MOST_FORGIVEN = 5, 4
COLUMNS = "l.fold, l.owner, l.kind, l.tag, l.text"
# The order of kinds of labels by their names.
BY_KIND = "CASE l.kind WHEN 1 THEN 3 ELSE l.kind - 1 END"
# The order of labels found: the same text first, then the reader's language, then preferred terms.
BY_WEIGHT = f"l.fold <> ?, l.tag <> ?, l.kind <> 1, length(l.fold), l.fold, l.owner, {BY_KIND}, l.tag, l.text"
BY_TEXT = f"l.fold, l.owner, {BY_KIND}, l.tag, l.text"
# The letters of a part of a word that the index of parts can find.
PART = 3


@dataclass(frozen=True, slots=True)
class LabelFilter:
    """Which labels are looked for: those of resources of some kinds, of a scheme, live or dead ones, in a language."""

    kinds: Sequence[str] = ("concept",)
    scheme: int | None = None
    live: bool | None = None
    lang: str | None = None

    def test(self) -> tuple[str, list[Any]]:
        """Returns a test of a label `l` and its owner `r`, with its values."""
        tests = [f"r.kind IN ({', '.join(str(KIND_NUMBER[it]) for it in self.kinds) or 'NULL'})"]
        values: list[Any] = []
        for name, value in (("scheme", self.scheme), ("live", self.live)):
            if value is not None:
                tests.append(f"r.{name} = ?")
                values.append(int(value))
        if self.lang is not None:
            tests.append("(l.tag = ? OR substr(l.tag, 1, ?) = ?)")
            values += [self.lang, len(self.lang) + 1, f"{self.lang}-"]
        return " AND ".join(tests), values


@dataclass(frozen=True, slots=True)
class Source:
    """Where labels come from: a table or a query named `l`, with its values."""

    query: str
    values: tuple[Any, ...]


def beginning_with(folded: str, most: int = MOST_WEIGHED) -> Source:
    """Returns the labels that begin with a folded text, the first of them in their order."""
    # (a bound before they are weighed: a short text has hundreds of thousands)
    test = "kind < 4 AND fold >= ? AND fold < ? ORDER BY fold, owner LIMIT ?"
    return Source(f"(SELECT fold, owner, kind, tag, text FROM label WHERE {test}) l", (folded, folded + LAST, most))


def with_words(starts: Iterable[str], most: int = MOST_WEIGHED) -> Source:
    """Returns labels that have a word for each start of a word, some of them if there are many."""
    asked = " AND ".join(f'"{it}" *' for it in starts)
    return from_index("term_fts", asked, most)


def with_part(folded: str, most: int = MOST_WEIGHED) -> Source:
    """Returns labels that have a folded text of three letters or more anywhere."""
    parts = dict.fromkeys(folded[at : at + PART] for at in range(len(folded) - PART + 1))
    asked = " AND ".join('"' + it.replace('"', '""') + '"' for it in parts)
    return from_index("part_fts", asked, most, "instr(l.fold, ?)", folded)


def from_index(table: str, asked: str, most: int, test: str = "1", *values: Any) -> Source:
    """Returns the labels that an index of words has for a query, the first of them, if they pass a test, too."""
    found = f"(SELECT rowid FROM {table} WHERE {table} MATCH ? LIMIT ?) f CROSS JOIN label l ON l.id = f.rowid"
    return Source(f"(SELECT {COLUMNS} FROM {found} WHERE {test}) l", (asked, most, *values))


class Search:
    """Finds labels, and by them resources."""

    def __init__(self, store: ReadTransactions) -> None:
        self.store = store

    # --- labels ---

    def labels(self, source: Source, asked: LabelFilter, order: str, *values: Any) -> Iterator[Entry]:
        """Yields the labels of a source that are looked for, in an order."""
        test, its = asked.test()
        owned = f"{source.query} CROSS JOIN resource r ON r.num = l.owner"
        query = f"SELECT {COLUMNS} FROM {owned} WHERE {test} ORDER BY {order}"
        return (entry_of(it) for it in self.store.all(query, *source.values, *its, *values))

    def weighed(self, source: Source, asked: LabelFilter, folded: str, prefer: str | None) -> Iterator[Entry]:
        """Yields the labels of a source that are looked for, the best first."""
        return self.labels(source, asked, BY_WEIGHT, folded, prefer or "")

    def same(self, text: str, asked: LabelFilter) -> Iterator[Entry]:
        """Yields the labels whose folded text is that of a text."""
        test = "(SELECT fold, owner, kind, tag, text FROM label WHERE kind < 4 AND fold = ?) l"
        return self.labels(Source(test, (fold(text),)), asked, BY_TEXT)

    def all(self, asked: LabelFilter, beginning: str = "") -> Iterator[Entry]:
        """Yields the labels that begin with a folded text, in their order: all of them, however many."""
        return self.labels(beginning_with(beginning, -1), asked, BY_TEXT)

    # --- resources ---

    @staticmethod
    def take(hits: dict[int, Hit], entries: Iterable[Entry], most: int, is_alike: bool = False) -> None:
        """Adds the owners of labels to those found, until these are enough."""
        for entry in entries:
            if len(hits) >= most:
                return
            if entry[1] not in hits:
                hits[entry[1]] = Hit(*entry[1:], is_alike=is_alike)

    def find(
        self,
        query: str,
        asked: LabelFilter,
        prefer: str | None = None,
        most: int = MOST_SHOWN,
        weigh: int = MOST_WEIGHED,
    ) -> list[Hit]:
        """Returns resources that have a matching label that is looked for, each once, the best first: by the
        beginning, then by words, and only if there is none, with one typing error. At most a number of labels is
        weighed in each of these ways."""
        folded = fold(query.strip())
        starts = list(dict.fromkeys(WORD.findall(folded)))[:MOST_WORDS]
        if not starts:
            return []
        hits: dict[int, Hit] = {}
        self.take(hits, self.weighed(beginning_with(folded, weigh), asked, folded, prefer), most)
        if len(hits) < most:
            self.take(hits, self.weighed(with_words(starts, weigh), asked, "", prefer), most)
        for place, word in enumerate(starts[:MOST_FORGIVEN] if not hits else ()):
            if len(word) >= LONG:
                for alike in sorted(starts_alike(word, self.letters_after, self.is_start))[:weigh]:
                    changed = [*starts[:place], alike, *starts[place + 1 :]]
                    self.take(hits, self.weighed(with_words(changed, weigh), asked, "", prefer), most, is_alike=True)
        return list(hits.values())[:most]

    def find_part(self, query: str, asked: LabelFilter, prefer: str | None = None, most: int = MOST_SHOWN) -> list[Hit]:
        """Returns resources that have a label with a text of three letters or more anywhere in it."""
        folded, hits = fold(query.strip()), dict[int, Hit]()
        if len(folded) >= PART:
            self.take(hits, self.weighed(with_part(folded), asked, "", prefer), most)
        return list(hits.values())

    def find_notes(self, query: str, asked: LabelFilter, most: int = MOST_SHOWN) -> list[Hit]:
        """Returns resources that have a scope note with a word for each word of a query."""
        starts, hits = WORD.findall(fold(query)), dict[int, Hit]()
        words = " AND ".join(f'"{it}" *' for it in starts)
        if starts:
            self.take(hits, self.labels(from_index("note_fts", words, MOST_WEIGHED), asked, BY_TEXT), most)
        return list(hits.values())

    def find_within(self, text: str, most: int = MOST_SHOWN) -> list[Hit]:
        """Returns resources of all kinds that have a text anywhere in a label or a scope note: each once, labels
        first."""
        folded, hits = fold(text.strip()), dict[int, Hit]()
        labels = with_part(folded, -1) if len(folded) >= PART else Source("label l", ())
        for source, test in ((labels, "l.kind < 4"), (Source("label l", ()), "l.kind = 4")):
            query = f"SELECT {COLUMNS} FROM {source.query} WHERE {test} AND instr(l.fold, ?) ORDER BY {BY_TEXT}"
            self.take(hits, map(entry_of, self.store.all(query, *source.values, folded)), most)
        return list(hits.values())

    # --- typing errors ---

    def next_word(self, at: str) -> str | None:
        """Returns the first word that isn't before a text."""
        found: str | None = self.store.value("SELECT word FROM word WHERE word >= ? ORDER BY word LIMIT 1", at)
        return found

    def is_start(self, start: str) -> bool:
        """Whether some word begins with a text."""
        word = self.next_word(start)
        return word is not None and word.startswith(start)

    def letters_after(self, start: str) -> Iterator[str]:
        """Yields the letters that come after a beginning in some word."""
        word = self.next_word(start)
        while word is not None and word.startswith(start):
            if len(word) > len(start):
                letter = word[len(start)]
                yield letter
                word = self.next_word(start + letter + LAST)
            else:
                word = self.next_word(start + "\x00")


def entry_of(row: Row) -> Entry:
    """Returns a label of the replica as it is found: its kind by its name."""
    return row[0], row[1], KIND_OF_LABEL[row[2]], row[3], row[4]


def starts_alike(word: str, letters_after: Callable[[str], Iterable[str]], is_start: Callable[[str], bool]) -> set[str]:
    """Returns beginnings of words that there are, each a word but for one typing error.

    The error is a letter too many, a letter missing, another letter, or two letters swapped."""
    found: set[str] = set()
    for at in range(len(word)):
        before, after = word[:at], word[at + 1 :]
        tried = [before + after]
        if after:
            tried.append(before + after[0] + word[at] + after[1:])
        for letter in letters_after(before):
            tried += [before + letter + after, before + letter + word[at:]]
        found.update(it for it in tried if it != word and is_start(it))
    return found


def has_parts(parts: list[str], text: str) -> bool:
    """Whether a text has some parts in their order, the outer ones at its ends, with any texts between.

    Each part is taken where it is first, so this takes no longer for many parts."""
    first, *inner = parts
    last = inner.pop() if inner else ""
    if len(parts) == 1:
        return text == first
    at, end = len(first), len(text) - len(last)
    if at > end or not text.startswith(first) or not text.endswith(last):
        return False
    for it in inner:
        at = text.find(it, at, end)
        if at < 0:
            return False
        at += len(it)
    return True
