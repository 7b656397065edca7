"""Judges the rows of a store as the rules on its tables say in words: which table is the first that is faulty, or how
much the store holds. The conditions on labels and links are those of the plain program, over the state that the rows
encode."""
from __future__ import annotations

import contextlib
import sqlite3
from collections.abc import Iterable, Sequence
from pathlib import Path
from typing import Any

from plain import BASE, BROADER, LABEL_KINDS, Plain, at
from plain_forms import is_iri, is_key, is_note, is_number, is_record, is_tag, is_text

COLUMNS = {
    "meta": ("one", "version", "base"),
    "resource": ("num", "kind", "scheme", "live", "replaced"),
    "outside": ("num", "iri"),
    "label": ("owner", "kind", "tag", "text"),
    "link": ("kind", "a", "b"),
    "hier": ("a", "b", "typ"),
    "posting": ("num", "pkey", "record", "first_at", "at", "withdrawn"),
    "move": ("num", "posting", "source", "target"),
}
# What a store declares of each table.
DECLARED = {
    "meta": "one INTEGER PRIMARY KEY, version INTEGER NOT NULL, base TEXT NOT NULL",
    "resource": (
        "num INTEGER PRIMARY KEY, kind INTEGER NOT NULL, scheme INTEGER, live INTEGER NOT NULL, replaced INTEGER"
    ),
    "outside": "num INTEGER PRIMARY KEY, iri TEXT NOT NULL UNIQUE",
    "label": (
        "owner INTEGER NOT NULL, kind INTEGER NOT NULL, tag TEXT NOT NULL, text TEXT NOT NULL, PRIMARY "
        "KEY (owner, kind, tag, text)"
    ),
    "link": "kind INTEGER NOT NULL, a INTEGER NOT NULL, b INTEGER NOT NULL, PRIMARY KEY (kind, a, b)",
    "hier": "a INTEGER NOT NULL, b INTEGER NOT NULL, typ INTEGER NOT NULL, PRIMARY KEY (a, b, typ)",
    "posting": "num INTEGER PRIMARY KEY, pkey TEXT NOT NULL UNIQUE, record TEXT NOT NULL, first_at INTEGER NOT NULL, "
    "at INTEGER NOT NULL, withdrawn INTEGER NOT NULL",
    "move": "num INTEGER PRIMARY KEY, posting INTEGER NOT NULL, source INTEGER NOT NULL, target INTEGER NOT NULL",
}
VERSION = 2
KINDS = ("scheme", "concept", "collection", "outside")
LINKS = (None, "related", "exact", "close", "broad", "narrow", "relMatch", "member")
# The rows of a table, and of all tables by their names; None for a table that is gone.
Rows = list[tuple[Any, ...]]
Tables = dict[str, Any]
LIMITS = {"resources": 20_000, "labels": 200_000, "links": 200_000, "postings": 100_000, "moves": 1_000_000}


def text_of(cell: bytes) -> str | None:
    """The text of a cell: one that is not UTF-8 is None."""
    with contextlib.suppress(UnicodeDecodeError):
        return cell.decode()
    return None


def read_rows(path: Path | str) -> Tables:
    """The rows of each table of the store in a file, in their order; None for a table that is gone."""
    rows: Tables = {}
    with contextlib.closing(sqlite3.connect(path)) as base:
        base.text_factory = text_of
        for table, columns in COLUMNS.items():
            try:
                names = ", ".join(columns)
                rows[table] = base.execute(f"SELECT {names} FROM {table} ORDER BY {names}").fetchall()
            except sqlite3.OperationalError:
                rows[table] = None
    return rows


def rows_of(plain: Plain, base: str = BASE) -> Tables:
    """The rows of the tables that hold a state, in the order in which they are read."""

    def number(words: Sequence[str | None], it: str) -> int:
        return words.index(it) + 1

    resources, postings = list(enumerate(plain.resources, 1)), list(enumerate(plain.postings, 1))
    hier = [(a, b, BROADER.index(kind)) for kind, a, b in plain.links if kind in BROADER]
    link = [(number(LINKS, kind), a, b) for kind, a, b in plain.links if kind not in BROADER]
    return {
        "meta": [(1, VERSION, base)],
        "resource": [
            (n, number(KINDS, it["kind"]), it["scheme"], int(it["live"]), it["replaced"]) for n, it in resources
        ],
        "outside": [(n, it["iri"]) for n, it in resources if it["kind"] == "outside"],
        "label": sorted((owner, number(LABEL_KINDS, kind), tag, text) for owner, kind, tag, text in plain.labels),
        "link": sorted(link),
        "hier": sorted(hier),
        "posting": [
            (n, it["key"], it["record"], it["first"], plain.place(n), int(it["withdrawn"])) for n, it in postings
        ],
        "move": [(n, *it) for n, it in enumerate(plain.moves, 1)],
    }


def word(words: Sequence[Any], number: int) -> Any:
    """The word of a number that counts from 1, or None."""
    return words[number - 1] if 1 <= number <= len(words) else None


def are_numbered(rows: Rows) -> bool:
    return [row[0] for row in rows] == list(range(1, len(rows) + 1))


class PlainStore:
    """A store whose tables are read in turn, and the state of those read so far."""

    def __init__(self) -> None:
        self.base = ""
        self.plain = Plain(LIMITS)

    def kind(self, number: Any) -> str | None:
        return self.plain.kind(number) if is_number(number) else None

    def meta(self, rows: Rows) -> bool:
        if len(rows) != 1 or rows[0][:2] != (1, VERSION) or rows[0][2] is None:
            return False
        self.base = rows[0][2]
        return is_iri(self.base, 200)

    def is_replaced(self, number: int, it: dict[str, Any]) -> bool:
        """Whether a resource that is replaced is a dead concept, and by another of its scheme."""
        by = it["replaced"]
        return not it["live"] and self.kind(by) == "concept" and by != number and self.plain.scheme(by) == it["scheme"]

    def is_resource(self, number: int, it: dict[str, Any]) -> bool:
        has_scheme = (
            self.kind(it["scheme"]) == "scheme" if it["kind"] in ("concept", "collection") else it["scheme"] is None
        )
        if it["kind"] is None or not has_scheme or not it["live"] and it["kind"] != "concept":
            return False
        return it["replaced"] is None or self.is_replaced(number, it)

    def returns(self, number: int) -> bool:
        """Whether the replacements lead from a resource in a ring."""
        for _ in self.plain.resources:
            number = at(self.plain.resources, number)["replaced"]
            if number is None:
                return False
        return True

    def resource(self, rows: Rows) -> bool:
        if not are_numbered(rows) or any(live not in (0, 1) for _, _, _, live, _ in rows):
            return False
        for _, kind, scheme, live, replaced in rows:
            made = {"kind": word(KINDS, kind), "scheme": scheme, "live": live == 1, "replaced": replaced, "iri": None}
            self.plain.resources.append(made)
        numbered = list(enumerate(self.plain.resources, 1))
        return all(self.is_resource(n, it) for n, it in numbered) and not any(self.returns(n) for n, _ in numbered)

    def outside(self, rows: Rows) -> bool:
        if [number for number, _ in rows] != [
            n for n, it in enumerate(self.plain.resources, 1) if it["kind"] == "outside"
        ]:
            return False
        for number, iri in rows:
            if iri is None or not is_iri(iri) or iri.startswith(self.base):
                return False
            self.plain.resources[number - 1]["iri"] = iri
        return len({iri for _, iri in rows}) == len(rows)

    def is_label(self, owner: Any, kind: Any, tag: Any, text: Any) -> bool:
        if self.kind(owner) not in ("scheme", "concept", "collection") or kind is None or None in (tag, text):
            return False
        return is_tag(tag) and tag == tag.lower() and (is_note(text) if kind == "scope" else is_text(text))

    def label(self, rows: Rows) -> bool:
        self.plain.labels = [(owner, word(LABEL_KINDS, kind), tag, text) for owner, kind, tag, text in rows]
        if not all(self.is_label(*it) for it in self.plain.labels) or self.plain.broken_by_labels():
            return False
        named = {owner for owner, kind, _, _ in self.plain.labels if kind == "pref"}
        return named == {n for n, it in enumerate(self.plain.resources, 1) if it["kind"] != "outside"}

    def are_links(self, links: Iterable[tuple[Any, Any, Any]]) -> bool:
        """Takes links, if each is one that may be held."""
        for kind, a, b in links:
            if kind is None or not is_number(a) or not is_number(b) or self.plain.refuses_ends(kind, a, b):
                return False
            if self.plain.norm(kind, a, b) != (kind, a, b):
                return False
            self.plain.links.append((kind, a, b))
        return True

    def link(self, rows: Rows) -> bool:
        return self.are_links((word(LINKS, kind), a, b) for kind, a, b in rows)

    def hier(self, rows: Rows) -> bool:
        return self.are_links((word(BROADER, typ + 1), a, b) for a, b, typ in rows) and not self.plain.broken_by_links()

    def is_posting(self, key: Any, record: Any, first: Any, place: Any, withdrawn: Any) -> bool:
        if key is None or record is None or not is_key(key) or not is_record(record) or withdrawn not in (0, 1):
            return False
        are_concepts = self.kind(first) == self.kind(place) == "concept"
        return are_concepts and (withdrawn == 1 or self.plain.is_live(place))

    def posting(self, rows: Rows) -> bool:
        for _, key, record, first, place, withdrawn in rows:
            if not self.is_posting(key, record, first, place, withdrawn):
                return False
            held = {"key": key, "record": record, "first": first, "withdrawn": withdrawn == 1, "place": place}
            self.plain.postings.append(held)
        return are_numbered(rows) and len({key for _, key, *_ in rows}) == len(rows)

    def move(self, rows: Rows) -> bool:
        places = [it["first"] for it in self.plain.postings]
        for _, posting, source, target in rows:
            if at(places, posting) is None or self.kind(target) != "concept" or source == target:
                return False
            if places[posting - 1] != source:
                return False
            places[posting - 1] = target
        self.plain.moves = [(posting, source, target) for _, posting, source, target in rows]
        return are_numbered(rows) and places == [it.pop("place") for it in self.plain.postings]

    def sizes(self) -> str:
        plain = self.plain
        withdrawn = sum(it["withdrawn"] for it in plain.postings)
        return (
            f"ok resources={len(plain.resources)} labels={len(plain.labels)} links={len(plain.links)}"
            f" accepted={len(plain.postings)} withdrawn={withdrawn} moves={len(plain.moves)}"
        )


def judge(rows: Tables) -> tuple[str, Plain | None]:
    """The verdict on rows as the program prints it, and the plain program in their state, if they load."""
    meta = rows["meta"] or []
    version = meta[0][1] if len(meta) == 1 and meta[0][0] == 1 else None
    if version is not None and version > VERSION:
        return "fault NewerStore", None
    if version == 1:
        return "fault OlderStore", None
    store = PlainStore()
    for table in COLUMNS:
        if rows[table] is None or not getattr(store, table)(rows[table]):
            return f"fault BadStore {table}", None
    return store.sizes(), store.plain
