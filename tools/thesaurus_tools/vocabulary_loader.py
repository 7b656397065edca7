"""Loads the dump of a vocabulary in place of the one before, as one change: whoever reads sees one of both."""
from __future__ import annotations

import sqlite3
from collections.abc import Iterable
from dataclasses import dataclass, field
from datetime import UTC, datetime
from pathlib import Path

from thesaurus_tools.command_line import ToolError
from thesaurus_tools.stems import quick_fold, stems_of
from thesaurus_tools.vocabulary_dumps import BadLines, Fact, read_dump
from thesaurus_tools.vocabulary_tables import ABSENT, CURRENT, DEPRECATED

# How many facts are written at a time, and how many entries' numbers are remembered.
PART, REMEMBERED = 20_000, 500_000
# What a dump says that can only be put together at its end: labels that are nodes, as those of SKOS-XL, in any order;
# notes; what is no concept; and what has ended. None of it is held in memory.
TEMPORARY = """
CREATE TEMP TABLE node (of INTEGER NOT NULL, node TEXT NOT NULL, kind INTEGER NOT NULL);
CREATE TEMP TABLE form (node TEXT NOT NULL, tag TEXT NOT NULL, text TEXT NOT NULL);
CREATE TEMP TABLE note (entry INTEGER PRIMARY KEY, text TEXT NOT NULL);
CREATE TEMP TABLE other (entry INTEGER PRIMARY KEY);
CREATE TEMP TABLE gone (entry INTEGER NOT NULL, replaced TEXT);
"""
INSERTS = {
    "label": "INSERT INTO label (entry, vocabulary, kind, tag, text, folded, size, back, stems)"
    " VALUES (?, ?, ?, ?, ?, ?, ?, ?, ?)",
    "above": "INSERT OR IGNORE INTO above VALUES (?, ?)",
    "node": "INSERT INTO node VALUES (?, ?, ?)",
    "form": "INSERT INTO form VALUES (?, ?, ?)",
    "note": "INSERT OR IGNORE INTO note VALUES (?, ?)",
    "other": "INSERT OR IGNORE INTO other VALUES (?)",
    "gone": "INSERT INTO gone VALUES (?, ?)",
}
JOINED = "SELECT DISTINCT node.of, node.kind, form.tag, form.text FROM form JOIN node ON node.node = form.node"
# The first label of an entry in a language is its preferred one.
FIRST = """
UPDATE label SET kind = 1 WHERE vocabulary = ? AND EXISTS (
  SELECT 1 FROM label AS before WHERE before.entry = label.entry AND before.tag = label.tag AND before.id < label.id)
"""
# What became of each entry. (An entry that was none before the dump, and is no concept in it, isn't one.)
ENDS = (
    "DELETE FROM label WHERE entry IN (SELECT entry FROM other)",
    "DELETE FROM entry WHERE id > :last AND id IN (SELECT entry FROM other)",
    "CREATE INDEX temp.gone_entry ON gone (entry)",
    f"""
UPDATE entry SET
  state = CASE WHEN EXISTS (SELECT 1 FROM gone WHERE gone.entry = id) THEN {DEPRECATED}
    WHEN EXISTS (SELECT 1 FROM label WHERE label.entry = entry.id) THEN {CURRENT} ELSE {ABSENT} END,
  replaced = (SELECT max(replaced) FROM gone WHERE gone.entry = id),
  note = coalesce((SELECT text FROM note WHERE note.entry = id), '')
WHERE vocabulary = :vocabulary
""",
    "INSERT INTO label_words (label_words) VALUES ('rebuild')",
)


@dataclass
class LoadReport:
    """What a dump had."""

    entries: int
    labels: int
    bad: BadLines


@dataclass
class Load:
    """A dump that is being loaded."""

    rows: sqlite3.Connection
    vocabulary: int
    # The last number of an entry before it.
    last: int
    numbers: dict[str, int] = field(default_factory=dict)
    # What is still to be written, by the tables.
    waiting: dict[str, list[tuple[object, ...]]] = field(default_factory=lambda: {it: [] for it in INSERTS})
    has_terms: bool = False

    def number(self, iri: str) -> int:
        """Returns the number of an entry: the one that it had, or a new one."""
        if (found := self.numbers.get(iri)) is None:
            found = self.look_up(iri)
            if len(self.numbers) >= REMEMBERED:
                self.numbers.clear()
            self.numbers[iri] = found
        return found

    def look_up(self, iri: str) -> int:
        """Returns the number of an entry of the file, which is made if there is none."""
        key = (iri, self.vocabulary)
        if found := self.rows.execute("SELECT id FROM entry WHERE iri = ? AND vocabulary = ?", key).fetchone():
            return int(found[0])
        made = self.rows.execute(
            "INSERT INTO entry (iri, vocabulary, state, note) VALUES (?, ?, ?, '') RETURNING id", (*key, ABSENT)
        )
        return int(made.fetchone()[0])

    def take(self, facts: Iterable[Fact]) -> None:
        """Takes what a dump says."""
        takers = {it: getattr(self, f"take_{it}") for it in (*INSERTS, "term", "replaced")}
        for place, fact in enumerate(facts, 1):
            takers[fact.what](fact)
            if place % PART == 0:
                self.write()

    def take_label(self, fact: Fact) -> None:
        """Takes a label."""
        self.add_label(self.number(fact.of), fact.kind, fact.tag, fact.text)

    def take_term(self, fact: Fact) -> None:
        """Takes a label whose kind is known by its place."""
        self.has_terms = True
        self.take_label(fact)

    def add_label(self, number: int, kind: int, tag: str, text: str) -> None:
        """Adds a label of an entry, with what it is found by."""
        folded, tag = quick_fold(text), tag.lower()
        found = folded, len(folded), folded[::-1], stems_of(folded, tag)
        self.waiting["label"].append((number, self.vocabulary, kind, tag, text, *found))

    def take_above(self, fact: Fact) -> None:
        """Takes a link to what is broader."""
        self.waiting["above"].append((self.number(fact.of), self.number(fact.text)))

    def take_note(self, fact: Fact) -> None:
        """Takes the first note."""
        self.waiting["note"].append((self.number(fact.of), fact.text))

    def take_gone(self, fact: Fact) -> None:
        """Takes that an entry is deprecated."""
        self.waiting["gone"].append((self.number(fact.of), None))

    def take_replaced(self, fact: Fact) -> None:
        """Takes by what an entry is replaced."""
        self.waiting["gone"].append((self.number(fact.of), fact.text))

    def take_other(self, fact: Fact) -> None:
        """Takes that something is no concept."""
        self.waiting["other"].append((self.number(fact.of),))

    def take_node(self, fact: Fact) -> None:
        """Takes that a node is a label."""
        self.waiting["node"].append((self.number(fact.of), fact.text, fact.kind))

    def take_form(self, fact: Fact) -> None:
        """Takes the text of a node."""
        self.waiting["form"].append((fact.of, fact.tag, fact.text))

    def write(self) -> None:
        """Writes what was taken."""
        for table, rows in self.waiting.items():
            self.rows.executemany(INSERTS[table], rows)
            rows.clear()

    def finish(self) -> None:
        """Writes the rest: labels that are nodes, and what became of each entry."""
        self.write()
        self.rows.execute("CREATE INDEX temp.node_node ON node (node)")
        for place, (number, kind, tag, text) in enumerate(self.rows.execute(JOINED), 1):
            self.add_label(number, kind, tag, text)
            if place % PART == 0:
                self.write()
        self.write()
        if self.has_terms:
            self.rows.execute(FIRST, (self.vocabulary,))
        for statement in ENDS:
            self.rows.execute(statement, {"last": self.last, "vocabulary": self.vocabulary})


def load_dump(rows: sqlite3.Connection, name: str, path: Path, file: str = "") -> LoadReport:
    """Loads a dump as a vocabulary in place of the one of that name; `file` is what it is called. Raises ToolError."""
    bad = BadLines()
    try:
        rows.executescript(TEMPORARY)
        rows.execute("BEGIN IMMEDIATE")
    except sqlite3.OperationalError:
        raise ToolError("another vocabulary is being loaded: try again when it is done") from None
    try:
        load = begin_load(rows, name)
        load.take(read_dump(path, bad))
        load.finish()
        loaded = LoadReport(*count_entries(rows, load.vocabulary), bad)
        if not loaded.labels:
            raise ToolError(f"{path}: it has no labels of concepts ({bad.count} lines can't be read)")
        note_load(rows, load.vocabulary, file or path.name, loaded)
        rows.execute("COMMIT")
    except BaseException:
        rows.execute("ROLLBACK")
        raise
    rows.execute("PRAGMA optimize")
    return loaded


def begin_load(rows: sqlite3.Connection, name: str) -> Load:
    """Empties a vocabulary; its entries keep their numbers."""
    rows.execute("INSERT OR IGNORE INTO vocabulary VALUES (NULL, ?, '', '', 0, 0, 0)", (name,))
    (vocabulary,) = rows.execute("SELECT id FROM vocabulary WHERE name = ?", (name,)).fetchone()
    its = "SELECT id FROM entry WHERE vocabulary = ?"
    rows.execute(f"DELETE FROM above WHERE entry IN ({its})", (vocabulary,))
    rows.execute("DELETE FROM label WHERE vocabulary = ?", (vocabulary,))
    rows.execute("DELETE FROM bad_line WHERE vocabulary = ?", (vocabulary,))
    (last,) = rows.execute("SELECT coalesce(max(id), 0) FROM entry").fetchone()
    return Load(rows, vocabulary, last)


def count_entries(rows: sqlite3.Connection, vocabulary: int) -> tuple[int, int]:
    """Returns the number of entries of a vocabulary that have labels, and that of these."""
    counted = "SELECT count(DISTINCT entry), count(*) FROM label WHERE vocabulary = ?"
    entries, labels = rows.execute(counted, (vocabulary,)).fetchone()
    return entries, labels


def note_load(rows: sqlite3.Connection, vocabulary: int, file: str, loaded: LoadReport) -> None:
    """Notes what a dump had, and which of its lines can't be read."""
    at = datetime.now(UTC).isoformat(timespec="milliseconds").replace("+00:00", "Z")
    rows.execute(
        "UPDATE vocabulary SET file = ?, at = ?, entries = ?, labels = ?, bad = ? WHERE id = ?",
        (file, at, loaded.entries, loaded.labels, loaded.bad.count, vocabulary),
    )
    lines = [(vocabulary, line, text) for line, text in dict(loaded.bad.first).items()]
    rows.executemany("INSERT INTO bad_line VALUES (?, ?, ?)", lines)


def remove_vocabulary(rows: sqlite3.Connection, name: str) -> bool:
    """Removes a vocabulary; reports whether there was one."""
    found = rows.execute("SELECT id FROM vocabulary WHERE name = ?", (name,)).fetchone()
    if found is None:
        return False
    rows.execute("BEGIN IMMEDIATE")
    rows.execute("DELETE FROM above WHERE entry IN (SELECT id FROM entry WHERE vocabulary = ?)", found)
    for table in ("label", "entry", "bad_line"):
        rows.execute(f"DELETE FROM {table} WHERE vocabulary = ?", found)
    rows.execute("DELETE FROM vocabulary WHERE id = ?", found)
    rows.execute("INSERT INTO label_words (label_words) VALUES ('rebuild')")
    rows.execute("COMMIT")
    return True
