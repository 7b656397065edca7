"""The file in which a desk has other publishers' vocabularies, beside its store: it can be made again of their dumps,
so it may be deleted, and is in no backup."""
from __future__ import annotations

import os
import sqlite3
from pathlib import Path

from thesaurus_tools.command_line import USAGE, ToolError
from thesaurus_tools.files import open_without_links

# Marks the file ("Voca"), and its version: one of another version is to be made again.
APPLICATION, VERSION = 0x566F6361, 1
# What became of an entry in the newest dump: it is there, is there as deprecated, or isn't there any more.
CURRENT, DEPRECATED, ABSENT = range(3)
# The kinds of labels, as they are in the column.
LABEL_KINDS = ("pref", "alt", "hidden")
# Of labels: folded; how many characters that has, and the same from its end to its beginning, for typing errors; its
# stems.
TABLES = """
CREATE TABLE vocabulary (
  id INTEGER PRIMARY KEY, name TEXT NOT NULL UNIQUE, file TEXT NOT NULL, at TEXT NOT NULL, entries INTEGER NOT NULL,
  labels INTEGER NOT NULL, bad INTEGER NOT NULL) STRICT;
CREATE TABLE bad_line (
  vocabulary INTEGER NOT NULL, line INTEGER NOT NULL, text TEXT NOT NULL, PRIMARY KEY (vocabulary, line)) STRICT,
  WITHOUT ROWID;
CREATE TABLE entry (
  id INTEGER PRIMARY KEY, vocabulary INTEGER NOT NULL, iri TEXT NOT NULL, state INTEGER NOT NULL, replaced TEXT,
  note TEXT NOT NULL, UNIQUE (iri, vocabulary)) STRICT;
CREATE INDEX entry_vocabulary ON entry (vocabulary);
CREATE TABLE label (
  id INTEGER PRIMARY KEY, entry INTEGER NOT NULL, vocabulary INTEGER NOT NULL, kind INTEGER NOT NULL,
  tag TEXT NOT NULL, text TEXT NOT NULL, folded TEXT NOT NULL, size INTEGER NOT NULL,
  back TEXT NOT NULL, stems TEXT NOT NULL) STRICT;
CREATE INDEX label_entry ON label (entry, kind);
CREATE INDEX label_folded ON label (vocabulary, size, folded);
CREATE INDEX label_back ON label (vocabulary, size, back);
CREATE INDEX label_stems ON label (vocabulary, stems);
CREATE TABLE above (entry INTEGER NOT NULL, above INTEGER NOT NULL, PRIMARY KEY (entry, above)) STRICT, WITHOUT ROWID;
CREATE INDEX above_above ON above (above);
CREATE VIRTUAL TABLE label_words USING fts5 (
  folded, content='label', content_rowid='id', tokenize="unicode61 remove_diacritics 0", detail=none, columnsize=0);
"""


def vocabularies_of(store: Path) -> Path:
    """Returns the path of the file of a store: beside it, and not named as what a backup by `STORE*` takes."""
    return store.with_name(f"{store.stem}-vocabularies.sqlite")


def open_vocabularies(path: Path) -> sqlite3.Connection:
    """Returns a connection that writes; a file that isn't there is made, for its owner alone. Raises ToolError."""
    os.close(open_without_links(path, os.O_RDWR))
    rows = sqlite3.connect(path, isolation_level=None, timeout=5)
    try:
        application, version = (rows.execute(f"PRAGMA {it}").fetchone()[0] for it in ("application_id", "user_version"))
        if (application, version) == (0, 0) and not rows.execute("SELECT 1 FROM sqlite_schema").fetchone():
            rows.execute("PRAGMA journal_mode = WAL")
            rows.executescript(
                f"BEGIN; {TABLES} PRAGMA application_id = {APPLICATION}; PRAGMA user_version = {VERSION}; COMMIT;"
            )
        elif (application, version) != (APPLICATION, VERSION):
            raise ToolError(
                f"{path}: not a file of vocabularies of this version: delete it, and load them again", USAGE
            )
    except sqlite3.Error as error:
        rows.close()
        raise ToolError(f"{path}: {error}") from None
    except ToolError:
        rows.close()
        raise
    # (what is written can be made again, so nobody waits for the disk)
    for pragma in ("synchronous = OFF", "cache_size = -256000", "temp_store = FILE"):
        rows.execute(f"PRAGMA {pragma}")
    return rows
