"""The tables of a desk's journal, and how they are opened: by one desk at a time."""
from __future__ import annotations

import contextlib
import fcntl
import itertools
import logging
import os
import re
import sqlite3
import threading
from collections.abc import Iterator, Mapping
from contextvars import ContextVar
from datetime import UTC, datetime, timedelta
from pathlib import Path
from typing import Any, Self

from thesaurus_desk.store.build import drop
from thesaurus_tools.command_line import ToolError
from thesaurus_tools.files import open_without_links

log = logging.getLogger("desk")
# From 2 on a desk keeps the tables of the store here, too, and the rows that each plan changes. A desk that doesn't
# know these must not write the journal.
VERSION = 2
# Marks the file as a desk's journal ("Desk").
APPLICATION = 0x4465736B
TABLES = """
CREATE TABLE plan (
  id INTEGER PRIMARY KEY, at TEXT NOT NULL, user TEXT NOT NULL, action TEXT NOT NULL,
  state TEXT NOT NULL CHECK (state IN ('sent', 'done', 'refused', 'fault', 'unknown', 'lost')),
  proposer TEXT, takes_back INTEGER REFERENCES plan (id), first INTEGER, note TEXT) STRICT;
CREATE TABLE step (
  plan INTEGER NOT NULL REFERENCES plan (id), place INTEGER NOT NULL,
  state TEXT NOT NULL CHECK (state IN ('sent', 'done', 'refused', 'fault', 'unsent', 'undone', 'unknown', 'lost')),
  request TEXT NOT NULL, answer TEXT, foreseen TEXT, kept TEXT, facts TEXT, PRIMARY KEY (plan, place)) STRICT,
  WITHOUT ROWID;
CREATE TABLE concern (
  number INTEGER NOT NULL, plan INTEGER NOT NULL REFERENCES plan (id), changes INTEGER NOT NULL,
  PRIMARY KEY (number, plan)) STRICT, WITHOUT ROWID;
CREATE TABLE seal (number INTEGER PRIMARY KEY, digest BLOB NOT NULL) STRICT;
CREATE TABLE stop (id INTEGER PRIMARY KEY, at TEXT NOT NULL, digest TEXT NOT NULL) STRICT;
CREATE TABLE count (name TEXT PRIMARY KEY, value INTEGER NOT NULL) STRICT, WITHOUT ROWID;
CREATE TABLE proposal (
  id INTEGER PRIMARY KEY, at TEXT NOT NULL, user TEXT NOT NULL, concept INTEGER, action TEXT NOT NULL,
  requests TEXT NOT NULL, reason TEXT NOT NULL, state TEXT NOT NULL CHECK (state IN ('open', 'accepted', 'declined',
  'withdrawn')),
  decided_at TEXT, decided_by TEXT, word TEXT, plan INTEGER REFERENCES plan (id)) STRICT;
CREATE TABLE comment (
  id INTEGER PRIMARY KEY, at TEXT NOT NULL, user TEXT NOT NULL, number INTEGER NOT NULL, text TEXT NOT NULL,
  removed_by TEXT, removed_at TEXT) STRICT;
CREATE INDEX plan_user ON plan (user, id);
CREATE INDEX plan_open ON plan (state) WHERE state IN ('sent', 'unknown');
CREATE INDEX plan_takes_back ON plan (takes_back) WHERE takes_back IS NOT NULL;
CREATE INDEX plan_at ON plan (at);
CREATE INDEX comment_number ON comment (number);
"""
# A journal of an earlier desk lacks these tables, and a desk that is earlier doesn't miss them, so they need no other
# version: proposals whose authors haven't read how they were decided; the proposals that plans perform; when plans
# ended; forms that were sent, with what came of them; files that several plans bring in, which of their rows each plan
# does, and those that were refused, with the reasons; the changes of rows that plans make; numbers that may be another
# resource's; the digest of the store after the last plan; what was decided of mappings; the records that are to be
# indexed; what was counted on each day; what people watch; and what visitors propose.
LATER_TABLES = """
CREATE TABLE IF NOT EXISTS unread (proposal INTEGER PRIMARY KEY REFERENCES proposal (id)) STRICT;
CREATE TABLE IF NOT EXISTS accepting (
  plan INTEGER PRIMARY KEY REFERENCES plan (id), proposal INTEGER NOT NULL REFERENCES proposal (id),
  word TEXT) STRICT;
CREATE TABLE IF NOT EXISTS batch (
  plan INTEGER PRIMARY KEY REFERENCES plan (id), name TEXT NOT NULL, digest TEXT NOT NULL, size INTEGER NOT NULL,
  refused INTEGER NOT NULL, is_done INTEGER NOT NULL, rest BLOB) STRICT;
CREATE INDEX IF NOT EXISTS batch_digest ON batch (digest);
CREATE TABLE IF NOT EXISTS refused (plan INTEGER PRIMARY KEY REFERENCES plan (id), rows BLOB NOT NULL) STRICT;
CREATE INDEX IF NOT EXISTS plan_first ON plan (first) WHERE first IS NOT NULL;
-- which rows of a table plans do, until all are done
CREATE TABLE IF NOT EXISTS plan_row (plan INTEGER NOT NULL, line INTEGER NOT NULL, PRIMARY KEY (plan, line)) STRICT,
  WITHOUT ROWID;
CREATE TABLE IF NOT EXISTS ended (plan INTEGER PRIMARY KEY REFERENCES plan (id), at TEXT NOT NULL) STRICT;
CREATE INDEX IF NOT EXISTS ended_at ON ended (at);
CREATE TABLE IF NOT EXISTS sent (key TEXT PRIMARY KEY, at TEXT NOT NULL, plan INTEGER, path TEXT) STRICT, WITHOUT ROWID;
CREATE INDEX IF NOT EXISTS concern_plan ON concern (plan);
-- frozen exports: `plan` is the last one before, `changes` what differs from the release before, `data` is packed
CREATE TABLE IF NOT EXISTS release (
  id INTEGER PRIMARY KEY, name TEXT NOT NULL UNIQUE, day TEXT NOT NULL, note TEXT NOT NULL, at TEXT NOT NULL,
  user TEXT NOT NULL, plan INTEGER NOT NULL, digest TEXT NOT NULL, size INTEGER NOT NULL, changes TEXT,
  data BLOB NOT NULL) STRICT;
CREATE TABLE IF NOT EXISTS change (plan INTEGER PRIMARY KEY REFERENCES plan (id), rows TEXT NOT NULL) STRICT;
-- resources with values that have no term any more of those that they had, as another program has left them
CREATE TABLE IF NOT EXISTS taken (number INTEGER PRIMARY KEY, name TEXT NOT NULL) STRICT;
-- digests of plans that have ended, each over the one before; no salt where a name was forgotten
CREATE TABLE IF NOT EXISTS chain (
  number INTEGER PRIMARY KEY, plan INTEGER NOT NULL, salt TEXT NOT NULL, who TEXT NOT NULL, content TEXT NOT NULL,
  digest TEXT NOT NULL) STRICT;
CREATE INDEX IF NOT EXISTS chain_plan ON chain (plan);
CREATE TABLE IF NOT EXISTS state (name TEXT PRIMARY KEY, value TEXT NOT NULL) STRICT, WITHOUT ROWID;
-- what people watch; and who watches: until when the news are read and sent, where to, and in which language
CREATE TABLE IF NOT EXISTS watch (
  user TEXT NOT NULL, kind TEXT NOT NULL, number INTEGER NOT NULL, PRIMARY KEY (user, kind, number)) STRICT,
  WITHOUT ROWID;
CREATE TABLE IF NOT EXISTS watcher (
  user TEXT PRIMARY KEY, secret TEXT NOT NULL UNIQUE, seen TEXT NOT NULL, mailed TEXT NOT NULL,
  mail TEXT NOT NULL DEFAULT '', language TEXT NOT NULL) STRICT, WITHOUT ROWID;
-- what visitors propose, and which editor has taken it up or discarded it
CREATE TABLE IF NOT EXISTS visitor_proposal (
  id INTEGER PRIMARY KEY, at TEXT NOT NULL, concept INTEGER, text TEXT NOT NULL, settled_at TEXT, settled_by TEXT)
  STRICT;
-- how long each work list was on a day
CREATE TABLE IF NOT EXISTS daily (
  day TEXT NOT NULL, name TEXT NOT NULL, value INTEGER NOT NULL, PRIMARY KEY (day, name)) STRICT, WITHOUT ROWID;
-- what concepts elsewhere were called when mappings to them were accepted, in which vocabulary; and what was decided of
-- an entry of a vocabulary, or, with no IRI, of a concept
CREATE TABLE IF NOT EXISTS outside_name (
  iri TEXT NOT NULL, tag TEXT NOT NULL, text TEXT NOT NULL, vocabulary TEXT NOT NULL, at TEXT NOT NULL,
  PRIMARY KEY (iri, tag)) STRICT, WITHOUT ROWID;
CREATE TABLE IF NOT EXISTS mapping_decision (
  vocabulary TEXT NOT NULL, concept INTEGER NOT NULL, iri TEXT NOT NULL,
  decision TEXT NOT NULL CHECK (decision IN ('rejected', 'none', 'later')), user TEXT NOT NULL, at TEXT NOT NULL,
  PRIMARY KEY (vocabulary, concept, iri)) STRICT, WITHOUT ROWID;
-- the records that are to be indexed, in their order, and who has settled each
CREATE TABLE IF NOT EXISTS queue (
  record TEXT PRIMARY KEY, place INTEGER NOT NULL, state TEXT NOT NULL CHECK (state IN ('waiting', 'done', 'skipped')),
  user TEXT NOT NULL, at TEXT NOT NULL) STRICT, WITHOUT ROWID;
CREATE INDEX IF NOT EXISTS queue_state ON queue (state, place);
"""
# What the catalogue says of records: brought in again from there, and in no backup.
RECORD_TEXTS = """
CREATE TABLE IF NOT EXISTS record_text (
  id INTEGER PRIMARY KEY, record TEXT NOT NULL UNIQUE, title TEXT NOT NULL, text TEXT NOT NULL, link TEXT NOT NULL,
  words TEXT NOT NULL) STRICT;
-- the stems of their words, in which records alike are found; a row that goes is taken out with what it had
CREATE VIRTUAL TABLE IF NOT EXISTS record_fts USING fts5 (
  words, content='record_text', content_rowid='id', tokenize="unicode61 remove_diacritics 0 tokenchars '_'");
CREATE VIRTUAL TABLE IF NOT EXISTS record_word USING fts5vocab (record_fts, row);
CREATE TRIGGER IF NOT EXISTS record_text_new AFTER INSERT ON record_text BEGIN
  INSERT INTO record_fts (rowid, words) VALUES (new.id, new.words); END;
-- the words of their titles, by which they are searched
CREATE VIRTUAL TABLE IF NOT EXISTS record_title USING fts5 (
  title, content='record_text', content_rowid='id', tokenize="unicode61 remove_diacritics 2", prefix='2 3');
CREATE TRIGGER IF NOT EXISTS record_title_new AFTER INSERT ON record_text BEGIN
  INSERT INTO record_title (rowid, title) VALUES (new.id, new.title); END;
CREATE TRIGGER IF NOT EXISTS record_title_gone AFTER DELETE ON record_text BEGIN
  INSERT INTO record_title (record_title, rowid, title) VALUES ('delete', old.id, old.title); END;
CREATE TRIGGER IF NOT EXISTS record_title_changed AFTER UPDATE OF title ON record_text BEGIN
  INSERT INTO record_title (record_title, rowid, title) VALUES ('delete', old.id, old.title);
  INSERT INTO record_title (rowid, title) VALUES (new.id, new.title); END;
INSERT INTO record_title (record_title) SELECT 'rebuild' WHERE NOT EXISTS (SELECT 1 FROM record_title_docsize);
CREATE TRIGGER IF NOT EXISTS record_text_gone AFTER DELETE ON record_text BEGIN
  INSERT INTO record_fts (record_fts, rowid, words) VALUES ('delete', old.id, old.words); END;
CREATE TRIGGER IF NOT EXISTS record_text_changed AFTER UPDATE ON record_text BEGIN
  INSERT INTO record_fts (record_fts, rowid, words) VALUES ('delete', old.id, old.words);
  INSERT INTO record_fts (rowid, words) VALUES (new.id, new.words); END;
"""
TABLES_OF_RECORDS = ("record_word", "record_fts", "record_title", "record_text")
# The fields that an office has made, what its head has settled, and the values of all fields, with their words and what
# is within these. Like those above; an index by the texts of notations alone, as definitions are long.
VALUES = """
CREATE TABLE IF NOT EXISTS field (name TEXT PRIMARY KEY, spec TEXT NOT NULL) STRICT, WITHOUT ROWID;
CREATE TABLE IF NOT EXISTS setting (name TEXT PRIMARY KEY, value TEXT NOT NULL) STRICT, WITHOUT ROWID;
CREATE TABLE IF NOT EXISTS value (
  id INTEGER PRIMARY KEY, owner INTEGER NOT NULL, field TEXT NOT NULL, tag TEXT NOT NULL, text TEXT NOT NULL,
  source TEXT NOT NULL, plan INTEGER NOT NULL REFERENCES plan (id)) STRICT;
CREATE INDEX IF NOT EXISTS value_owner ON value (owner, field);
CREATE INDEX IF NOT EXISTS value_field ON value (field, owner);
CREATE INDEX IF NOT EXISTS value_code ON value (text, tag) WHERE field = 'notation';
CREATE VIRTUAL TABLE IF NOT EXISTS value_words USING fts5 (
  fold, tokenize="unicode61 remove_diacritics 0 tokenchars '_'", prefix='2 3');
CREATE VIRTUAL TABLE IF NOT EXISTS value_parts USING fts5 (
  fold, tokenize="trigram case_sensitive 1", detail=none, columnsize=0);
INSERT INTO value_parts (rowid, fold) SELECT rowid, fold FROM value_words
  WHERE NOT EXISTS (SELECT 1 FROM value_parts);
"""
# What a restart mustn't lose, and no backup needs: passwords that were wrong, who came in lately, what is looked at
# before it is performed, errors of the log, how far tables are that are tried or performed, and the first plans of the
# files that are under way.
WORKING = {
    "failure": "address TEXT, name TEXT, count INTEGER NOT NULL, last REAL NOT NULL, PRIMARY KEY (address, name)",
    "sign_in": "id INTEGER PRIMARY KEY, at TEXT NOT NULL, name TEXT NOT NULL, address TEXT NOT NULL, what TEXT",
    "upload": "name TEXT PRIMARY KEY, user TEXT NOT NULL, at TEXT NOT NULL, rows INTEGER NOT NULL, data BLOB NOT NULL",
    "error": "id INTEGER PRIMARY KEY, at TEXT NOT NULL, text TEXT NOT NULL",
    "run": "name TEXT PRIMARY KEY, user TEXT NOT NULL, at TEXT NOT NULL, title TEXT NOT NULL,"
    " is_trial INTEGER NOT NULL, size INTEGER NOT NULL, done INTEGER NOT NULL, state TEXT NOT NULL, plan INTEGER,"
    " result TEXT NOT NULL",
    "under_way": "plan INTEGER PRIMARY KEY",
}
# The state that names the plan under way.
UNDER_WAY = "under way"
# How long a form that was sent is known: a session doesn't last longer.
SENT_FOR = timedelta(days=8)
# The form that the request under way has sent; none in a request that sends no form, and outside of requests.
sent_form: ContextVar[str] = ContextVar("sent_form", default="")


class OfficeNeeded(BaseException):
    """Only the office has what is asked for, the one process that writes: another one passes the request on. This is no
    failure, so it is no Exception."""


class FileReplaced(sqlite3.OperationalError):
    """The file that is open isn't the one at its path any more: it was deleted, moved away or replaced."""

    def __init__(self, path: Path, fault: str) -> None:
        super().__init__(f"{path} was deleted or replaced while the desk ran")
        self.fault = fault


def fault_of(error: sqlite3.Error) -> str:
    """Returns the name of the fault for an error of the journal."""
    return error.fault if isinstance(error, FileReplaced) else "Journal"


def journal_of(store: Path) -> Path:
    """Returns the path of the journal of a store: beside it, and not named as what a backup by `STORE*` takes."""
    return store.with_name(f"{store.stem}-desk.sqlite")


def now() -> str:
    """Returns the time in UTC, as the journal writes it."""
    return time_text(datetime.now(UTC))


def time_text(time: datetime) -> str:
    """Returns a time in UTC as the journal writes it: texts of times have the order of the times."""
    return time.isoformat(timespec="milliseconds").replace("+00:00", "Z")


def mark_of(path: Path) -> bytes:
    """Returns what distinguishes a file from one that has taken its place, or was emptied; nothing if there is none.

    That of a new file, which is still empty, begins that of the same file later."""
    try:
        with open(path, "rb") as file:
            state = os.fstat(file.fileno())
            return b"%d %d %s" % (state.st_dev, state.st_ino, file.read(len(b"SQLite format 3\0")))
    except OSError:
        return b""


class Database:
    """The journal's file, which one desk at a time has open, from `open` to `close`."""

    def __init__(self, path: Path) -> None:
        self.path = path
        self.lock, self.reading = threading.RLock(), threading.RLock()
        # No file, while it isn't open.
        self.lock_file = -1
        self.mark = b""

    def open(self) -> Self:
        """Opens the file, which is made if there is none, and returns itself. Raises ToolError."""
        try:
            self.take_lock()
            os.close(open_without_links(self.path, os.O_RDWR))
            self.open_tables()
        except sqlite3.Error as error:
            self.close()
            raise ToolError(f"{self.path}: {error}") from None
        except BaseException:
            self.close()
            raise
        return self

    def take_lock(self) -> None:
        """Keeps other desks away."""
        self.lock_file = open_without_links(self.path.with_suffix(".lock"), os.O_RDWR)
        try:
            fcntl.flock(self.lock_file, fcntl.LOCK_EX | fcntl.LOCK_NB)
        except BlockingIOError:
            raise ToolError(f"{self.path}: another desk has this journal open") from None

    def open_tables(self) -> None:
        """Opens the tables for writing and for reading, and makes those of a new file."""
        self.rows = sqlite3.connect(self.path, check_same_thread=False, isolation_level=None, timeout=5)
        self.rows.row_factory = sqlite3.Row
        try:
            version, application = (
                self.rows.execute(f"PRAGMA {it}").fetchone()[0] for it in ("user_version", "application_id")
            )
            is_new = not self.rows.execute("SELECT 1 FROM sqlite_schema").fetchone()
        except sqlite3.DatabaseError as error:
            raise ToolError(f"{self.path}: no journal of a desk ({error})") from None
        if not is_new and (application != APPLICATION or version > VERSION):
            newer = application == APPLICATION
            raise ToolError(f"{self.path}: " + ("a newer desk wrote this journal" if newer else "no journal of a desk"))
        if not is_new and version < VERSION:
            self.keep_copy(version)
        self.rows.execute("PRAGMA journal_mode = WAL")
        self.rows.execute("PRAGMA synchronous = FULL")
        self.rows.execute("PRAGMA foreign_keys = ON")
        self.make_tables(0 if is_new else version)
        self.rows.execute("DELETE FROM state WHERE name = ?", (UNDER_WAY,))
        # (what an earlier desk had under way was cut short)
        self.rows.execute("UPDATE run SET state = 'cut' WHERE state = 'running'")
        self.rows.execute("DELETE FROM under_way")
        self.rows.execute("DELETE FROM sent WHERE at < ?", (time_text(datetime.now(UTC) - SENT_FOR),))
        self.open_reader()
        self.mark = mark_of(self.path)

    def make_tables(self, version: int) -> None:
        """Makes the tables that the file lacks, which is new if it has no version.

        One of an earlier version stays one, as an earlier desk can go on with it, until `note_version`."""
        mark = f"PRAGMA application_id = {APPLICATION}; PRAGMA user_version = {VERSION};"
        working = (f"CREATE TABLE IF NOT EXISTS {table} ({columns}) STRICT;" for table, columns in WORKING.items())
        parts = (mark + TABLES if version == 0 else "", LATER_TABLES, VALUES, RECORD_TEXTS, *working)
        if 0 < version < VERSION:
            # (what was begun at an earlier start isn't that of the store any more)
            drop(self.rows)
        # (an error closes the connection, which takes back what was begun)
        self.rows.executescript(f"BEGIN IMMEDIATE; {' '.join(parts)} COMMIT;")

    @staticmethod
    def note_version(rows: sqlite3.Connection) -> None:
        """Marks the file as one of this version."""
        if rows.execute("PRAGMA user_version").fetchone()[0] != VERSION:
            rows.execute(f"PRAGMA user_version = {VERSION}")

    def open_reader(self) -> None:
        """Opens the tables for reading: whoever reads needn't wait until the disk has what another one writes."""
        self.reader = sqlite3.connect(self.path, check_same_thread=False, isolation_level=None, timeout=5)
        self.reader.row_factory = sqlite3.Row
        self.reader.execute("PRAGMA query_only = 1")

    def keep_copy(self, version: int) -> None:
        """Copies a journal of an earlier version before it becomes one of this version: an earlier desk reads the
        copy, and not the file. A copy of another state, as of a desk to which somebody went back, stays."""
        name = f"{self.path.stem}-{version}"
        copies = (self.path.with_name(f"{name}{n and -n or ''}.sqlite") for n in itertools.count())
        copy = next(it for it in copies if not it.exists() or self.is_in(it))
        if copy.exists():
            return
        made = copy.with_suffix(".new")
        made.unlink(missing_ok=True)
        os.close(open_without_links(made, os.O_RDWR))
        with contextlib.closing(sqlite3.connect(made)) as target:
            self.rows.backup(target)
        made.rename(copy)

    def is_in(self, copy: Path) -> bool:
        """Whether a copy has all that an earlier desk has written to the file."""
        differences = (
            f"SELECT * FROM main.{it} EXCEPT SELECT * FROM copy.{it} LIMIT 1"
            for it in re.findall(r"CREATE TABLE (\w+)", TABLES)
        )
        self.rows.execute("ATTACH ? AS copy", (str(copy),))
        try:
            return not any(self.rows.execute(it).fetchone() for it in differences)
        except sqlite3.DatabaseError:
            return False
        finally:
            self.rows.execute("DETACH copy")

    def close(self) -> None:
        """Closes the file, and lets another desk have it."""
        with self.lock:
            for name in ("rows", "reader"):
                if connection := getattr(self, name, None):
                    connection.close()
            if self.lock_file >= 0:
                os.close(self.lock_file)
            self.lock_file = -1

    def is_lost(self) -> bool:
        """Whether the file that is open isn't at its path any more."""
        return not mark_of(self.path).startswith(self.mark)

    def copy_to(self, path: Path) -> None:
        """Writes what the journal has now to a new file, for its owner alone: without the store's tables, which a desk
        makes anew of the store, without those that only a running desk needs, and without the texts of records, which
        are brought in again."""
        os.close(os.open(path, os.O_RDWR | os.O_CREAT | os.O_EXCL | os.O_CLOEXEC, 0o600))
        with contextlib.closing(sqlite3.connect(path, isolation_level=None)) as copy:
            with self.lock:
                # (in one step: page by page it would begin anew at each change)
                self.rows.backup(copy)
            copy.execute("PRAGMA journal_mode = DELETE")
            drop(copy)
            # (a desk makes it anew)
            copy.execute("DROP TABLE IF EXISTS value_parts")
            for table in (*WORKING, *TABLES_OF_RECORDS):
                copy.execute(f"DROP TABLE {table}")
            copy.execute("VACUUM")

    def check_file(self) -> None:
        """Raises FileReplaced if what is written would go to a file that isn't there any more."""
        if self.is_lost():
            raise FileReplaced(self.path, "JournalReplaced")

    @contextlib.contextmanager
    def writing(self) -> Iterator[sqlite3.Connection]:
        """Makes several changes as one. An error takes them back. Raises FileReplaced if they would go to a file that
        isn't there any more.

        The first that a form has changed is written with the form, so that it's known what came of it."""
        with self.transaction() as rows:
            if form := sent_form.get():
                rows.execute("INSERT OR IGNORE INTO sent (key, at) VALUES (?, ?)", (form, now()))
            yield rows

    @contextlib.contextmanager
    def transaction(self) -> Iterator[sqlite3.Connection]:
        """Writes what is no change that a form makes, as `writing` does. Within another one it is a part of that."""
        with self.lock:
            if self.rows.in_transaction:
                yield self.rows
                return
            self.check_file()
            self.rows.execute("BEGIN IMMEDIATE")
            try:
                yield self.rows
                self.rows.execute("COMMIT")
            except BaseException:
                if self.rows.in_transaction:
                    self.rows.execute("ROLLBACK")
                raise

    def state(self, name: str) -> str:
        """Returns a state of the desk; nothing if it isn't known."""
        found = self.one("SELECT value FROM state WHERE name = ?", name)
        return str(found["value"]) if found else ""

    def note_state(self, values: Mapping[str, str]) -> None:
        """Notes states of the desk."""
        self.note(*(("INSERT OR REPLACE INTO state VALUES (?, ?)", *it) for it in values.items()))

    def note(self, *statements: tuple[Any, ...]) -> None:
        """Writes down what the desk goes on without: each statement with its values."""
        try:
            with self.transaction() as rows:
                for statement, *values in statements:
                    rows.execute(statement, values)
        except sqlite3.Error as error:
            log.warning("%s: this isn't kept: %s", self.path, error)

    @contextlib.contextmanager
    def in_one_transaction(self) -> Iterator[None]:
        """Has several queries see nothing of what is written meanwhile."""
        with self.reading:
            is_outer = not self.reader.in_transaction
            if is_outer:
                self.reader.execute("BEGIN")
            try:
                yield
            finally:
                if is_outer:
                    self.reader.execute("COMMIT")

    def all(self, query: str, *values: Any) -> list[sqlite3.Row]:
        """Returns the rows that a query finds."""
        with self.reading:
            return self.reader.execute(query, values).fetchall()

    def one(self, query: str, *values: Any) -> sqlite3.Row | None:
        """Returns the first row that a query finds."""
        with self.reading:
            found: sqlite3.Row | None = self.reader.execute(query, values).fetchone()
            return found
