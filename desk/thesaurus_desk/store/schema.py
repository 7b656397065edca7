"""The tables of the replica: those of the store under their own names, and what look-ups need beside them."""
from __future__ import annotations

from thesaurus_tools.kinds import RESOURCE_KINDS
from thesaurus_tools.table_store import KIND_OF_LABEL, KIND_OF_LINK, KIND_OF_TYPE

# A replica of another version is built anew.
VERSION = 3
# The tables of the store with their columns, in an order in which no row comes before those that it names.
COLUMNS: dict[str, tuple[str, ...]] = {
    name: tuple(columns.split())
    for name, columns in (
        ("meta", "one version base"),
        ("resource", "num kind scheme live replaced"),
        ("outside", "num iri"),
        ("label", "owner kind tag text"),
        ("link", "kind a b"),
        ("hier", "a b typ"),
        ("posting", "num pkey record first_at at withdrawn"),
        ("move", "num posting source target"),
    )
}
# The columns by which a row is in order.
KEYS: dict[str, tuple[str, ...]] = {
    **{name: ("num",) for name in ("resource", "outside", "posting", "move")},
    **{name: COLUMNS[name] for name in ("label", "link", "hier")},
    "meta": ("one",),
}
# The columns that may be empty.
EMPTY = ("scheme", "replaced")
TABLES = """
CREATE TABLE meta (one INTEGER PRIMARY KEY, version INTEGER NOT NULL, base TEXT NOT NULL) STRICT;
CREATE TABLE resource (
  num INTEGER PRIMARY KEY, kind INTEGER NOT NULL, scheme INTEGER, live INTEGER NOT NULL, replaced INTEGER) STRICT;
CREATE TABLE outside (num INTEGER PRIMARY KEY, iri TEXT NOT NULL UNIQUE) STRICT;
-- fold: without case, accents and variants of characters; sort: of preferred ones, the key by which terms are in order
CREATE TABLE label (
  id INTEGER PRIMARY KEY, owner INTEGER NOT NULL, kind INTEGER NOT NULL, tag TEXT NOT NULL, text TEXT NOT NULL,
  fold TEXT NOT NULL, sort TEXT, UNIQUE (owner, kind, tag, text)) STRICT;
CREATE TABLE link (
  kind INTEGER NOT NULL, a INTEGER NOT NULL, b INTEGER NOT NULL, PRIMARY KEY (a, kind, b)) STRICT, WITHOUT ROWID;
CREATE TABLE hier (
  a INTEGER NOT NULL, b INTEGER NOT NULL, typ INTEGER NOT NULL, PRIMARY KEY (a, b, typ)) STRICT, WITHOUT ROWID;
CREATE TABLE posting (
  num INTEGER PRIMARY KEY, pkey TEXT NOT NULL UNIQUE, record TEXT NOT NULL, first_at INTEGER NOT NULL,
  at INTEGER NOT NULL, withdrawn INTEGER NOT NULL) STRICT;
CREATE TABLE move (
  num INTEGER PRIMARY KEY, posting INTEGER NOT NULL, source INTEGER NOT NULL, target INTEGER NOT NULL) STRICT;
-- the mark of the store's files after the last plan, the versions of this schema and of Unicode, and how many plans
-- changed each part of it
CREATE TABLE replica (name TEXT PRIMARY KEY, value) WITHOUT ROWID;
-- how many labels each language tag has, and how many of them are preferred ones
CREATE TABLE language (tag TEXT PRIMARY KEY, labels INTEGER NOT NULL, preferred INTEGER NOT NULL) STRICT, WITHOUT ROWID;
-- what would be counted anew after each plan: the live concepts of each scheme, the postings that are withdrawn (of 0)
CREATE TABLE total (
  name TEXT NOT NULL, about INTEGER NOT NULL, value INTEGER NOT NULL, PRIMARY KEY (name, about)) STRICT, WITHOUT ROWID;
-- each word of terms with how many labels have it: typing errors are looked for here
CREATE TABLE word (word TEXT PRIMARY KEY, labels INTEGER NOT NULL) STRICT, WITHOUT ROWID;
-- each name of a record once, and its folded name from its beginning and from each later word on
CREATE TABLE record (id INTEGER PRIMARY KEY, name TEXT NOT NULL UNIQUE) STRICT;
CREATE TABLE record_part (
  part TEXT NOT NULL, record INTEGER NOT NULL, is_whole INTEGER NOT NULL, PRIMARY KEY (part, record)) STRICT,
  WITHOUT ROWID;
-- the concepts that the public doesn't see, and the hierarchy without them: what is below one of them is below the
-- nearest ones that are seen
CREATE TABLE hidden (num INTEGER PRIMARY KEY) STRICT;
CREATE TABLE public_hier (
  a INTEGER NOT NULL, b INTEGER NOT NULL, typ INTEGER NOT NULL, PRIMARY KEY (a, b, typ)) STRICT, WITHOUT ROWID;
-- the records below concepts, as they were counted: when, and of which versions of postings and links
CREATE TABLE below_count (
  concept INTEGER PRIMARY KEY, records INTEGER NOT NULL, state TEXT NOT NULL, at TEXT NOT NULL) STRICT;
CREATE VIEW term AS SELECT id, fold FROM label WHERE kind < 4;
CREATE VIEW note AS SELECT id, fold FROM label WHERE kind = 4;
"""
INDEXES = """
CREATE INDEX resource_kind ON resource (kind, scheme, live);
CREATE INDEX resource_replaced ON resource (replaced) WHERE replaced IS NOT NULL;
CREATE INDEX label_fold ON label (fold, owner) WHERE kind < 4;
CREATE INDEX label_az ON label (tag, fold, owner, kind) WHERE kind < 3;
CREATE INDEX link_b ON link (b, kind, a);
CREATE INDEX hier_b ON hier (b, a, typ);
CREATE INDEX public_hier_b ON public_hier (b, a, typ);
CREATE INDEX posting_place ON posting (at, record) WHERE withdrawn = 0;
CREATE INDEX posting_at ON posting (at) WHERE withdrawn = 0;
CREATE INDEX posting_record ON posting (record);
CREATE INDEX posting_gone ON posting (at) WHERE withdrawn = 1;
CREATE INDEX move_posting ON move (posting);
CREATE INDEX move_source ON move (source);
"""
# (Python's \\w has the underscore, the tokenizer hasn't)
WORDS = "unicode61 remove_diacritics 0 tokenchars '_'"
# The indexes of words with what they are made of. A row that goes must be taken out with the very text that it had.
SEARCHED = {"term_fts": "term", "part_fts": "term", "note_fts": "note"}
SEARCH = f"""
CREATE VIRTUAL TABLE term_fts USING fts5 (
  fold, content='term', content_rowid='id', tokenize="{WORDS}", prefix='1 2 3', detail=none, columnsize=0);
CREATE VIRTUAL TABLE part_fts USING fts5 (
  fold, content='term', content_rowid='id', tokenize="trigram case_sensitive 1", detail=none, columnsize=0);
CREATE VIRTUAL TABLE note_fts USING fts5 (
  fold, content='note', content_rowid='id', tokenize="{WORDS}", detail=full, columnsize=0);
"""
VIEWS = ("term", "note")
# All tables, those that others are made of last.
ALL = (
    *SEARCHED,
    "hidden",
    "public_hier",
    "below_count",
    "replica",
    "language",
    "total",
    "word",
    "record_part",
    "record",
    *reversed(COLUMNS),
)

KINDS = dict(enumerate((*RESOURCE_KINDS, "outside"), 1))
KIND_NUMBER = {name: number for number, name in KINDS.items()}
LABEL_NUMBER = {name: number for number, name in KIND_OF_LABEL.items()}
LINK_NUMBER = {name: number for number, name in KIND_OF_LINK.items()}
TYPE_NUMBER = {name: number for number, name in KIND_OF_TYPE.items()}
CONCEPT, COLLECTION, OUTSIDE = KIND_NUMBER["concept"], KIND_NUMBER["collection"], KIND_NUMBER["outside"]
PREF, SCOPE = LABEL_NUMBER["pref"], LABEL_NUMBER["scope"]
# The parts of the store of which a value is made that is kept until one of them changes; and the statuses of concepts.
PARTS = ("resources", "labels", "links", "postings", "statuses")
PART_OF = {
    **dict.fromkeys(("meta", "resource", "outside"), "resources"),
    **dict.fromkeys(("link", "hier"), "links"),
    **dict.fromkeys(("posting", "move"), "postings"),
    "label": "labels",
}
