"""What the catalogue says of records: titles, texts and links, kept beside the postings to be shown and searched."""
from __future__ import annotations

import re
from collections.abc import Iterable
from dataclasses import dataclass

from thesaurus_desk.journal.schema import Database
from thesaurus_desk.store.text_keys import WORD, fold
from thesaurus_tools.stems import ALL_SMALL, language_of, stem

# The most characters of a title and of a text that are kept.
LONGEST_TITLE, LONGEST_TEXT = 1000, 20_000
# Kilobytes of memory for many texts at once.
CACHE = 100_000
ADDRESS = re.compile(r"https?://\S{1,2000}")


@dataclass(frozen=True, slots=True)
class RecordText:
    """A record, by its key in the catalogue, with what the catalogue says of it."""

    record: str
    title: str = ""
    text: str = ""
    link: str = ""

    def tidy(self) -> RecordText:
        """Returns it as it is kept: a title on one line, nothing longer than it may be, and only a link of the web."""
        link = self.link.strip()
        return RecordText(
            self.record,
            " ".join(self.title.split())[:LONGEST_TITLE],
            self.text.replace("\r\n", "\n").strip()[:LONGEST_TEXT],
            link if ADDRESS.fullmatch(link) else "",
        )


def stems_of(title: str, text: str) -> str:
    """Returns the stems of the words by which records alike are found; those of another language than is known are as
    English ones."""
    words = [fold(it) for it in WORD.findall(f"{title} {text}")]
    language = language_of(words) or "en"
    return " ".join(stem(it, language) for it in words if it not in ALL_SMALL)


@dataclass
class RecordTexts:
    """Keeps texts of records in the journal's file."""

    journal: Database

    def keep(self, texts: Iterable[RecordText]) -> None:
        """Keeps texts, in place of those that the same records have."""
        # (in the order of the index by records: in any other one its pages are read again and again)
        found = sorted(texts, key=lambda it: it.record)
        values = [(it.record, it.title, it.text, it.link, stems_of(it.title, it.text)) for it in found]
        with self.journal.writing() as rows:
            kept = rows.execute("PRAGMA cache_size").fetchone()[0]
            rows.execute(f"PRAGMA cache_size = -{CACHE}")
            rows.executemany(
                "INSERT INTO record_text (record, title, text, link, words) VALUES (?1, ?2, ?3, ?4, ?5)"
                " ON CONFLICT (record) DO UPDATE SET title = ?2, text = ?3, link = ?4, words = ?5",
                values,
            )
            rows.execute(f"PRAGMA cache_size = {kept}")

    def forget(self, record: str) -> None:
        """Deletes what is kept of a record."""
        with self.journal.writing() as rows:
            rows.execute("DELETE FROM record_text WHERE record = ?", (record,))

    def get(self, record: str) -> RecordText | None:
        """Returns what is kept of a record."""
        row = self.journal.one("SELECT record, title, text, link FROM record_text WHERE record = ?", record)
        return RecordText(*row) if row else None

    def titled(self, query: str, most: int) -> list[str]:
        """Returns the records whose titles have all words of a query, of which the last may be begun, best first."""
        words = [f'"{it}"' for it in WORD.findall(query)]
        if not words:
            return []
        found = self.journal.all(
            "SELECT record FROM record_title JOIN record_text ON id = record_title.rowid WHERE record_title MATCH ?"
            " ORDER BY record_title.rank, record LIMIT ?",
            f"{' '.join(words)}*",
            most,
        )
        return [str(it["record"]) for it in found]

    def title(self, record: str) -> str:
        """Returns the title of a record; nothing if none is known."""
        row = self.journal.one("SELECT title FROM record_text WHERE record = ?", record)
        return str(row["title"]) if row else ""
