"""Reads files of records that are to be indexed: tables, MARC 21, MODS and Dublin Core."""
from __future__ import annotations

import tempfile
from collections.abc import Sequence
from pathlib import Path

from thesaurus_desk.importing.tables import safe_ending
from thesaurus_desk.journal.record_texts import RecordText
from thesaurus_tools.catalogue_records import ENDING, columns_of, is_catalogue
from thesaurus_tools.table_process import read_apart

# The most bytes of a record's key, as the program has it.
LONGEST_KEY = 128


def read_record_file(name: str, data: bytes, encoding: str = "") -> tuple[list[RecordText], int]:
    """Returns the records of a file, the last of those with the same key, and how many have no key that can be one.
    Raises TableError."""
    with tempfile.TemporaryDirectory() as folder:
        path = Path(folder, f"records{ENDING if is_catalogue(data) else safe_ending(name)}")
        path.write_bytes(data)
        heading, *rows = read_apart(path, encoding)
    columns = columns_of(path, heading.cells)
    found = [record_of(it.cells, columns) for it in rows]
    kept = {it.record: it for it in found if 0 < len(it.record.encode()) <= LONGEST_KEY}
    return list(kept.values()), sum(it.record not in kept for it in found)


def record_of(cells: Sequence[str], columns: dict[str, list[int]]) -> RecordText:
    """Returns the record of a row; several columns of texts are one text."""

    def value(part: str) -> str:
        return "\n".join(cells[at].strip() for at in columns[part] if at < len(cells) and cells[at].strip())

    key = " ".join(value("key").partition("\n")[0].split())
    return RecordText(key, value("title"), value("text"), value("link")).tidy()
