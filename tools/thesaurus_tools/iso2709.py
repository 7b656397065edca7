"""Writes records of MARC 21 as ISO 2709 has them: the form that library systems load."""
from __future__ import annotations

from thesaurus_tools.marc import LEADER, Record

FIELD_END, RECORD_END, SUBFIELD = b"\x1e", b"\x1d", b"\x1f"


def iso2709(record: Record) -> bytes:
    """Returns a record with its directory. Its fault is asked for before."""
    fields = [(tag, value.encode() + FIELD_END) for tag, value in record.controls]
    for it in record.fields:
        parts = b"".join(SUBFIELD + code.encode() + value.encode() for code, value in it.subfields)
        fields.append((it.tag, it.indicators.encode() + parts + FIELD_END))
    directory, start = "", 0
    for tag, data in fields:
        directory += f"{tag}{len(data):04}{start:05}"
        start += len(data)
    body = directory.encode() + FIELD_END + b"".join(data for _, data in fields) + RECORD_END
    base = LEADER + len(directory) + len(FIELD_END)
    leader = f"{LEADER + len(body):05}{record.leader[5:12]}{base:05}{record.leader[17:]}"
    return leader.encode() + body
