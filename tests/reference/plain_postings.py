"""Reads a posting file and performs it, as the rules say in words."""
from __future__ import annotations

import re
from collections.abc import Callable

from plain import Plain, Request
from plain_forms import is_key, is_number, is_record

HEADER = [b"key", b"record", b"concept"]
NUMERAL = re.compile(r"[1-9][0-9]*")
QUOTE, COMMA, ENDS = b'"', b",", (b"\r", b"\n")


def fields_of(data: bytes, place: int) -> tuple[list[bytes], int]:
    """The fields of the record that begins at a place, and the place after it."""
    fields, field, is_open, is_quoted = list[bytes](), b"", True, False
    while place < len(data):
        byte = data[place : place + 1]
        if is_quoted:
            # Two quotes are one; one alone ends what is held together.
            if byte == QUOTE and data[place + 1 : place + 2] == QUOTE:
                field, place = field + QUOTE, place + 1
            elif byte == QUOTE:
                is_quoted = False
            else:
                field += byte
        elif byte == QUOTE and is_open:
            is_quoted = True
        elif byte == COMMA:
            fields, field = [*fields, field], b""
        elif byte in ENDS:
            break
        else:
            field += byte
        is_open = byte == COMMA and not is_quoted
        place += 1
    return [*fields, field], place


def records_of(data: bytes) -> list[list[bytes]]:
    """The records of a file. A line without a byte is none."""
    data, place, records = data.removeprefix(b"\xef\xbb\xbf"), 0, []
    while place < len(data):
        if data[place : place + 1] in ENDS:
            place += 1
            continue
        fields, place = fields_of(data, place)
        records.append(fields)
    return records


def request_of(fields: list[bytes]) -> tuple[Request | None, str | None]:
    """The request of a record, or its fault."""
    if len(fields) != 3:
        return None, "BadShape"
    for field, is_form, fault in zip(fields, (is_key, is_record, is_numeral), ("BadKey", "BadRecord", "BadNumber")):
        if not is_text_of(field, is_form):
            return None, fault
    key, record, concept = (it.decode() for it in fields)
    return {"do": "post", "key": key, "record": record, "concept": int(concept)}, None


def is_numeral(text: str) -> bool:
    return bool(NUMERAL.fullmatch(text)) and is_number(int(text))


def is_text_of(field: bytes, is_form: Callable[[str], bool]) -> bool:
    try:
        return is_form(field.decode())
    except UnicodeDecodeError:
        return False


def import_file(plain: Plain, data: bytes) -> tuple[Plain, bytes | None]:
    """The state after an import, and its report, or None if the file has no header."""
    header, *rows = records_of(data) or [[]]
    if header != HEADER:
        return plain, None
    report = ["row,outcome,number"]
    for row, fields in enumerate(rows, 1):
        request, fault = request_of(fields)
        if request:
            plain, answer = plain.perform(request)
            fault = answer.get("no") or ("new" if "ok" in answer else "again")
            report.append(f"{row},{fault},{answer.get('ok') or answer.get('again') or ''}")
        else:
            report.append(f"{row},{fault},")
    return plain, "".join(f"{line}\n" for line in report).encode()
