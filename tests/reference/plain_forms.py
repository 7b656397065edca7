"""The forms of texts and numbers, as the rules say them in words."""
from __future__ import annotations

import re
from typing import Any

MOST_NUMBER = 2**32 - 1
TAG = re.compile(r"[A-Za-z]{1,8}(-[A-Za-z0-9]{1,8})*")
IRI = re.compile(r'[A-Za-z][A-Za-z0-9+.-]*:[^\x00-\x20<>"{}|^`\\]+')
KEY = re.compile(r"[\x21-\x7e]{1,64}")
CONTROL = re.compile(r"[\x00-\x1f\x7f]")


def size(text: str) -> int:
    return len(text.encode())


def is_tag(text: str) -> bool:
    return bool(TAG.fullmatch(text)) and size(text) <= 35


def is_line(text: str, most: int) -> bool:
    """Whether a text has 1 to `most` bytes, and no control character."""
    return 1 <= size(text) <= most and not CONTROL.search(text)


def is_text(text: str, most: int = 256) -> bool:
    return is_line(text, most) and text[0] != " " and text[-1] != " "


def is_note(text: str) -> bool:
    return is_text(text, 2000)


def is_iri(text: str, most: int = 512) -> bool:
    return bool(IRI.fullmatch(text)) and size(text) <= most


def is_key(text: str) -> bool:
    return bool(KEY.fullmatch(text))


def is_record(text: str) -> bool:
    return is_line(text, 128)


def is_number(number: Any) -> bool:
    return isinstance(number, int) and 1 <= number <= MOST_NUMBER
