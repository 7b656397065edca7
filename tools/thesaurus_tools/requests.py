"""Writes requests as lines of JSON, and reads answers."""
from __future__ import annotations

import json
from collections.abc import Callable, Iterable
from typing import Any
from pathlib import Path

from thesaurus_tools.files import write_output

# Returns a value as JSON without white space.
any_to_json = json.JSONEncoder(ensure_ascii=False, separators=(",", ":")).encode
# (neither is in the types of the library)
text_to_json: Callable[[str], str] = getattr(json.encoder, "encode_basestring")
scan_json: Callable[[str, int], tuple[object, int]] = getattr(json.JSONDecoder(), "scan_once")


def to_json(members: dict) -> str:
    """Returns an object as JSON without white space. (For texts and numbers this takes a third of the time of Python's
    encoder.)"""
    shown = [
        text_to_json(it) if type(it) is str else it if type(it) is int else "true" if it is True else any_to_json(it)
        for it in members.values()
    ]
    return "{" + ",".join([f"{text_to_json(name)}:{it}" for name, it in zip(members, shown)]) + "}"


def encode(request: dict) -> bytes:
    """Returns a request as a line of a script."""
    try:
        return to_json(request).encode() + b"\n"
    except UnicodeEncodeError:
        return json.dumps(request, separators=(",", ":")).encode() + b"\n"


def parse_json(text: str) -> Any:
    """Returns the value of a text without white space at its ends. Raises ValueError for what is no JSON."""
    try:
        value, end = scan_json(text, 0)
    except StopIteration:
        end = -1
    # (Python's own function says what is wrong)
    return value if end == len(text) else json.loads(text)


def print_requests(requests: Iterable[dict], path: Path | None = None) -> None:
    """Writes requests for a reader's eye, a line each, to a file or to standard output."""
    text = "".join(f"{json.dumps(it, ensure_ascii=False)}\n" for it in requests)
    write_output(text.encode(errors="backslashreplace"), path)
