"""Reads a line as a request, as the rules say in words: the request, with its tag in lower case, or its fault."""
from __future__ import annotations

import json
from collections.abc import Callable
from typing import Any

from plain import BROADER, LABEL_KINDS, MAPPINGS, Plain, Request
from plain_forms import is_iri, is_key, is_note, is_number, is_record, is_tag, is_text

MEMBERS: dict[str, dict[str, tuple[str, ...]]] = {
    "do": {
        "scheme": ("tag", "text"),
        "concept": ("scheme", "tag", "text"),
        "collection": ("scheme", "tag", "text"),
        "outside": ("iri",),
        "addLabel": ("owner", "kind", "tag", "text"),
        "dropLabel": ("owner", "kind", "tag", "text"),
        "relabel": ("owner", "tag", "text", "keep"),
        "link": ("kind", "a", "b"),
        "unlink": ("kind", "a", "b"),
        "deprecate": ("concept",),
        "merge": ("source", "target"),
        "split": ("source", "tag", "text", "postings"),
        "post": ("key", "record", "concept"),
        "withdraw": ("posting",),
    },
    "get": {"totals": (), "concept": ("number",), "postings": ("concept",), "posting": ("number",)},
}
LINK_KINDS = (*BROADER, "related", "member", *MAPPINGS)
TEXTS: dict[str, tuple[Callable[[str], bool], str]] = {
    "tag": (is_tag, "BadTag"),
    "text": (is_text, "BadText"),
    "iri": (is_iri, "BadIri"),
    "key": (is_key, "BadKey"),
    "record": (is_record, "BadRecord"),
}


class Bad(Exception):
    """The fault of a line that is no request."""


def read_float(text: str) -> float:
    """A number that is not whole: one that no float is near is none."""
    if float(text) in (float("inf"), float("-inf")):
        raise ValueError(text)
    return float(text)


def refuse_constant(text: str) -> None:
    raise ValueError(text)


def read_json(line: bytes) -> Any:
    """The value of a JSON text. Of two members with one name the last stays."""
    try:
        value = json.loads(line.decode(), parse_float=read_float, parse_constant=refuse_constant)
        # A single surrogate is no text.
        json.dumps(value, ensure_ascii=False).encode()
        return value
    except ValueError as error:
        raise Bad("NotJson") from error


def is_count(value: Any) -> bool:
    return isinstance(value, (int, float)) and not isinstance(value, bool)


def has_shape(request: Request, word: str, name: str) -> bool:
    """Whether the value of a member is of the kind of JSON that the member wants."""
    value = request[name]
    if name == "kind":
        return value in (LINK_KINDS if word in ("link", "unlink") else LABEL_KINDS) and isinstance(value, str)
    if name == "keep":
        return isinstance(value, bool)
    if name == "postings":
        return isinstance(value, list) and all(map(is_count, value))
    return isinstance(value, str) if name in TEXTS else is_count(value)


def fault_of(request: Request, name: str) -> str | None:
    """The fault of a member whose value has its shape, or None."""
    value = request[name]
    if name == "text" and request.get("kind") == "scope":
        return None if is_note(value) else "BadText"
    if name in TEXTS:
        is_form, fault = TEXTS[name]
        return None if is_form(value) else fault
    numbers = value if name == "postings" else [] if name in ("kind", "keep") else [value]
    return None if all(map(is_number, numbers)) else "BadNumber"


def members_of(request: Any) -> tuple[str, ...]:
    """The word of a request and the members that it wants, or a fault of its shape."""
    verbs = [it for it in MEMBERS if isinstance(request, dict) and it in request]
    word = request[verbs[0]] if len(verbs) == 1 else None
    if not isinstance(word, str) or word not in MEMBERS[verbs[0]]:
        raise Bad("BadShape")
    names = MEMBERS[verbs[0]][word]
    if set(request) != {verbs[0], *names} or not all(has_shape(request, word, it) for it in names):
        raise Bad("BadShape")
    return names


def read_request(line: bytes) -> Request:
    """The request of a line; raises its fault."""
    request: Request = read_json(line)
    faults = [fault_of(request, name) for name in members_of(request)]
    for fault in filter(None, faults):
        raise Bad(fault)
    if "tag" in request:
        request["tag"] = request["tag"].lower()
    return request


def lines_in(script: bytes) -> list[bytes]:
    """The lines of a script that are answered."""
    lines = script.split(b"\n")
    cut = [it.removesuffix(b"\r") for it in lines[:-1]] + lines[-1:]
    return [it for it in cut if it.strip(b" \t")]


def perform(plain: Plain, line: bytes) -> tuple[Plain, Request]:
    """Performs a line, and returns the next state and the answer."""
    try:
        request = read_request(line)
    except Bad as bad:
        return plain, {"bad": str(bad)}
    return plain.perform(request) if "do" in request else (plain, plain.show(request))
