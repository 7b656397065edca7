"""Tags, texts, notes, IRIs, keys and names of records at each edge of their forms."""
from __future__ import annotations

from collections.abc import Callable, Iterable
from typing import Any, NamedTuple

import pytest
from program import answers_to

Request = dict[str, Any]

START: list[Request] = [
    {"do": "scheme", "tag": "en", "text": "Animals"},
    {"do": "concept", "scheme": 1, "tag": "en", "text": "Cats"},
]
CONTROLS = [chr(code) for code in range(0x20)]
# Refused as a text and as a note; accepted as both.
NO_TEXT = ["", " ", " a", "a ", " a b", "a b ", "  "]
TEXTS = ["x", "a b", "a  b", "\u00a0", "\u0080", "a\u2028b", "\u00ff", '"', "\\", "/", "!", "~"]


def char_in(before: str, char: str, after: str) -> list[str]:
    """Texts with the character first, inside, last and alone."""
    return [char + after, before + char + after, before + char, char]


def chars_in(before: str, chars: Iterable[str], after: str) -> list[str]:
    return [text for char in chars for text in char_in(before, char, after)]


def longest(start: str, most: int) -> tuple[str, str]:
    """The longest text with this start, and one that is longer by a byte."""
    text = start + "x" * (most - len(start.encode()))
    return text, text + "x"


def edges(most: int, *starts: str) -> tuple[list[str], list[str]]:
    pairs = [longest(it, most) for it in starts]
    return [it for it, _ in pairs], [it for _, it in pairs]


class Form(NamedTuple):
    """A form: its fault, the request for a text, the answer to the nth text, and texts that have it or not."""

    fault: str
    request: Callable[[int, str], Request]
    answer: Callable[[int], str]
    have: list[str]
    have_not: list[str]


def tags() -> Form:
    have = ["a", "en", "EN-gb", "abcdefgh", "en-a", "en-1", "en-12345678", "zh-hans-cn"]
    have += ["x-a-b-c-d-e-f-g-h-i-j-k-l-m-n-o-p-q", "abcdefgh-12345678-abcdefgh-12345678"]
    have_not = ["", "-", "1", "e1", "abcdefghi", "en-", "-en", "en--gb", "en-123456789", "en_gb"]
    have_not += ["abcdefgh-12345678-abcdefgh-1234567-a", "x-a-b-c-d-e-f-g-h-i-j-k-l-m-n-o-p-qr"]
    others = list("@[`{/:. ") + ["\u007f", "\u00e9", "\u212a"]
    have_not += chars_in("e", others, "n") + chars_in("en-g", others, "b") + chars_in("e", CONTROLS, "n")
    return Form("BadTag", lambda n, it: {"do": "scheme", "text": "Animals", "tag": it}, new_resource, have, have_not)


def texts() -> Form:
    fit, long = edges(256, "x", "\u00e9", "\U0001f600")
    have_not = NO_TEXT + long + chars_in("a", [*CONTROLS, "\u007f"], "b")
    return Form("BadText", lambda n, it: {"do": "scheme", "tag": "en", "text": it}, new_resource, TEXTS + fit, have_not)


def notes() -> Form:
    fit, long = edges(2000, "x", "\u00e9", "\U0001f600")
    have_not = NO_TEXT + long + chars_in("a", [*CONTROLS, "\u007f"], "b")

    def request(_: int, it: str) -> Request:
        return {"do": "addLabel", "owner": 1, "kind": "scope", "tag": "en", "text": it}

    return Form("BadText", request, lambda n: '{"done":true}', TEXTS + fit, have_not)


def iris() -> Form:
    fit, long = edges(512, "a:")
    have = ["a:b", "A:b", "z1+-.:b", "a::", "a:/", "a:%", "a:\u007f", "a:\u00e9", "a:b\u00e9c"]
    have += ["http://example.org/x", "http://example.org/X", "https://thesaurus.example/i"]
    have_not = ["", "a", ":", "a:", ":a", "1:a", "+a:b", "\u00e9:b", "a_b:c", "a\u00e9:b", "a/b:c", "x"]
    others = list(' <>"{}|^`\\')
    have_not += chars_in("a:b", others, "c") + chars_in("a", others, ":b") + chars_in("a:b", CONTROLS, "c")
    return Form("BadIri", lambda n, it: {"do": "outside", "iri": it}, new_resource, have + fit, have_not + long)


def keys() -> Form:
    fit, long = edges(64, "x")
    have = ["!", "~", "k", "K", '"', "\\", "a-b", "0"]
    have_not = [""] + long + chars_in("a", [*CONTROLS, " ", "\u007f", "\u0080", "\u00e9", "\U0001f600"], "b")

    def post(_: int, it: str) -> Request:
        return {"do": "post", "record": "r1", "concept": 2, "key": it}

    return Form("BadKey", post, number, have + fit, have_not)


def records() -> Form:
    fit, long = edges(128, "x", "\u00e9")
    have = ["r", " ", " r", "r ", "a b", "\u0080", "\u00e9", "a\u2028b", '"', "\\", 'r,"1']
    have_not = [""] + long + chars_in("a", [*CONTROLS, "\u007f"], "b")

    def post(n: int, it: str) -> Request:
        return {"do": "post", "concept": 2, "record": it, "key": f"k{n}"}

    return Form("BadRecord", post, number, have + fit, have_not)


def new_resource(n: int) -> str:
    return f'{{"ok":{n + 2}}}'


def number(n: int) -> str:
    return f'{{"ok":{n}}}'


@pytest.mark.parametrize("form", [tags(), texts(), notes(), iris(), keys(), records()], ids=lambda it: it.fault)
def test_texts_with_and_without_the_form(form: Form) -> None:
    exchanges = [(START[0], '{"ok":1}'), (START[1], '{"ok":2}')]
    exchanges += [(form.request(n, text), form.answer(n)) for n, text in enumerate(form.have, 1)]
    exchanges += [(form.request(0, text), f'{{"bad":"{form.fault}"}}') for text in form.have_not]
    answers = answers_to([it for it, _ in exchanges])
    assert len(answers) == len(exchanges)
    assert not [(request, it) for (request, wanted), it in zip(exchanges, answers) if it != wanted]
