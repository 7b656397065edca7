"""Mangles texts: deletes, doubles or exchanges a few bytes."""
from __future__ import annotations

from collections.abc import Sequence

from dice import Dice


# Replacements of a byte: bytes of JSON, of files and of heads, and parts that a text mustn't have or reads as something
# else.
BYTES = b'{}[]",:;/?=&0123456789-.eE\\ \t\r\n\x00\x7f\xc3\xff'
PARTS = (
    b" ",
    b" ",
    b"\\n",
    b"\\u0000",
    b"\\u00e9",
    b"\\ud83d\\ude00",
    b"\\ud800",
    b"1e9",
    b"1.0",
    b"-1",
    b"00",
    b"null",
    b"true",
    b"[]",
)
OTHERS = (*(bytes((it,)) for it in BYTES), *PARTS, *(it.encode() for it in "\u0080\u00e9\u2028\U0001f600"))


def mangle_once(dice: Dice, text: bytes, places: Sequence[int]) -> bytes:
    """A text with a few bytes deleted, or doubled, one exchanged for any other, or two exchanged, at one of these
    places."""
    place = dice.pick(places) % len(text)
    end = place + dice.pick((1, 1, 2, 3, 8))
    change = dice.below(4)
    if change == 0:
        return text[:place] + text[end:]
    if change == 1:
        return text[:end] + text[place:]
    if change == 2:
        other = dice.pick((bytes((dice.pick(text),)), dice.pick(OTHERS), bytes((dice.below(256),))))
        return text[:place] + other + text[place + 1 :]
    there = dice.pick(places) % len(text)
    made = bytearray(text)
    made[place], made[there] = made[there], made[place]
    return bytes(made)


def mangled(dice: Dice, text: bytes) -> bytes:
    """Mangles a text once or a few times: anywhere, or only at letters and digits, so that it may stay a request."""
    places: Sequence[int] = range(len(text))
    if dice.one_in(2):
        places = [it for it in places if chr(text[it]).isalnum()]
    for _ in range(dice.pick((1, 1, 1, 2, 3))):
        text = mangle_once(dice, text, places) or b"{"
    return text
