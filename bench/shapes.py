"""The requests of more than one benchmark, after those of `measure`: labels, and links in trees, chains and levels."""
from __future__ import annotations

import random
from collections.abc import Iterator

from measure import line

KINDS = ["alt", "hidden", "scope", "alt"]
TAGS = ["en", "de", "fr"]
LEVELS = 12


def labels(concepts: int, count: int) -> Iterator[str]:
    """Requests that bring the labels of resources that have one each to this number: the scheme and its concepts."""
    made = 1 + concepts
    for place in range(count - made):
        owner = 1 + place % made
        round_of = place // made
        yield line(
            do="addLabel",
            owner=owner,
            kind=KINDS[round_of % len(KINDS)],
            tag=TAGS[round_of % len(TAGS)],
            text=f"Label {round_of} of {owner}",
        )


def broader(a: int, b: int) -> str:
    return line(do="link", kind="broader", a=a, b=b)


def tree(concepts: int) -> list[str]:
    """Each concept with 100 narrower ones, from the top."""
    return [broader(2 + n, 2 + (n - 1) // 100) for n in range(1, concepts)]


def chain(concepts: int) -> list[str]:
    """Each concept narrower than the next, from below."""
    return [broader(2 + n, 3 + n) for n in range(concepts - 1)]


def levels(concepts: int) -> Iterator[str]:
    """Concepts in levels, each with two broader ones in the level above."""
    width, chance = concepts // LEVELS, random.Random(2)
    for n in range(width, width * LEVELS):
        above = n // width * width - width
        for m in chance.sample(range(above, above + width), 2):
            yield broader(2 + n, 2 + m)


def unrelated(concepts: int, count: int) -> list[str]:
    """Links of related concepts on one level, none above the other."""
    width, chance = concepts // LEVELS, random.Random(3)
    pairs = set[tuple[int, ...]]()
    while len(pairs) < count:
        level = chance.randrange(LEVELS) * width
        pairs.add(tuple(sorted(2 + level + m for m in chance.sample(range(width), 2))))
    return [line(do="link", kind="related", a=a, b=b) for a, b in sorted(pairs)]


def merges_up(concepts: int, count: int) -> list[str]:
    """Merges of this number of concepts, each into one a level up, of the same place there. Some may be refused."""
    width, chance = concepts // LEVELS, random.Random(4)
    return [
        line(do="merge", source=2 + n, target=2 + n - width) for n in chance.sample(range(width, width * LEVELS), count)
    ]


def is_accepted(answer: bytes) -> bool:
    return answer.startswith((b'{"ok"', b'{"done"', b'{"moved"'))
