"""A store as a large museum has it: 20,000 concepts with 70,000 terms in three languages, and 100,000 postings, half of
them at one concept; or a very large one. SQLite fills the tables of a store that the program has made."""
from __future__ import annotations

import pathlib
import random
import subprocess
from collections.abc import Iterator
from contextlib import closing
from dataclasses import dataclass

from measure import line
from program import built
from statements import opened


@dataclass(frozen=True)
class Size:
    """How much a store has; `busy`: the postings of the busiest concept."""

    concepts: int
    terms: int
    postings: int
    records: int
    busy: int = 50_000
    links: int = 4_000


LARGE = Size(20_000, 70_000, 100_000, 70_000)
VERY_LARGE = Size(200_000, 1_000_000, 2_000_000, 1_000_000)
CONCEPTS = LARGE.concepts
# The busiest concept, and how many narrower ones each concept has.
BUSIEST, BRANCHES = 500, 12
STARTS = "ba be bi bo bu da de di do du fa fe fi fo ga ge gi go ka ke ki ko la le li lo ma me mi mo na ne ni no".split()
ENDS = {
    "en": "rs ton ling ware stone".split(),
    "de": "er ung lein werk stein".split(),
    "fr": "ette eau erie ine age".split(),
}
PREF, ALT = 1, 2


def term(number: int, tag: str, chance: random.Random) -> str:
    """A term of two made words, of which the first is the concept's own."""
    own = "".join(STARTS[number // 34**place % 34] for place in range(3))
    second = "".join(chance.choice(STARTS) for _ in range(2)) + chance.choice(ENDS[tag])
    # (from there on the first word isn't the concept's own)
    more = f" {number}" if number >= len(STARTS) ** 3 else ""
    return f"{own.capitalize()}{chance.choice(ENDS[tag])} {second}{more}"


def labels(chance: random.Random, size: Size) -> Iterator[tuple[int, int, str, str]]:
    """The rows of labels: three preferred terms for each concept, and further ones until there are enough."""
    yield 1, PREF, "en", "Collections"
    left = size.terms - 1
    for number in range(2, 2 + size.concepts):
        for tag in ("en", "de", "fr"):
            left -= 1
            yield number, PREF, tag, term(number, tag, chance)
    for place in range(left):
        yield 2 + place % size.concepts, ALT, chance.choice(("en", "de", "fr")), f"{term(place, 'en', chance)} {place}"


def links(chance: random.Random, size: Size) -> Iterator[tuple[int, int, int]]:
    """The rows of broader links, a tree."""
    for place in range(1, size.concepts):
        yield 2 + place, 2 + (place - 1) // BRANCHES, chance.choice((0, 0, 1, 2))


def make(path: pathlib.Path, size: Size = LARGE) -> None:
    """Makes the store."""
    first = line(do="scheme", tag="en", text="First").encode()
    subprocess.run([built(), "--db", path, "script"], input=first, stdout=subprocess.DEVNULL, check=True)
    chance = random.Random(7)
    with closing(opened(path)) as tables:
        tables.execute("BEGIN")
        tables.execute("DELETE FROM label")
        tables.executemany(
            "INSERT INTO resource (num, kind, scheme, live, replaced) VALUES (?, 2, 1, 1, NULL)",
            ((number,) for number in range(2, 2 + size.concepts)),
        )
        tables.executemany("INSERT INTO label (owner, kind, tag, text) VALUES (?, ?, ?, ?)", labels(chance, size))
        tables.executemany("INSERT INTO hier (a, b, typ) VALUES (?, ?, ?)", links(chance, size))
        # (from one of the lowest to the next: neither is broader than the other)
        related = ((2, size.concepts - place, size.concepts + 1 - place) for place in range(size.links))
        tables.executemany("INSERT INTO link (kind, a, b) VALUES (?, ?, ?)", related)
        at = [BUSIEST if it <= size.busy else 2 + it % size.concepts for it in range(size.postings + 1)]
        tables.executemany(
            "INSERT INTO posting (num, pkey, record, first_at, at, withdrawn) VALUES (?, ?, ?, ?, ?, 0)",
            ((it, f"key-{it}", f"Inventory {it % size.records}", at[it], at[it]) for it in range(1, size.postings + 1)),
        )
        tables.execute("COMMIT")
