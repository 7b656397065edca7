"""The roles, lowest to highest, and the person who asks."""
from __future__ import annotations

from dataclasses import dataclass
from enum import IntEnum


class Role(IntEnum):
    """What a person may do: each role may do all that a lower one may. A visitor hasn't come in."""

    VISITOR = 0
    READER = 1
    INDEXER = 2
    EDITOR = 3
    HEAD = 4

    @property
    def word(self) -> str:
        """The role's name in the users' file and on the command line."""
        return self.name.lower()


BY_WORD = {it.word: it for it in Role}
# The lowest roles that may make requests of which the head settles nothing; an editor may make all others.
LOWEST = dict.fromkeys(("post", "withdraw", "import"), Role.INDEXER)


def role_named(word: str) -> Role:
    """Returns the role of a name. Raises ValueError for another name."""
    if word not in BY_WORD:
        raise ValueError(f"there is no role {word!r}")
    return BY_WORD[word]


@dataclass(frozen=True)
class Person:
    """Who asks: the name that the journal keeps, and the role."""

    name: str
    role: Role

    def may(self, word: str) -> bool:
        """Whether the person has a role or a higher one."""
        return self.role >= role_named(word)


VISITOR = Person("", Role.VISITOR)
