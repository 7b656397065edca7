"""What a search finds in definitions and notes, and by notations."""
from __future__ import annotations

from collections.abc import Iterator

from thesaurus_desk.journal.values import Value
from thesaurus_desk.web.context import person, the_desk, the_fields, the_replica
from thesaurus_tools.fields import TERM_SOURCE

# How many values a search shows, of each sort.
MOST = 50


def found_values(query: str) -> list[Value]:
    """Returns the values that have the words of a query, and the notations that begin with it, which come first. Each
    belongs to a resource that is there."""
    if len(query) < 2:
        return []
    shown = (it for it in the_fields().values() if it.name not in ("status", "person", "due", TERM_SOURCE))
    seen = [it.name for it in shown if it.is_public or person().name]
    values = the_desk().values
    notations = values.beginning("notation", query, MOST)
    others = values.search(query, [it for it in seen if it != "notation"], MOST)
    return [it for it in (*notations, *others) if the_replica().kind(it.owner)]


def has_notation(query: str) -> int | None:
    """Returns the one resource in use that has a notation."""
    owners = set(live_holders(query))
    return owners.pop() if len(owners) == 1 else None


def live_holders(notation: str) -> Iterator[int]:
    """Yields the resources in use that have a notation, of whatever code."""
    found = the_desk().values.select("field = 'notation' AND text = ?", notation)
    return (it.owner for it in found if the_replica().is_live(it.owner))
