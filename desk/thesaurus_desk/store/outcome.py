"""Whether the changes of a plan were made: what they come to, looked for in the replica of a store that was read
again."""
from __future__ import annotations

from collections.abc import Iterable
from typing import Any

from thesaurus_desk.store.changes import ENDS, PLACES, Change
from thesaurus_desk.store.read_transactions import ReadTransactions
from thesaurus_desk.store.schema import COLUMNS, EMPTY

# What is so after a plan, and wasn't before: a test of a row, and whether it finds one.
Facts = dict[tuple[Any, ...], bool]
# How many cells, the table's name among them, of a row that is made stay as they are.
STAYS = {"resource": 4, "posting": 5}
STATE = {
    "retire": "SELECT 1 FROM resource WHERE num = ? AND live = 0 AND replaced IS NULL",
    "replace": "SELECT 1 FROM resource WHERE num = ? AND live = 0 AND replaced = ?",
    "withdraw": "SELECT 1 FROM posting WHERE num = ? AND withdrawn = 1",
}


def facts_of(changes: Iterable[Change]) -> Facts:
    """Returns what is so after changes, and wasn't before. Where postings are is told by the rows of `move`."""
    facts: Facts = {}
    for what, *cells in changes:
        if what in ("insert", "delete"):
            # (what is made may end, or be moved on, at once)
            key = tuple(cells[: STAYS.get(cells[0])])
            if key in facts:
                # (what comes and goes, or goes and comes, is as it was)
                del facts[key]
            else:
                facts[key] = what == "insert"
        elif what in STATE:
            facts[what, *cells] = True
    return facts


def holds(replica: ReadTransactions, fact: tuple[Any, ...]) -> bool:
    """Whether there is a row, or a resource or posting is in a state."""
    name, *cells = fact
    if name in STATE:
        return replica.one(STATE[name], *cells) is not None
    same = " AND ".join(f"{it} {'IS' if it in EMPTY else '='} ?" for it, _ in zip(COLUMNS[name], cells))
    return replica.one(f"SELECT 1 FROM {name} WHERE {same}", *cells) is not None


def look_for(replica: ReadTransactions, changes: Iterable[Change]) -> str:
    """Returns whether changes were made: done, lost (none of them), or unknown (some). Without changes it's lost, since
    nothing was to be done."""
    found = {holds(replica, fact) is is_so for fact, is_so in facts_of(changes).items()}
    return "unknown" if len(found) > 1 else "done" if found == {True} else "lost"


def touched_by(changes: Iterable[Change]) -> set[int]:
    """Returns the resources that changes are about, postings that come and go among them."""
    found: set[int] = set()
    for what, *cells in changes:
        if what in ("insert", "delete"):
            table, *row = cells
            found.update(row[it] for it in (*ENDS.get(table, ()), *PLACES.get(table, ())) if row[it] is not None)
        elif what == "place":
            found.add(cells[1])
        elif what != "withdraw":
            found.update(cells)
    return found
