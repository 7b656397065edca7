"""What the public sees of the replica: all but the concepts whose status hides them. What is below one of these is
below the nearest ones that are seen."""
from __future__ import annotations

import json
import sqlite3
from collections.abc import Collection, Iterable

from thesaurus_desk.store.schema import PARTS, TYPE_NUMBER
from thesaurus_tools.fields import HIDDEN

IS_HIDDEN = "IN (SELECT num FROM main.hidden)"
# The tables as the public sees them, each under its own name: such a view comes before the table. The counts of the
# replica are those of all; what is hidden is counted off.
VIEWS = f"""
CREATE TEMP VIEW resource AS
  SELECT num, kind, scheme, live, iif(replaced {IS_HIDDEN}, NULL, replaced) AS replaced
  FROM main.resource WHERE num NOT {IS_HIDDEN};
CREATE TEMP VIEW label AS
  SELECT id, owner, kind, tag, text, fold, sort FROM main.label WHERE owner NOT {IS_HIDDEN};
CREATE TEMP VIEW link AS SELECT kind, a, b FROM main.link WHERE a NOT {IS_HIDDEN} AND b NOT {IS_HIDDEN};
CREATE TEMP VIEW hier AS SELECT a, b, typ FROM main.public_hier;
CREATE TEMP VIEW language AS
  SELECT tag, labels - coalesce(off, 0) AS labels, preferred - coalesce(off_preferred, 0) AS preferred
  FROM main.language LEFT JOIN (
    SELECT its.tag AS off_tag, count(*) AS off, sum(its.kind = 1) AS off_preferred
    FROM main.hidden CROSS JOIN main.label its ON its.owner = hidden.num GROUP BY its.tag) ON off_tag = tag
  WHERE labels > coalesce(off, 0);
CREATE TEMP VIEW total AS
  SELECT name, about, value - iif(name = 'live', (
    SELECT count(*) FROM main.hidden CROSS JOIN main.resource its ON its.num = hidden.num
    WHERE its.scheme = about AND its.live = 1), 0) AS value
  FROM main.total;
"""
# The owners whose status hides them; none, as long as the file has no values.
OWNERS = f"SELECT owner FROM value WHERE field = 'status' AND text IN ({', '.join(repr(it) for it in HIDDEN)})"
# The concepts of a list, as numbers in JSON, and those below hidden ones that are below them: what they are below is
# made anew.
BELOW = """
WITH RECURSIVE asked (n) AS (SELECT value FROM json_each(?)), low (n) AS (
  SELECT n FROM asked UNION
  SELECT hier.a FROM low CROSS JOIN hier ON hier.b = low.n
  WHERE low.n IN (SELECT n FROM asked) OR low.n IN (SELECT num FROM hidden))
SELECT n FROM low
"""
DIRECT = """
INSERT INTO public_hier SELECT a, b, typ FROM hier WHERE a IN (SELECT value FROM json_each(?))
AND a NOT IN (SELECT num FROM hidden) AND b NOT IN (SELECT num FROM hidden)
"""
LIFTED = f"""
WITH RECURSIVE up (a, b) AS (
  SELECT a, b FROM hier WHERE a IN (SELECT value FROM json_each(?))
  AND a NOT IN (SELECT num FROM hidden) AND b IN (SELECT num FROM hidden)
  UNION SELECT up.a, hier.b FROM up CROSS JOIN hier ON hier.a = up.b WHERE up.b IN (SELECT num FROM hidden))
INSERT INTO public_hier SELECT a, b, {TYPE_NUMBER["broader"]} FROM up WHERE b NOT IN (SELECT num FROM hidden)
AND NOT EXISTS (SELECT 1 FROM public_hier there WHERE there.a = up.a AND there.b = up.b)
"""


def show_to_public(rows: sqlite3.Connection) -> None:
    """Has a connection see what the public sees."""
    rows.executescript(VIEWS)


def build_public_view(rows: sqlite3.Connection) -> None:
    """Makes the tables of what the public sees of a new replica."""
    rows.executemany("INSERT INTO hidden VALUES (?)", [(it,) for it in concepts_to_hide(rows)])
    write_places(rows, [it for it, in rows.execute("SELECT DISTINCT a FROM hier").fetchall()])


def concepts_to_hide(rows: sqlite3.Connection) -> set[int]:
    """Returns the concepts that are to be hidden."""
    if not rows.execute("SELECT 1 FROM sqlite_schema WHERE name = 'value'").fetchone():
        return set()
    return {it[0] for it in rows.execute(OWNERS).fetchall()}


def update_public_view(rows: sqlite3.Connection, linked: Collection[int], owners: Iterable[int] | None = None) -> None:
    """Brings what the public sees up to what was changed: the concepts with other links to broader or narrower ones,
    and those whose statuses may be others; None: any."""
    known = None if owners is None else set(owners)
    asked = (
        concepts_to_hide(rows) ^ {it for it, in rows.execute("SELECT num FROM hidden").fetchall()}
        if known is None
        else known
    )
    changed = [it for it in asked if write_hidden(rows, it)]
    if changed or linked:
        write_places(rows, numbers_below(rows, {*linked, *changed}))
    if known != set():
        names = ("version", *PARTS) if changed else ("version", "statuses")
        rows.executemany("UPDATE replica SET value = value + 1 WHERE name = ?", [(it,) for it in names])


def write_hidden(rows: sqlite3.Connection, number: int) -> bool:
    """Hides a concept or shows it, by its status; reports whether that is new."""
    is_hidden = rows.execute(f"{OWNERS} AND owner = ?", (number,)).fetchone() is not None
    was_hidden = rows.execute("SELECT 1 FROM hidden WHERE num = ?", (number,)).fetchone() is not None
    if is_hidden and not was_hidden:
        rows.execute("INSERT INTO hidden VALUES (?)", (number,))
    elif was_hidden and not is_hidden:
        rows.execute("DELETE FROM hidden WHERE num = ?", (number,))
    return is_hidden != was_hidden


def numbers_below(rows: sqlite3.Connection, numbers: Iterable[int]) -> list[int]:
    """Returns concepts, and those whose broader ones depend on them."""
    return [it[0] for it in rows.execute(BELOW, (json.dumps(sorted(numbers)),)).fetchall()]


def write_places(rows: sqlite3.Connection, numbers: Iterable[int]) -> None:
    """Writes anew what concepts are below."""
    asked = (json.dumps(list(numbers)),)
    for statement in ("DELETE FROM public_hier WHERE a IN (SELECT value FROM json_each(?))", DIRECT, LIFTED):
        rows.execute(statement, asked)
