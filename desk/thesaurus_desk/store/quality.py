"""Gaps, shapes of the hierarchy, and doubtful links, as queries over the replica."""
from __future__ import annotations

import re
from collections import Counter

from thesaurus_desk.store.model import Link
from thesaurus_desk.store.replica import Replica
from thesaurus_desk.store.schema import LINK_NUMBER
from thesaurus_tools.fields import TERM_SOURCE
from thesaurus_tools.kinds import BROADER, MAPPINGS

# How many levels there may be above a concept, and how many narrower ones it may have, before it is listed.
MOST_LEVELS, MOST_NARROWER = 8, 50
# The live concepts, of a scheme if one is named by ?1.
LIVE = "resource r WHERE r.kind = 2 AND r.live = 1 AND (?1 IS NULL OR r.scheme = ?1)"
IS_MAPPING = f"kind IN ({', '.join(str(LINK_NUMBER[it]) for it in MAPPINGS)})"
RELATED, EXACT = LINK_NUMBER["related"], LINK_NUMBER["exact"]

UNDEFINED = f"""
SELECT r.num FROM {LIVE}
AND NOT EXISTS (SELECT 1 FROM label WHERE owner = r.num AND kind = 4)
AND NOT EXISTS (SELECT 1 FROM value WHERE owner = r.num AND field = 'definition')
"""
SINGLE_CHILD = f"""
SELECT r.num FROM (SELECT b FROM hier GROUP BY b HAVING min(a) = max(a)) CROSS JOIN {LIVE} AND r.num = b
"""
UNMAPPED = f"""
SELECT r.num FROM {LIVE}
AND NOT EXISTS (SELECT 1 FROM link WHERE a = r.num AND {IS_MAPPING})
AND NOT EXISTS (SELECT 1 FROM link WHERE b = r.num AND {IS_MAPPING})
"""
# (a level is counted no further than it matters)
DEEP = f"""
WITH RECURSIVE at (n, level) AS (
  SELECT DISTINCT b, 0 FROM hier WHERE NOT EXISTS (SELECT 1 FROM hier up WHERE up.a = hier.b)
  UNION SELECT hier.a, min(level + 1, ?2 + 1) FROM at CROSS JOIN hier ON hier.b = at.n)
SELECT r.num FROM (SELECT DISTINCT n FROM at WHERE level > ?2) CROSS JOIN {LIVE} AND r.num = n
"""
WIDE = f"""
SELECT r.num FROM (SELECT b FROM hier GROUP BY b HAVING count(DISTINCT a) > ?2) CROSS JOIN {LIVE} AND r.num = b
"""
# What has ended without a successor, and had records: their postings are withdrawn, or were moved away.
DEAD_ENDS = """
SELECT r.num FROM resource r WHERE r.kind = 2 AND r.live = 0 AND r.replaced IS NULL AND (?1 IS NULL OR r.scheme = ?1)
AND (EXISTS (SELECT 1 FROM posting WHERE at = r.num AND withdrawn = 1)
OR EXISTS (SELECT 1 FROM move WHERE source = r.num))
"""
# What has a source of a term that it hasn't any more: another program has renamed or removed the term.
LOST_SOURCES = f"""
SELECT DISTINCT r.num FROM value JOIN {LIVE} AND r.num = value.owner AND value.field = '{TERM_SOURCE}'
AND NOT EXISTS (SELECT 1 FROM label WHERE owner = r.num AND kind < 4 AND tag = value.tag AND text = value.text)
"""
RELATED_SIBLINGS = f"""
SELECT k.a, k.b FROM link k CROSS JOIN resource r ON r.num = k.a
WHERE k.kind = {RELATED} AND (?1 IS NULL OR r.scheme = ?1)
AND EXISTS (SELECT 1 FROM hier one JOIN hier two ON two.a = k.b AND two.b = one.b WHERE one.a = k.a)
"""
# The broader concepts of one that has several, and all that are above those.
REDUNDANT = """
WITH RECURSIVE low (n) AS (SELECT a FROM hier GROUP BY a HAVING min(b) < max(b)), up (n, high) AS (
  SELECT low.n, above.b FROM low CROSS JOIN hier ON hier.a = low.n CROSS JOIN hier above ON above.a = hier.b
  UNION SELECT up.n, hier.b FROM up CROSS JOIN hier ON hier.a = up.high)
SELECT hier.a, hier.b, hier.typ FROM up CROSS JOIN hier ON hier.a = up.n AND hier.b = up.high
CROSS JOIN resource r ON r.num = hier.a WHERE ?1 IS NULL OR r.scheme = ?1
"""
# Exact mappings as seen from each concept that is theirs, with its scheme, and the scheme or the address of the other.
EXACTLY = f"""
WITH seen (me, other, a, b) AS (
  SELECT a, b, a, b FROM link WHERE kind = {EXACT} UNION SELECT b, a, a, b FROM link WHERE kind = {EXACT})
SELECT me, other, r.scheme, coalesce(its.scheme, outside.iri), a, b FROM seen
CROSS JOIN resource r ON r.num = me AND r.kind = 2 LEFT JOIN resource its ON its.num = other
LEFT JOIN outside ON outside.num = other ORDER BY me, other
"""
# What the address of a concept elsewhere has of its own, behind what all of its vocabulary have.
OWN_PART = re.compile(r"[^/#:]*$")


def related_siblings(store: Replica, scheme: int | None) -> list[Link]:
    """Returns the related links between concepts below the same one."""
    return [Link("related", *row) for row in store.all(RELATED_SIBLINGS, scheme)]


def redundant(store: Replica, scheme: int | None) -> list[Link]:
    """Returns the links to a broader concept that is above another broader one, too."""
    return [Link(BROADER[typ], a, b) for a, b, typ in store.all(REDUNDANT, scheme)]


def mapped_twice(store: Replica, scheme: int | None) -> list[Link]:
    """Returns the exact mappings of a concept that has several to one vocabulary, or to which several of one scheme
    are mapped."""
    rows = [
        (me, other, its, OWN_PART.sub("", there) if isinstance(there, str) else there, Link("exact", a, b))
        for me, other, its, there, a, b in store.all(EXACTLY)
    ]
    from_one = Counter((me, there) for me, _, _, there, _ in rows)
    to_one = Counter((other, its) for _, other, its, _, _ in rows)
    return list(
        {
            link: None
            for me, other, its, there, link in rows
            if scheme in (None, its) and (from_one[me, there] > 1 or to_one[other, its] > 1)
        }
    )
