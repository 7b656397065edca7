"""Reads from the journal of a desk, as triples, what it knows beside the store: when resources were made and changed,
by whom they were made, and the values of fields, as definitions and notations."""
from __future__ import annotations

import json
import sqlite3
from collections import defaultdict
from collections.abc import Iterable, Iterator, Sequence
from pathlib import Path

from thesaurus_tools.arrays import triples_of_places
from thesaurus_tools.desk_values import has_table, open_journal, place_rows, public_values, rdf_fields, stated_dates
from thesaurus_tools.fields import TERM_SOURCE, time_node
from thesaurus_tools.public_values import PublicValue, term_source_triples, value_triples
from thesaurus_tools.ntriples import DCTERMS, Iri, Literal, Triple

# When a plan ended; of one that an earlier desk has written it is known only when it began.
ENDED_AT = "coalesce((SELECT ended.at FROM ended WHERE ended.plan = plan.id), plan.at)"
# Of each resource: the plan that first changed it, with its time and who asked for it; and the time of the last change.
CHANGES = """
SELECT number, id, {ended_at}, coalesce(proposer, user), last FROM plan JOIN (
  SELECT number, min(plan) AS earliest, max({ended_at}) AS last FROM plan JOIN concern ON plan = id
  WHERE changes = 1 AND state = 'done' AND number > 0 GROUP BY number) ON id = earliest ORDER BY number"""
STEPS = "SELECT plan, request, answer FROM step WHERE answer IS NOT NULL"


def journal_triples(journal: Path, base: str, export: Sequence[Triple]) -> list[Triple]:
    """Returns dct:created and dct:creator of what the desk made, dct:modified of what it changed, the public values of
    fields, and the places of collections, as far as the public sees what they name. What is older than the journal has
    no date."""
    with open_journal(journal) as tables:
        places = triples_of_places(place_rows(tables), export, base)
        return [*read_dates(tables, base), *read_values(tables, base, export), *places]


def read_dates(tables: sqlite3.Connection, base: str) -> Iterator[Triple]:
    """Yields the triples."""
    made = defaultdict(set)
    for plan, request, answer in tables.execute(STEPS):
        if json.loads(request).get("do") != "post":
            made[plan].add(json.loads(answer).get("ok"))
    ended_at = ENDED_AT if has_table(tables, "ended") else "plan.at"
    stated = stated_dates(tables, rdf_fields(tables))
    for number, plan, at, user, last in tables.execute(CHANGES.format(ended_at=ended_at)):
        subject, said = Iri(f"{base}{number}"), stated.get(number, {})
        its = {**({"created": at} if number in made[plan] else {}), "modified": last, **said}
        yield from (Triple(subject, Iri(DCTERMS + name), time_node(it)) for name, it in its.items())
        if number in made[plan] and "created" not in said:
            yield Triple(subject, Iri(DCTERMS + "creator"), Literal(user))


def read_values(tables: sqlite3.Connection, base: str, export: Iterable[Triple]) -> Iterator[Triple]:
    """Yields the triples of the values of fields that everybody may see, the sources of the terms of an export among
    them."""
    fields = rdf_fields(tables)
    of_terms: dict[str, list[PublicValue]] = defaultdict(list)
    for owner, name, tag, text, source in public_values(tables, fields):
        subject, value = Iri(f"{base}{owner}"), PublicValue(fields[name], tag, text, source)
        yield from value_triples(subject, value, base)
        if name == TERM_SOURCE:
            of_terms[subject].append(value)
    for it in export if of_terms else ():
        yield from term_source_triples(of_terms.get(it.subject, ()), [it])
