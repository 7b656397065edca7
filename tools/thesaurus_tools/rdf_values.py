"""Reads from an export of a thesaurus, in any form of RDF, what it says of resources by some properties, and where its
collections are: in a process of its own, within limits of time and memory."""
from __future__ import annotations

import json
import os
import subprocess
import sys
from collections.abc import Iterable, Sequence
from dataclasses import asdict, dataclass
from pathlib import Path
from typing import Any, NamedTuple

from thesaurus_tools.arrays import number_at, number_places, places_of_triples
from thesaurus_tools.command_line import REFUSED, ToolError
from thesaurus_tools.fields import ORDER, SUPERORDINATE, WITHIN, Field
from thesaurus_tools.lacking_fields import lacking_fields
from thesaurus_tools.note_sources import note_sources
from thesaurus_tools.ntriples import Iri, Literal, Triple
from thesaurus_tools.public_values import OF_TERMS
from thesaurus_tools.rdf_files import read_triples

# How many seconds a file may take by the clock.
LONGEST = 120
TOO_LONG = f"it takes more than {LONGEST} seconds"


class Statement(NamedTuple):
    """What a resource has of a property: a text with its language or its datatype, or an IRI; and its source."""

    number: int
    property: str
    text: str
    tag: str = ""
    datatype: str = ""
    source: str = ""


class Place(NamedTuple):
    """Where a collection is, or what is in order in it: a field of such, with the numbers of resources."""

    number: int
    field: str
    targets: list[int]


@dataclass(frozen=True)
class ExportValues:
    """What an export says of the resources of a store by some properties, the places of its collections, and fields for
    the properties of an office that it has besides."""

    statements: list[Statement]
    places: list[Place]
    lacking: list[Field]


def read_statements(path: Path, base: str, properties: Iterable[str]) -> ExportValues:
    """Reads an export, of which some properties are known. Raises ToolError."""
    words = [sys.executable, "-P", "-m", __name__, str(path), base, *properties]
    places = [str(Path(__file__).parents[1]), os.environ.get("PYTHONPATH", "")]
    environment = {**os.environ, "PYTHONPATH": os.pathsep.join(filter(None, places))}
    try:
        ran = subprocess.run(words, capture_output=True, timeout=LONGEST, check=False, env=environment)
    except subprocess.TimeoutExpired:
        raise ToolError(TOO_LONG, REFUSED) from None
    said = ran.stderr.decode(errors="replace").strip()
    if ran.returncode:
        raise ToolError(said.splitlines()[-1] if said else f"{path.name} wasn't read", REFUSED)
    statements, places, lacking = json.loads(ran.stdout)
    fields: list[dict[str, Any]] = [{**it, "owners": tuple(it["owners"]), "choices": ()} for it in lacking]
    return ExportValues(
        [Statement(*it) for it in statements], [Place(*it) for it in places], [Field(**it) for it in fields]
    )


def statements_in(triples: Sequence[Triple], base: str, properties: Iterable[str]) -> list[Statement]:
    """Returns what triples say of resources by some properties; of terms only those that have sources."""
    wanted, sources, found = set(properties), note_sources(triples), []
    for it in triples:
        number, target = number_at(it.subject, base), it.object
        is_wanted = it.predicate in wanted and (it.predicate not in OF_TERMS or it in sources)
        if number and is_wanted and isinstance(target, Literal | Iri):
            more = (target.tag, target.datatype) if isinstance(target, Literal) else ("", "")
            text = getattr(target, "text", str(target))
            found.append(Statement(number, it.predicate, text, *more, sources.get(it, "")))
    return sorted(found)


def places_in(triples: Sequence[Triple], base: str) -> list[Place]:
    """Returns where the collections of triples are, and what is in order in them."""
    its = number_places(places_of_triples(triples), base)
    single = ((SUPERORDINATE, its.named), (WITHIN, its.outer))
    found = [Place(number, field, [target]) for field, targets in single for number, target in targets.items()]
    return sorted([*found, *(Place(number, ORDER, [*order]) for number, order in its.orders.items() if order)])


def read_all(path: str, base: str, *properties: str) -> tuple[list[Statement], list[Place], list[dict[str, Any]]]:
    """Reads the file. Raises ToolError."""
    triples = list(read_triples(Path(path), ""))
    lacking = [asdict(it) for it in lacking_fields(triples, base, properties)]
    return statements_in(triples, base, properties), places_in(triples, base), lacking


if __name__ == "__main__":
    try:
        json.dump(read_all(*sys.argv[1:]), sys.stdout)
    except ToolError as error:
        sys.exit(str(error))
