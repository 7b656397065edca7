"""Finds what the lines of a script made whose answers no run has seen."""
from __future__ import annotations

import re
from collections import defaultdict
from collections.abc import Iterator

from thesaurus_tools.command_line import ToolError
from thesaurus_tools.journal import Journal
from thesaurus_tools.load_scripts import Line
from thesaurus_tools.program import Performer

# The class in an export of what a request makes.
CLASSES = {"scheme": "ConceptScheme", "concept": "Concept", "split": "Concept", "collection": "Collection"}


def number_in(iri: str, count: int) -> int:
    """Returns the number at the end of a resource's IRI."""
    digits = re.search(r"\d*$", iri)
    number = int(digits[0] or 0) if digits else 0
    if not 1 <= number <= count:
        raise ToolError(f"{iri} doesn't end with a number up to {count}: what an earlier run made can't be found")
    return number


def resources_since(export: bytes, least: int, count: int) -> tuple[dict[tuple, list[int]], dict[int, int]]:
    """Returns the resources with greater numbers than `least`, by class, scheme, tag and text, and the scheme of each
    resource."""
    from thesaurus_tools.ntriples import RDF, SKOS, Literal, parse_ntriples  # (few runs need it)

    classes: dict[int, str] = {}
    schemes: dict[int, int] = {}
    labels: dict[int, list[Literal]] = defaultdict(list)
    for subject, predicate, node in parse_ntriples(export, "export"):
        if isinstance(node, Literal):
            if predicate == SKOS + "prefLabel":
                labels[number_in(subject, count)].append(node)
        elif predicate == RDF + "type":
            classes[number_in(subject, count)] = node.removeprefix(SKOS)
        elif predicate == SKOS + "inScheme":
            schemes[number_in(subject, count)] = number_in(node, count)
    found: dict[tuple, list[int]] = defaultdict(list)
    for number in sorted(it for it in classes if it > least):
        for label in labels[number]:
            found[classes[number], schemes.get(number), label.tag, label.text].append(number)
    return found, schemes


def recover(
    target: Performer, journal: Journal, lines: list[Line], numbers: dict[str, int], count: int
) -> Iterator[tuple[Line, dict]]:
    """Finds what lines made whose answer no run has seen, and yields their answers. Those that made nothing are new
    again."""
    sent = [(line, line.entry) for line in lines if line.entry is not None]
    if not sent:
        return
    found, schemes = resources_since(target.export(), min(journal.entries[it].resources for _, it in sent), count)
    for line, entry in sent:
        request = line.resolved(numbers)
        scheme = schemes.get(request["source"]) if line.kind == "split" else request.get("scheme")
        made = found.get((CLASSES[line.kind], scheme, str(request.get("tag")).lower(), request.get("text")), [])
        made = [it for it in made if it > journal.entries[entry].resources]
        if made:
            answer = {"ok": made[0]}
            journal.note_answer(entry, answer)
            yield line, answer
