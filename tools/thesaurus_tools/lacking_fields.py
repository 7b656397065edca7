"""The fields that an office has made, as an export still shows them: by the properties of its values that no field
has."""
from __future__ import annotations

import re
from collections import defaultdict
from collections.abc import Collection, Iterable, Sequence

from thesaurus_tools.arrays import number_at
from thesaurus_tools.export_values import read_facts
from thesaurus_tools.fields import LONGEST_LINE, NAME, STANDARD, Field
from thesaurus_tools.kinds import CLASSES
from thesaurus_tools.ntriples import RDF, SKOS, XSD, Iri, Literal, Node, Triple

# The kinds of values by the datatypes that all of a property have.
BY_DATATYPE = {XSD + "decimal": "number", **dict.fromkeys((XSD + it for it in ("date", "gYear", "gYearMonth")), "date")}


def lacking_fields(triples: Sequence[Triple], base: str, properties: Collection[str]) -> list[Field]:
    """Returns a field for each property of an export that no field has, of a kind that takes all its values."""
    made = {it.property for it in read_facts(triples, base).fields.values()} - {*properties}
    nodes: dict[str, dict[int, list[Node]]] = defaultdict(lambda: defaultdict(list))
    kinds: dict[int, str] = {}
    for subject, predicate, node in triples:
        number = number_at(subject, base)
        if number is not None and predicate in made:
            nodes[predicate][number].append(node)
        elif number is not None and predicate == RDF + "type":
            kinds.setdefault(number, CLASSES.get(str(node).removeprefix(SKOS), ""))
    found: list[Field] = []
    for name in sorted(nodes):
        owners = {kinds.get(it, "") for it in nodes[name]}
        taken = {*STANDARD, *(it.name for it in found)}
        found.append(field_of(name, list(nodes[name].values()), owners, taken))
    return found


def field_of(name: str, values: Sequence[Sequence[Node]], owners: Collection[str], taken: Collection[str]) -> Field:
    """Returns a field for a property by the values that each resource has of it."""
    kind = kind_of([node for its in values for node in its])
    tag = "language" if kind == "text" else ""
    is_many = any(len({getattr(it, "tag", "") for it in its}) < len(its) for its in values)
    short = name_of(name, taken)
    its_owners = tuple(it for it in ("scheme", "concept", "collection") if it in owners)
    return Field(short, kind, its_owners, is_many, tag, property=name, names={"en": short}, is_own=True)


def kind_of(nodes: Sequence[Node]) -> str:
    """Returns a kind of values that nodes may be."""
    if all(isinstance(it, Iri) for it in nodes):
        return "link"
    literals = [it for it in nodes if isinstance(it, Literal)]
    kinds = {BY_DATATYPE.get(it.datatype, "") for it in literals}
    if len(kinds) == 1 and len(literals) == len(nodes) and (kind := kinds.pop()):
        return kind
    is_text = any(it.tag or "\n" in it.text or len(it.text) > LONGEST_LINE for it in literals)
    return "text" if is_text else "line"


def name_of(name: str, taken: Iterable[str]) -> str:
    """Returns a name for the field of a property: its last part, as names of fields are."""
    last = re.sub("[^A-Za-z0-9]", "", re.split("[#/]", name.rstrip("#/"))[-1])[:28]
    short = last[:1].lower() + last[1:]
    short = short if NAME.fullmatch(short) else "field"
    others = (f"{short}{place}" for place in range(2, 100))
    return short if short not in taken else next(it for it in others if it not in taken)
