"""What differs between two exports of a thesaurus, as its readers see it: new, renamed, moved, merged, out of use, and
changed in a field."""
from __future__ import annotations

from collections import defaultdict
from collections.abc import Container, Iterable, Iterator
from typing import Any, NamedTuple

from thesaurus_tools.arrays import list_owner
from thesaurus_tools.ntriples import DCTERMS, OWL, RDF, SKOS, Iri, Literal, Node, Triple, parse_ntriples
from thesaurus_tools.rdf_writer import ISO_THES, node_order

# The kinds of changes, in their order.
NEW, MERGED, ENDED, RETURNED, GONE, RENAMED, MOVED, CHANGED = (
    *("new", "merged", "ended", "returned", "gone", "renamed", "moved", "changed"),
)
KINDS = (NEW, MERGED, ENDED, RETURNED, GONE, RENAMED, MOVED, CHANGED)
# What only follows from something else that is stated, or says when it was so.
FOLLOWING = {
    *(SKOS + it for it in ("narrower", "topConceptOf", "hasTopConcept", "inScheme")),
    *(ISO_THES + it for it in ("subordinateArray", "superGroup", "subGroup")),
    *(ISO_THES + f"narrower{it}" for it in ("Generic", "Partitive", "Instantial")),
    *(DCTERMS + it for it in ("created", "modified", "issued")),
    *(OWL + it for it in ("versionInfo", "deprecated")),
    *(RDF + it for it in ("type", "first", "rest", "subject", "predicate", "object")),
    *(DCTERMS + it for it in ("isReplacedBy",)),
}
BROADER = {SKOS + "broader", *(ISO_THES + f"broader{it}" for it in ("Generic", "Partitive", "Instantial"))}
# The nodes of a resource, by its properties.
Properties = dict[str, list[Node]]


class Change(NamedTuple):
    """A change of a resource: its kind, the resource's IRI, the property that has changed, and what it had and has."""

    kind: str
    subject: str
    property: str = ""
    before: tuple[Node, ...] = ()
    after: tuple[Node, ...] = ()


def changes_of_lines(old: Iterable[str], new: Iterable[str]) -> Iterator[Change]:
    """Yields the changes between two exports, line by line: only what differs is parsed."""
    before = by_subject(old)
    after = by_subject(new if has_types(it for its in before.values() for it in its) else map(plain, new))
    for subject in dict.fromkeys((*after, *before)):
        one, other = before.get(subject), after.get(subject)
        if one != other:
            yield from changes_of(subject, properties_of(one or ()), properties_of(other or ()))


def has_types(lines: Iterable[str]) -> bool:
    """Whether an export has types of hierarchical links: those of earlier desks have none."""
    return any(f"<{ISO_THES}broader" in it for it in lines)


def plain(line: str) -> str:
    """Returns a line of an export; nothing for the type of a link."""
    return "" if f"<{ISO_THES}broader" in line or f"<{ISO_THES}narrower" in line else line


def without_types(found: Properties) -> Properties:
    """Returns the properties of a resource without the types of its links."""
    return {name: it for name, it in found.items() if not plain(f"<{name}>") == ""}


def by_subject(lines: Iterable[str]) -> dict[str, set[str]]:
    """Returns the lines of each resource; those of the list of its members are among them."""
    found: dict[str, set[str]] = defaultdict(set)
    for it in filter(None, lines):
        found[list_owner(it[1 : it.index(">")])].add(it.rstrip("\n"))
    return found


def properties_of_subjects(lines: Iterable[str], subjects: Container[str]) -> dict[str, Properties]:
    """Returns what lines of N-Triples state of some resources."""
    wanted = (it for it in lines if list_owner(it[1 : it.index(">")]) in subjects)
    return {subject: properties_of(found) for subject, found in by_subject(wanted).items()}


def properties_of(lines: Iterable[str]) -> Properties:
    """Returns what lines of N-Triples state of a resource."""
    return gather(parse_ntriples("\n".join(lines).encode(), "release"))


def gather(triples: Iterable[Triple]) -> Properties:
    """Returns what triples state of a resource, by properties; an order as one more property."""
    found: Properties = defaultdict(list)
    order = dict[int, Node]()
    for subject, predicate, target in triples:
        if predicate == RDF + "first":
            order[int(subject.rpartition("-")[2])] = target
        elif predicate != SKOS + "memberList":
            found[predicate].append(target)
    if order:
        found[SKOS + "memberList"] = [order[it] for it in sorted(order)]
    return found


def changes_of(subject: str, old: Properties, new: Properties) -> Iterator[Change]:
    """Yields the changes of a resource."""
    if not old or not new:
        yield Change(NEW if new else GONE, subject)
        return
    was_ended, is_ended = OWL + "deprecated" in old, OWL + "deprecated" in new
    if is_ended != was_ended:
        after = tuple(new.get(DCTERMS + "isReplacedBy", ()))
        yield Change(RETURNED if was_ended else MERGED if after else ENDED, subject, after=after)
    # (what has ended has no place and no links any more)
    skipped = FOLLOWING if is_ended == was_ended else {*FOLLOWING, *BROADER, SKOS + "related", SKOS + "memberList"}
    names = sorted({*old, *new} - skipped)
    pairs = [(name, sort_nodes(name, old.get(name, ())), sort_nodes(name, new.get(name, ()))) for name in names]
    for _, one, other in [it for it in pairs if it[0] in BROADER and it[1] != it[2]][-1:]:
        yield Change(MOVED, subject, SKOS + "broader", *without_same(one, other))
    for name, one, other in pairs:
        if name not in BROADER and one != other:
            kind = RENAMED if name == SKOS + "prefLabel" else CHANGED
            yield Change(kind, subject, name, *(without_same(one, other) if set(one) != set(other) else (one, other)))


def sort_nodes(name: str, nodes: Iterable[Node]) -> tuple[Node, ...]:
    """Returns the nodes of a property in an order that depends on nothing else; those of a list in its own."""
    return tuple(nodes if name == SKOS + "memberList" else sorted(nodes, key=node_order))


def without_same(old: Iterable[Node], new: Iterable[Node]) -> tuple[tuple[Node, ...], tuple[Node, ...]]:
    """Returns what only one of two has."""
    one, other = tuple(old), tuple(new)
    return tuple(it for it in one if it not in other), tuple(it for it in other if it not in one)


# --- as JSON ---


def written_changes(changes: Iterable[Change]) -> list[list[Any]]:
    """Returns changes as JSON has them: a text with its language and its datatype is a list, an IRI a text."""
    return [[it.kind, it.subject, it.property, *(list(map(written_node, nodes)) for nodes in it[3:])] for it in changes]


def written_node(node: Node) -> str | list[str]:
    return list(node) if isinstance(node, Literal) else str(node)


def read_changes(found: Iterable[list[Any]]) -> list[Change]:
    """Returns changes of JSON."""
    return [
        Change(kind, subject, name, *(tuple(map(read_node, nodes)) for nodes in (before, after)))
        for kind, subject, name, before, after in found
    ]


def read_node(node: str | list[str]) -> Node:
    return Literal(*node) if isinstance(node, list) else Iri(node)
