"""Checks that an export keeps the integrity conditions of SKOS and those that the thesaurus adds.

It reads the triples alone, draws the conclusions of the SKOS Reference, and shares no code with the program. The rules:

  S9         nothing is both a concept and a concept scheme
  S13        no text is two of preferred, alternative and hidden label of one resource
  S14        no resource has two preferred labels in one language
  S27        no related concept is also above or below
  S37        no collection is a concept or a concept scheme
  S46        no exact match is a broader or related match
  cycle      no concept is above itself
  unique     no two concepts of a scheme that aren't deprecated have one preferred label
  preferred  each scheme, concept and collection has a preferred label

Example:
  thesaurus --db museum.db --existing export > museum.nt
  tools/check-skos museum.nt

It prints a line for each rule that is broken and each place, and the counts. The file is N-Triples; - is standard
input. Exit status: 0 all rules hold, 1 one is broken, or the file is not N-Triples, 2 usage, 3 the file can't be read.
"""
from __future__ import annotations

from collections import defaultdict
from collections.abc import Iterable, Iterator
from itertools import combinations
from pathlib import Path
from typing import NamedTuple

from thesaurus_tools.command_line import DONE, REFUSED, parser_of, run
from thesaurus_tools.files import write_output
from thesaurus_tools.ntriples import OWL, RDF, SKOS, Literal, Node, Triple, read_ntriples

LABELS = {SKOS + it: it for it in ("prefLabel", "altLabel", "hiddenLabel")}
# Sub-properties and inverses of broader, of related and of exactMatch, by S22 to S25, S41, S43 and S44; True where
# turned.
BROADER = {SKOS + "broader": False, SKOS + "broadMatch": False, SKOS + "narrower": True, SKOS + "narrowMatch": True}
BROAD_MATCH = {SKOS + "broadMatch": False, SKOS + "narrowMatch": True}
RELATED = {SKOS + "related", SKOS + "relatedMatch"}
RELATED_MATCH = {SKOS + "relatedMatch"}
EXACT_MATCH = {SKOS + "exactMatch"}
# The classes that a property shows its subject and its object to have (S4 to S8, S19, S20, S31), by their names in RDF.
CONCEPT, SCHEME, COLLECTION = (SKOS + it for it in ("Concept", "ConceptScheme", "Collection"))
JOINS_CONCEPTS = {
    *BROADER,
    *RELATED,
    *EXACT_MATCH,
    SKOS + "closeMatch",
    SKOS + "semanticRelation",
    SKOS + "mappingRelation",
}
DOMAINS = {
    **dict.fromkeys(JOINS_CONCEPTS, CONCEPT),
    SKOS + "topConceptOf": CONCEPT,
    SKOS + "hasTopConcept": SCHEME,
    SKOS + "member": COLLECTION,
}
RANGES = {
    **dict.fromkeys(JOINS_CONCEPTS, CONCEPT),
    SKOS + "inScheme": SCHEME,
    SKOS + "topConceptOf": SCHEME,
    SKOS + "hasTopConcept": CONCEPT,
}


class Finding(NamedTuple):
    """A rule that is broken, and where."""

    rule: str
    text: str


Pairs = dict[Node, set[Node]]


class Graph:
    """The triples by their properties."""

    def __init__(self, triples: Iterable[Triple]):
        self.pairs: dict[str, set[tuple[Node, Node]]] = defaultdict(set)
        for subject, predicate, target in triples:
            self.pairs[predicate].add((subject, target))

    def __len__(self) -> int:
        return sum(map(len, self.pairs.values()))

    def typed(self, kind: str) -> set[Node]:
        """Returns what is stated to have a class."""
        return {it for it, found in self.pairs[RDF + "type"] if found == kind}

    def entailed(self, kind: str) -> set[Node]:
        """Returns what has a class, by its type or by a property of its own or of another."""
        found = self.typed(kind)
        for name, domain in DOMAINS.items():
            found |= {it for it, _ in self.pairs[name]} if domain == kind else set()
        for name, range_ in RANGES.items():
            found |= {it for _, it in self.pairs[name]} if range_ == kind else set()
        return found

    def directed(self, properties: dict[str, bool]) -> Pairs:
        """Returns what each node leads to by these properties, each of which may be turned."""
        found: Pairs = defaultdict(set)
        for name, is_turned in properties.items():
            for a, b in self.pairs[name]:
                found[b if is_turned else a].add(a if is_turned else b)
        return found

    def texts(self, name: str) -> list[tuple[Node, Literal]]:
        """Returns the pairs of a property whose objects are literals."""
        return [(it, text) for it, text in self.pairs[name] if isinstance(text, Literal)]

    def symmetric(self, properties: set[str]) -> set[tuple[Node, Node]]:
        """Returns the pairs of these symmetric properties, each in one order."""
        return {(a, b) if str(a) <= str(b) else (b, a) for name in properties for a, b in self.pairs[name]}


def ntriple_of(node: Node) -> str:
    """Returns a node as N-Triples has it, without escapes."""
    return f'"{node.text}"@{node.tag}' if isinstance(node, Literal) else node if node.startswith("_:") else f"<{node}>"


# --- classes ---


def check_classes(graph: Graph) -> Iterator[Finding]:
    """Checks S9 and S37."""
    concepts, schemes, collections = (graph.entailed(it) for it in (CONCEPT, SCHEME, COLLECTION))
    for it in sorted(concepts & schemes, key=str):
        yield Finding("S9", f"{ntriple_of(it)} is a concept and a concept scheme")
    for it in sorted(collections & concepts, key=str):
        yield Finding("S37", f"{ntriple_of(it)} is a collection and a concept")
    for it in sorted(collections & schemes, key=str):
        yield Finding("S37", f"{ntriple_of(it)} is a collection and a concept scheme")


# --- labels ---


def check_owner_labels(graph: Graph) -> Iterator[Finding]:
    """Checks S13 and S14. Language tags are compared without regard to case."""
    for first, second in combinations(LABELS, 2):
        alike = [{(it, text.text, text.tag.lower()) for it, text in graph.texts(name)} for name in (first, second)]
        for owner, label, tag in sorted(alike[0] & alike[1]):
            both = f"{LABELS[first]} and {LABELS[second]}"
            yield Finding("S13", f"{ntriple_of(owner)} has {ntriple_of(Literal(label, tag))} as {both}")
    texts: dict[tuple[Node, str], set[str]] = defaultdict(set)
    for it, text in graph.texts(SKOS + "prefLabel"):
        texts[it, text.tag.lower()].add(text.text)
    for (owner, tag), found in sorted(texts.items()):
        if len(found) > 1:
            yield Finding(
                "S14", f"{ntriple_of(owner)} has {len(found)} preferred labels in {tag}: {', '.join(sorted(found))}"
            )


def check_preferred(graph: Graph) -> Iterator[Finding]:
    """Checks that preferred labels are there, and are unique in a scheme among concepts that aren't deprecated."""
    named = {it for it, _ in graph.pairs[SKOS + "prefLabel"]}
    for kind in (SCHEME, CONCEPT, COLLECTION):
        for it in sorted(graph.typed(kind) - named, key=str):
            yield Finding("preferred", f"{ntriple_of(it)} has no preferred label")
    dead = {
        it
        for it, value in graph.pairs[OWL + "deprecated"]
        if isinstance(value, Literal) and value.text in ("true", "1")
    }
    current, schemes = graph.typed(CONCEPT) - dead, graph.directed({SKOS + "inScheme": False})
    owners: dict[tuple[Node, str, str], set[Node]] = defaultdict(set)
    for it, text in graph.texts(SKOS + "prefLabel"):
        for scheme in schemes.get(it, ()) if it in current else ():
            owners[scheme, text.text, text.tag.lower()].add(it)
    for (scheme, label, tag), found in sorted(owners.items()):
        if len(found) > 1:
            yield Finding(
                "unique",
                (
                    f"{ntriple_of(Literal(label, tag))} in {ntriple_of(scheme)} is preferred for "
                    f"{', '.join(sorted(map(ntriple_of, found)))}"
                ),
            )


# --- links ---


def reach(pairs: Pairs, start: Node) -> set[Node]:
    """Returns what a chain of one or more steps leads to."""
    met, waiting = set(), [start]
    while waiting:
        for it in pairs.get(waiting.pop(), ()):
            if it not in met:
                met.add(it)
                waiting.append(it)
    return met


def without_ends(pairs: Pairs) -> set[Node]:
    """Returns the nodes that are left when those that lead nowhere are taken away again and again: those on cycles, and
    below them."""
    back: Pairs = defaultdict(set)
    left = {it: len(found) for it, found in pairs.items()}
    for a, found in pairs.items():
        for b in found:
            back[b].add(a)
    ends = [it for it in back if it not in left]
    while ends:
        for it in back.get(ends.pop(), ()):
            left[it] -= 1
            if not left[it]:
                del left[it]
                ends.append(it)
    return set(left)


def check_hierarchy(graph: Graph) -> Iterator[Finding]:
    """Checks that there are no cycles, and S27."""
    above = graph.directed(BROADER)
    for it in sorted(without_ends(above), key=str):
        if it in reach(above, it):
            yield Finding("cycle", f"{ntriple_of(it)} is above itself")
    memory: dict[Node, set[Node]] = {}
    for a, b in sorted(graph.symmetric(RELATED), key=str):
        for lower, upper in ((a, b), (b, a)):
            if lower not in memory:
                memory = {lower: reach(above, lower)}
            if upper in memory[lower]:
                yield Finding("S27", f"{ntriple_of(upper)} is related to {ntriple_of(lower)} and above it")


def exact_classes(graph: Graph) -> dict[Node, Node]:
    """Returns, for each node with an exact match, one node of its class."""
    parents: dict[Node, Node] = {}

    def find(node: Node) -> Node:
        while parents.setdefault(node, node) != node:
            parents[node] = parents[parents[node]]
            node = parents[node]
        return node

    for a, b in graph.symmetric(EXACT_MATCH):
        parents[find(a)] = find(b)
    return {it: find(it) for it in list(parents)}


def check_matches(graph: Graph) -> Iterator[Finding]:
    """Checks S46."""
    classes = exact_classes(graph)
    broad = {(a, b) for a, found in graph.directed(BROAD_MATCH).items() for b in found}
    for what, pairs in (("broader", broad), ("related", graph.symmetric(RELATED_MATCH))):
        for a, b in sorted(pairs, key=str):
            if a in classes and classes[a] == classes.get(b):
                yield Finding("S46", f"{ntriple_of(b)} is an exact match and a {what} match of {ntriple_of(a)}")


def check(graph: Graph) -> Iterator[Finding]:
    """Yields what is broken, rule by rule."""
    for rules in (check_classes, check_owner_labels, check_preferred, check_hierarchy, check_matches):
        yield from rules(graph)


def main() -> int:
    parser = parser_of("check-skos", __doc__)
    parser.add_argument("file", metavar="EXPORT", help="an export of the program")
    parser.add_argument("-o", "--output", type=Path, metavar="FILE", help="write to this file")
    given = parser.parse_args()
    graph = Graph(read_ntriples("/dev/stdin" if given.file == "-" else given.file))
    findings = list(check(graph))
    lines = [f"{given.file}: {it.rule}: {it.text}" for it in findings]
    kinds = {
        name: len(graph.typed(kind))
        for name, kind in (("schemes", SCHEME), ("concepts", CONCEPT), ("collections", COLLECTION))
    }
    found = ", ".join(f"{count} {name}" for name, count in kinds.items())
    lines.append(f"{given.file}: {len(graph)} triples, {found}, {len(findings)} broken")
    write_output("".join(f"{it}\n" for it in lines).encode(), given.output)
    return REFUSED if findings else DONE


def command() -> None:
    """Runs it, and ends with its exit status."""
    run("check-skos", main)
