"""A thesaurus as triples without the concepts that the public doesn't see, as a desk shows it: what is below one of
them is below the nearest ones that are seen."""
from __future__ import annotations

from collections import defaultdict
from collections.abc import Collection, Iterator, Sequence

from thesaurus_tools.ntriples import SKOS, Iri, Triple

BROADER, NARROWER = Iri(SKOS + "broader"), Iri(SKOS + "narrower")
IN_SCHEME, TOP_OF, HAS_TOP = (Iri(SKOS + it) for it in ("inScheme", "topConceptOf", "hasTopConcept"))


def public_triples(triples: Sequence[Triple], hidden: Collection[Iri]) -> list[Triple]:
    """Returns the triples of a thesaurus without some concepts, with the links that bridge their places."""
    if not hidden:
        return list(triples)
    seen = [it for it in triples if it.subject not in hidden and it.object not in hidden]
    there = set(seen)
    return [*seen, *(it for it in dict.fromkeys(bridges(triples, hidden)) if it not in there)]


def bridges(triples: Sequence[Triple], hidden: Collection[Iri]) -> Iterator[Triple]:
    """Yields what is said in place of the links to hidden concepts: links to the nearest that are seen above them, or
    that a concept is a top concept."""
    above: dict[Iri, list[Iri]] = defaultdict(list)
    scheme = {it.subject: it.object for it in triples if it.predicate == IN_SCHEME}
    for it in triples:
        if it.predicate == BROADER and isinstance(it.subject, Iri) and isinstance(it.object, Iri):
            above[it.subject].append(it.object)
    for low in [it for it in above if it not in hidden and any(one in hidden for one in above[it])]:
        highs = seen_above(low, above, hidden)
        for high in highs:
            yield Triple(low, BROADER, high)
            yield Triple(high, NARROWER, low)
        top = scheme.get(low)
        if not highs and isinstance(top, Iri):
            yield Triple(low, TOP_OF, top)
            yield Triple(top, HAS_TOP, low)


def seen_above(low: Iri, above: dict[Iri, list[Iri]], hidden: Collection[Iri]) -> list[Iri]:
    """Returns the nearest concepts above one that are seen."""
    found: dict[Iri, None] = {}
    waiting, met = [*above[low]], set[Iri]()
    while waiting:
        it = waiting.pop(0)
        if it not in hidden:
            found[it] = None
        elif it not in met:
            met.add(it)
            waiting += above.get(it, [])
    return list(found)
