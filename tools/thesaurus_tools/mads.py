"""MADS/RDF, in which the Library of Congress writes authorities: read as SKOS, and made of it; its terms in reports."""
from __future__ import annotations

from collections import Counter, defaultdict
from collections.abc import Iterable, Iterator

from thesaurus_tools.ntriples import DCTERMS, OWL, RDF, SKOS, XSD, Iri, Literal, Node, Triple
from thesaurus_tools.skos_xl import label_iri

MADS = "http://www.loc.gov/mads/rdf/v1#"
RDFS_LABEL = "http://www.w3.org/2000/01/rdf-schema#label"
TYPE = Iri(RDF + "type")
# The properties that have one of SKOS each, whose object is the same.
PROPERTIES = {
    "authoritativeLabel": "prefLabel", "code": "notation",
    "scopeNote": "scopeNote", "definitionNote": "definition", "exampleNote": "example", "note": "note",
    "historyNote": "historyNote", "editorialNote": "editorialNote", "changeNote": "changeNote",
    "hasBroaderAuthority": "broader", "hasNarrowerAuthority": "narrower", "hasReciprocalAuthority": "related",
    "hasExactExternalAuthority": "exactMatch", "hasCloseExternalAuthority": "closeMatch",
    "hasBroaderExternalAuthority": "broadMatch", "hasNarrowerExternalAuthority": "narrowMatch",
    "hasReciprocalExternalAuthority": "relatedMatch",
    "isMemberOfMADSScheme": "inScheme", "hasTopMemberOfMADSScheme": "hasTopConcept",
    "isTopMemberOfMADSScheme": "topConceptOf", "hasMADSCollectionMember": "member",
}  # fmt: skip
SKOS_OF = {MADS + name: Iri(SKOS + plain) for name, plain in PROPERTIES.items()} | {
    MADS + "useInstead": Iri(DCTERMS + "isReplacedBy")
}
MADS_OF = {str(plain): Iri(name) for name, plain in SKOS_OF.items()}
# Labels that are resources: the property that leads to one, and that of SKOS for its text.
VARIANTS = {MADS + "hasVariant": Iri(SKOS + "altLabel"), MADS + "hasHiddenVariant": Iri(SKOS + "hiddenLabel")}
VARIANT_OF = {str(plain): Iri(name) for name, plain in VARIANTS.items()}
VARIANT_LABEL = MADS + "variantLabel"
CLASSES = {
    MADS + "Authority": "Concept",
    MADS + "DeprecatedAuthority": "Concept",
    MADS + "MADSScheme": "ConceptScheme",
    MADS + "MADSCollection": "Collection",
}
KINDS = {"Concept": "Authority", "ConceptScheme": "MADSScheme", "Collection": "MADSCollection"}
KIND_IRIS = {Iri(SKOS + it) for it in KINDS}
# Classes that say nothing more of a concept, or of a label that is a resource.
PLAIN = {MADS + "Topic", MADS + "Variant"}
DEPRECATED = Literal("true", "", XSD + "boolean")


def mads_name(iri: str) -> str:
    """Returns a class or property of MADS/RDF with its usual prefix, or "" for any other IRI."""
    return f"madsrdf:{iri.removeprefix(MADS)}" if iri.startswith(MADS) else ""


def count_mads_terms(triples: Iterable[Triple]) -> str:
    """Returns the properties and classes of MADS/RDF, each with the number of its triples; "" if there are none."""
    counts: Counter[str] = Counter()
    for _, predicate, node in triples:
        name = mads_name(predicate) or (mads_name(node) if predicate == RDF + "type" and isinstance(node, str) else "")
        counts.update([name] if name else [])
    return ", ".join(f"{name} {count}" for name, count in sorted(counts.items()))


# --- reading ---


def skos_of_mads(triples: set[Triple]) -> set[Triple]:
    """Returns the triples with those of SKOS in place of those of MADS/RDF that it has. What it has no word for stays,
    to be reported as lost."""
    if not any(it.predicate.startswith(MADS) for it in triples):
        return triples
    reader = MadsReader(triples)
    return {found for it in triples for found in reader.read(it)}


class MadsReader:
    """Reads triples of MADS/RDF one by one."""

    def __init__(self, triples: Iterable[Triple]) -> None:
        self.forms: dict[Node, list[Literal]] = defaultdict(list)
        self.labelled, self.ended, self.variants = set[Node](), set[Node](), set[Node]()
        for subject, predicate, node in triples:
            if predicate == VARIANT_LABEL and isinstance(node, Literal):
                self.forms[subject].append(node)
            elif predicate == MADS + "authoritativeLabel":
                self.labelled.add(subject)
            elif predicate in VARIANTS:
                self.variants.add(node)
            elif predicate == TYPE and node == MADS + "DeprecatedAuthority":
                self.ended.add(subject)

    def read(self, it: Triple) -> Iterator[Triple]:
        """Yields what a triple is in SKOS, or the triple itself."""
        subject, predicate, node = it
        if predicate in SKOS_OF:
            yield Triple(subject, SKOS_OF[predicate], node)
        elif predicate in VARIANTS and node in self.forms:
            yield from (Triple(subject, VARIANTS[predicate], form) for form in self.forms[node])
        elif predicate == TYPE and str(node) in CLASSES:
            yield Triple(subject, TYPE, Iri(SKOS + CLASSES[str(node)]))
            if node == MADS + "DeprecatedAuthority":
                yield Triple(subject, Iri(OWL + "deprecated"), DEPRECATED)
        elif predicate == TYPE and str(node) in PLAIN and subject in self.labelled | self.ended:
            # (authorities are sometimes only of the class of what they are about)
            yield Triple(subject, TYPE, Iri(SKOS + "Concept"))
        elif predicate == VARIANT_LABEL and subject in self.ended - self.labelled:
            # (the label of what isn't used any more is said to be a variant)
            yield Triple(subject, Iri(SKOS + "prefLabel"), node)
        elif not self.is_of_variant(it):
            yield it

    def is_of_variant(self, it: Triple) -> bool:
        """Whether a triple only says that a resource is a label, and what its text is."""
        is_said = it.predicate == VARIANT_LABEL or it.predicate == TYPE and str(it.object) in PLAIN
        return is_said and it.subject in self.variants


# --- writing ---


def mads_of_skos(triples: Iterable[Triple]) -> Iterator[Triple]:
    """Yields the triples with those of MADS/RDF in place of those of SKOS; what it has no word for stays as it is."""
    every = list(triples)
    ended = {it.subject for it in every if it.predicate == OWL + "deprecated"}
    kinds = {it.subject: it.object for it in every if it.predicate == TYPE and it.object in KIND_IRIS}
    for it in every:
        yield from written_triple(it, str(kinds.get(it.subject, "")).removeprefix(SKOS), it.subject in ended)


def written_triple(it: Triple, kind: str, is_ended: bool) -> Iterator[Triple]:
    """Yields what a triple of SKOS about a resource of a kind is in MADS/RDF."""
    subject, predicate, node = it
    if predicate == TYPE and str(node) == SKOS + kind:
        yield Triple(subject, TYPE, Iri(MADS + ("DeprecatedAuthority" if is_ended else KINDS[kind])))
        yield from [Triple(subject, TYPE, Iri(MADS + "Topic"))] if kind == "Concept" else []
    elif predicate in VARIANT_OF and isinstance(node, Literal):
        variant = label_iri(subject, node)
        yield Triple(subject, VARIANT_OF[predicate], variant)
        yield from (Triple(variant, TYPE, Iri(MADS + name)) for name in ("Variant", "Topic"))
        yield Triple(variant, Iri(VARIANT_LABEL), node)
    elif predicate == SKOS + "prefLabel" and kind != "Concept":
        yield Triple(subject, Iri(RDFS_LABEL), node)
    elif predicate in MADS_OF:
        yield Triple(subject, MADS_OF[predicate], node)
    elif predicate != OWL + "deprecated":
        yield it
