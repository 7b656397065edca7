"""Labels of SKOS-XL, which are resources of their own: read as those of SKOS, and made of them."""
from __future__ import annotations

import hashlib
from collections import defaultdict
from collections.abc import Iterable, Iterator

from thesaurus_tools.note_sources import SOURCE, note_sources, source_triples, statement_iri
from thesaurus_tools.ntriples import RDF, SKOS, Iri, Literal, Node, Triple

from thesaurus_tools.fields import source_node

XL = "http://www.w3.org/2008/05/skos-xl#"
LABELS = {XL + it: Iri(SKOS + it) for it in ("prefLabel", "altLabel", "hiddenLabel")}
FORM = XL + "literalForm"
XL_OF = {str(plain): Iri(name) for name, plain in LABELS.items()}
# How many bytes of a digest name a label.
DIGEST = 8


def label_texts(triples: Iterable[Triple]) -> dict[str, str]:
    """Returns the texts of labels that are resources."""
    return {
        str(it.subject): it.object.text for it in triples if it.predicate == FORM and isinstance(it.object, Literal)
    }


def plain_labels(triples: set[Triple]) -> set[Triple]:
    """Returns the triples with a label of SKOS for each one of SKOS-XL, as its conditions S55 to S57 entail.

    The labels' own forms and types are gone, and their sources are statements about labels of SKOS, as those of notes
    are. What else is said of a label stays, to be reported as lost."""
    forms: dict[Node, list[Literal]] = defaultdict(list)
    sources: dict[Node, list[Node]] = defaultdict(list)
    for subject, predicate, node in triples:
        if predicate == FORM and isinstance(node, Literal):
            forms[subject].append(node)
        elif predicate == SOURCE:
            sources[subject].append(node)
    if not forms:
        return triples
    kept = {
        it
        for it in triples
        if it.predicate != FORM
        and not (it.predicate == SOURCE and it.subject in forms)
        and not (it.predicate in LABELS and it.object in forms)
        and not (it.predicate == RDF + "type" and it.object == XL + "Label")
    }
    made = {
        Triple(subject, LABELS[predicate], form)
        for subject, predicate, node in triples
        if predicate in LABELS
        for form in forms.get(node, ())
    }
    said = {
        it
        for subject, predicate, node in triples
        if predicate in LABELS and node in forms
        for form in forms[node]
        for source in sources[node]
        for it in source_triples(Triple(Iri(subject), LABELS[predicate], form), source)
    }
    return kept | made | said


def label_iri(owner: str, it: Literal) -> Iri:
    """Returns the IRI of a label: of its owner, its language and its text alone, so that a preferred label that becomes
    an alternative one stays what it was."""
    digest = hashlib.blake2b(it.text.encode(), digest_size=DIGEST).hexdigest()
    return Iri(f"{owner}#label-{it.tag.lower() or 'und'}-{digest}")


def xl_labels(triples: Iterable[Triple]) -> Iterator[Triple]:
    """Yields triples with a label of SKOS-XL beside each one of SKOS: it has the source that a statement says."""
    known = list(triples)
    sources = {it: text for it, text in note_sources(known).items() if it.predicate in XL_OF}
    statements = {statement_iri(it) for it in sources}
    for it in known:
        if it.subject in statements:
            continue
        yield it
        if it.predicate in XL_OF and isinstance(it.object, Literal):
            label = label_iri(it.subject, it.object)
            yield Triple(it.subject, XL_OF[it.predicate], label)
            yield Triple(label, Iri(RDF + "type"), Iri(XL + "Label"))
            yield Triple(label, Iri(FORM), it.object)
            if it in sources:
                yield Triple(label, Iri(SOURCE), source_node(sources[it]))
