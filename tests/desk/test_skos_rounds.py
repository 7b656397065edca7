"""SKOS in the ways of other programs comes in and goes out: what the file says is there again, but for what the report
names and for what is said in another way."""
from __future__ import annotations

from dataclasses import replace
from pathlib import Path

import pytest
from clients import Site
from conftest import ROOT
from rdflib import DCTERMS, OWL, RDF, RDFS, SKOS, XSD, Graph, Literal, Namespace, URIRef
from rdflib.term import BNode, Node
from thesaurus_desk.importing.vocabularies import SkosOptions, perform_script, read_skos

FOLDER = ROOT / "tests" / "office" / "skos_ways"
FORMS = {".ttl": "turtle", ".nt": "nt", ".rdf": "xml", ".jsonld": "json-ld"}
NAMES = sorted(it.name for it in FOLDER.iterdir() if it.suffix in FORMS)
XL, ISO = Namespace("http://www.w3.org/2008/05/skos-xl#"), Namespace("http://purl.org/iso25964/skos-thes#")
DC = Namespace("http://purl.org/dc/elements/1.1/")
TITLES = (RDFS.label, DCTERMS.title, DC.title)
LABELS = (SKOS.prefLabel, SKOS.altLabel, SKOS.hiddenLabel)
NOTES = (
    SKOS.note,
    SKOS.definition,
    SKOS.example,
    SKOS.historyNote,
    SKOS.editorialNote,
    SKOS.changeNote,
    SKOS.scopeNote,
)
# What a link says at its other end.
INVERSE = {
    SKOS.broader: SKOS.narrower,
    SKOS.topConceptOf: SKOS.hasTopConcept,
    ISO.superOrdinate: ISO.subordinateArray,
    ISO.superGroup: ISO.subGroup,
    **{it: it for it in (SKOS.related, SKOS.exactMatch, SKOS.closeMatch, SKOS.relatedMatch)},
}
INVERSE |= {other: it for it, other in INVERSE.items()}
# The properties that are others, of SKOS and of Dublin Core's terms, in a thesaurus.
OTHERWISE: dict[Node, URIRef] = {
    **{DC[it]: DCTERMS[it] for it in ("creator", "publisher", "description")},
    **{XL[it]: SKOS[it] for it in ("prefLabel", "altLabel", "hiddenLabel")},
    **{
        ISO[f"{it}{kind}"]: SKOS[it]
        for it in ("broader", "narrower")
        for kind in ("Generic", "Partitive", "Instantial")
    },
}
# What a thesaurus states of everything in it, whether a file does or not.
STATED = (RDF.type, SKOS.inScheme, SKOS.topConceptOf, SKOS.hasTopConcept, DCTERMS.created, DCTERMS.modified)
Triple = tuple[Node, Node, Node]


def same_text(node: Node) -> Node:
    """A text in the form in which a thesaurus has it: its language in lower case, or the one that was given."""
    if not isinstance(node, Literal) or node.datatype not in (None, RDF.langString):
        return node
    return Literal(str(node).strip(), (node.language or "en").lower())


def texts_of(graph: Graph, node: Node) -> set[Node]:
    """The texts of a label or a note, which may be a resource."""
    if isinstance(node, Literal):
        return {same_text(node)}
    return {same_text(it) for it in (*graph.objects(node, XL.literalForm), *graph.objects(node, RDF.value))}


def plain(graph: Graph) -> set[Triple]:
    """What a graph says with labels and notes as texts, and links at both ends, and without their types, which SKOS
    hasn't."""
    found: set[Triple] = set()
    for subject, name, node in graph:
        name = OTHERWISE.get(name, name)
        if name in (*LABELS, *NOTES):
            found |= {(subject, name, it) for it in texts_of(graph, node)}
        else:
            found.add((subject, name, node))
        if name in INVERSE:
            found.add((node, INVERSE[URIRef(name)], subject))
    return found


def written_out(site: Site, scheme: int | None, old: Graph) -> Graph:
    """What the desk writes of a thesaurus, with the addresses that its resources had in the file."""
    text = site.client("anna").get(f"/export.ttl?scheme={scheme}").text
    made = Graph().parse(data=text, format="turtle")
    names: dict[Node, Node] = {}
    for it in made.subjects(RDF.type, None):
        own = {same_text(text) for text in made.objects(it, SKOS.prefLabel)}
        for subject, name, node in old:
            if name in (*LABELS, *TITLES, XL.prefLabel) and name != SKOS.altLabel and own & texts_of(old, node):
                names[it] = subject
    found = Graph()
    for subject, name, node in made:
        found.add((names.get(subject, subject), name, names.get(node, node)))
    return found


def is_said_otherwise(triple: Triple, old: Graph, new: set[Triple]) -> bool:
    """Whether a statement of the file is there in another way: a title as a preferred term, a source of a note in a
    statement about it, an order in nodes with addresses, what is a resource only to have a text, what follows; and a
    date with its datatype."""
    subject, name, node = triple
    if isinstance(subject, BNode) or isinstance(node, BNode) or name in STATED[:4]:
        return True
    if name in TITLES and (subject, SKOS.prefLabel, same_text(node)) in new:
        return True
    if (subject, name, Literal(str(node), datatype=XSD.date)) in new:
        return True
    if texts_of(old, subject):
        sources = {it for _, other, it in new if other == DCTERMS.source}
        return name in (XL.literalForm, RDF.value) or name == DCTERMS.source and node in sources
    return name == OWL.deprecated or name in (SKOS.broaderTransitive, SKOS.narrowerTransitive, SKOS.memberList)


@pytest.mark.parametrize("name", NAMES)
def test_a_file_goes_out_as_it_came_in(site: Site, name: str) -> None:
    for field in ("editorialNote", "changeNote"):
        its = site.desk.values.fields()[field]
        site.desk.values.write_field(replace(its, is_public=True))
    data = (FOLDER / name).read_bytes()
    run = read_skos(site.desk, name, data, SkosOptions("en", scheme="All"))
    assert run.refused == [] and perform_script(site.desk, "anna", run).is_done
    old = Graph().parse(data=data, format=FORMS[Path(name).suffix])
    new = plain(written_out(site, run.scheme, old))
    reported = [(it.resource, it.what) for it, _ in run.report]

    def is_reported(triple: Triple) -> bool:
        short = str(triple[1]).rstrip("/#").replace("#", "/").rpartition("/")[2]
        words = ("class", "further scheme") if triple[1] == RDF.type else (short, "prefLabel")
        ends = {str(it) for it in (triple[0], triple[2], *old.subjects(None, triple[0]))}
        return any(address in ends and any(it in what for it in words) for address, what in reported)

    lost = [it for it in plain(old) - new if not is_said_otherwise(it, old, new) and not is_reported(it)]
    assert lost == [], lost
    made = [it for it in new - plain(old) if it[1] not in STATED and not str(it[0]).count("#source-")]
    assert not [it for it in made if it[1] not in (*LABELS, SKOS.member)], made
