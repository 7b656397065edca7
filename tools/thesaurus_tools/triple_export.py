"""Gets the triples of a thesaurus: from an export, from a store that no program has open, or over HTTP."""
from __future__ import annotations

import tempfile
from collections import defaultdict, deque
from collections.abc import Callable, Iterable
from pathlib import Path

from thesaurus_tools.arrays import list_owner
from thesaurus_tools.command_line import REFUSED, ToolError
from thesaurus_tools.export_store import Properties, find_base
from thesaurus_tools.kinds import BROADER
from thesaurus_tools.mads import mads_of_skos
from thesaurus_tools.ntriples import SKOS, Iri, Triple, parse_ntriples, read_document
from thesaurus_tools.program import EXISTING, copy_closed, find_program, run_program
from thesaurus_tools.rdf_writer import ISO_THES
from thesaurus_tools.skos_xl import xl_labels
from thesaurus_tools.store_options import open_file, open_served

SQLITE = b"SQLite format 3\0"
# The words of RDF in which a thesaurus is written, beside those of SKOS.
WORDS: dict[str, Callable[[Iterable[Triple]], Iterable[Triple]]] = {"skos-xl": xl_labels, "madsrdf": mads_of_skos}
# The types of hierarchical links, with the words of ISO-THES for them at the narrower and the broader concept.
TYPES = {it: (ISO_THES + it, ISO_THES + it.replace("broader", "narrower")) for it in BROADER[1:]}


def export_of_store(path: Path, program: str | None) -> bytes:
    """Returns the export of a store, made from a copy, so that nothing is written beside it."""
    with tempfile.TemporaryDirectory() as folder:
        copy = Path(folder, "copy.db")
        copy_closed(path, copy)
        return run_program([find_program(program), "--db", str(copy), EXISTING, "export"])


def read_triples(path: Path, program: str | None = None) -> list[Triple]:
    """Returns the triples of an export, or of a store."""
    with open(path, "rb") as file:
        is_store = file.read(len(SQLITE)) == SQLITE
    return list(parse_ntriples(export_of_store(path, program) if is_store else read_document(path), str(path)))


def served_triples(url: str) -> list[Triple]:
    """Returns the triples of a thesaurus that is served."""
    from thesaurus_tools.server import Server  # (a tool starts faster without what talks HTTP)

    server = Server(url)
    try:
        return list(parse_ntriples(server.export(), f"{server.name}/export"))
    except ToolError as error:
        raise ToolError(str(error)) from None  # (what a server exports is no input that can be corrected)


def base_of(triples: Iterable[Triple]) -> str:
    """Returns what the IRIs of a thesaurus begin with."""
    properties: Properties = defaultdict(list)
    for subject, predicate, target in triples:
        properties[predicate].append((subject, target))
    return find_base(properties)


def type_triples(place: Path | str) -> list[Triple]:
    """Returns the types of the hierarchical links of a store, or of one that is served, in the words of ISO-THES."""
    with open_file(place) if isinstance(place, Path) else open_served(place) as store:
        links = [it for it in sorted(store.links, key=str) if it.kind in TYPES]
        iris = [(TYPES[it.kind], Iri(f"{store.base}{it.a}"), Iri(f"{store.base}{it.b}")) for it in links]
    return [it for (up, down), a, b in iris for it in (Triple(a, Iri(up), b), Triple(b, Iri(down), a))]


def choose_scheme(triples: list[Triple], base: str, scheme: int) -> list[Triple]:
    """Returns the triples about a scheme, and about what belongs to it. Raises ToolError if there is no such scheme."""
    iri = Iri(f"{base}{scheme}")
    chosen: set[str] = {it.subject for it in triples if it.predicate == SKOS + "inScheme" and it.object == iri} | {iri}
    if not any(it.subject == iri and it.object == SKOS + "ConceptScheme" for it in triples):
        raise ToolError(f"no scheme has the number {scheme}", REFUSED)
    return [it for it in triples if list_owner(it.subject) in chosen]


def choose_branch(triples: list[Triple], base: str, top: int) -> list[Triple]:
    """Returns the triples about a concept and all below it, arrays among it. Raises ToolError if there is no such
    concept."""
    below, chosen, waiting = defaultdict(list), {f"{base}{top}"}, deque([Iri(f"{base}{top}")])
    for it in triples:
        if it.predicate in (SKOS + "narrower", ISO_THES + "subordinateArray"):
            below[it.subject].append(it.object)
    if not any(it.subject in chosen and it.object == SKOS + "Concept" for it in triples):
        raise ToolError(f"no concept has the number {top}", REFUSED)
    while waiting:
        for other in below[waiting.popleft()]:
            if isinstance(other, Iri) and other not in chosen:
                chosen.add(other)
                waiting.append(other)
    return [it for it in triples if list_owner(it.subject) in chosen]


def check_same_base(then: str, now: str) -> None:
    """Raises ToolError unless two exports are of one thesaurus."""
    if then and then != now:
        raise ToolError(f"the IRIs of the older one begin with {then}, and not with {now}", REFUSED)
