"""What a web site has for other programs beside its pages: the RDF of each resource, and the list of the pages."""
from __future__ import annotations

from collections import defaultdict
from collections.abc import Iterable, Iterator, Sequence
from html import escape
from pathlib import Path

from thesaurus_tools.arrays import list_owner
from thesaurus_tools.ntriples import SKOS, Literal, Triple
from thesaurus_tools.rdf_writer import WRITERS
from thesaurus_tools.site_export import Resource, Thesaurus

FOLDER = "rdf"
# The most pages that a file of the list may have.
MOST_PAGES = 50_000
SITEMAPS = "http://www.sitemaps.org/schemas/sitemap/0.9"


def write_rdf(thesaurus: Thesaurus, out: Path) -> None:
    """Writes the triples of each resource as Turtle, without those that the site leaves out."""
    found: dict[str, list[Triple]] = defaultdict(list)
    for it in thesaurus.triples:
        found[list_owner(str(it.subject))].append(it)
    folder = out / FOLDER
    folder.mkdir()
    for iri, resource in thesaurus.resources.items():
        shown = [it for it in found[iri] if is_shown(resource, it)]
        base = iri.removesuffix(resource.page)
        (folder / f"{resource.page}.ttl").write_text("".join(WRITERS["turtle"](shown, base)), encoding="utf-8")


def is_shown(resource: Resource, triple: Triple) -> bool:
    """Whether a site has a triple: old codes and old addresses may be left out."""
    name = triple.predicate.removeprefix(SKOS)
    if name == "hiddenLabel" and isinstance(triple.object, Literal):
        return (triple.object.tag.lower(), triple.object.text) in resource.labels["hiddenLabel"]
    return name != "exactMatch" or triple.object in resource.links["exactMatch"]


def write_sitemaps(address: str, pages: Sequence[str], out: Path) -> None:
    """Writes the list of the pages for search engines: as one file, or as several with a list of these."""
    parts = [pages[at : at + MOST_PAGES] for at in range(0, len(pages), MOST_PAGES)]
    names = ["sitemap.xml"] if len(parts) == 1 else [f"sitemap-{number}.xml" for number, _ in enumerate(parts, 1)]
    for name, part in zip(names, parts):
        (out / name).write_text("".join(sitemap_lines("urlset", "url", address, part)), encoding="utf-8")
    if len(parts) > 1:
        text = "".join(sitemap_lines("sitemapindex", "sitemap", address, names))
        (out / "sitemap.xml").write_text(text, encoding="utf-8")
    (out / "robots.txt").write_text(f"Sitemap: {address}sitemap.xml\n", encoding="ascii")


def sitemap_lines(root: str, item: str, address: str, names: Iterable[str]) -> Iterator[str]:
    """Yields a list of addresses as XML."""
    yield f'<?xml version="1.0" encoding="utf-8"?>\n<{root} xmlns="{SITEMAPS}">\n'
    for it in names:
        yield f"<{item}><loc>{escape(address + it)}</loc></{item}>\n"
    yield f"</{root}>\n"
