"""Prints a picture of a concept's surroundings as text for Graphviz, from an export.

Broader concepts are above; a solid line joins them to narrower ones, a dashed line joins related concepts, and a dotted
arrow leads to a mapping. The concept itself has a thick frame, a dead concept a grey one. Links between any two
concepts of the picture are drawn, and an ellipsis (...) shows that a concept has more links.

Example:
  thesaurus --db museum.db --existing export > museum.nt
  tools/picture museum.nt 5 --depth 2 --langs fr | dot -Tsvg > violins.svg

The types of broader links are not in an export. Exit status: 0 done, 1 refused, 2 usage, 3 a fault.
"""
from __future__ import annotations

from collections.abc import Iterator
from pathlib import Path

from thesaurus_tools.command_line import DONE, languages, parser_of, run
from thesaurus_tools.export_store import ExportStore, store_of_export
from thesaurus_tools.kinds import SYMMETRIC
from thesaurus_tools.files import write_output
from thesaurus_tools.ntriples import read_ntriples
from thesaurus_tools.store import End, Link, end_order, link_order

# What is written at the line of a mapping, by kind.
MATCHES = {
    "exact": "exact match",
    "close": "close match",
    "broad": "broad match",
    "narrow": "narrow match",
    "relMatch": "related match",
}
DRAWN = ("broader", "related", *MATCHES)


def quote(text: str) -> str:
    """Returns a text as Graphviz reads it between quotes, so that nothing in it is an escape."""
    return '"' + text.replace("\\", "\\\\").replace('"', '\\"') + '"'


def surroundings(store: ExportStore, number: int, depth: int) -> list[End]:
    """Returns what the concept leads to in this number of steps, the nearest first; no step leads on from another
    publisher's concept."""
    met: list[End] = [number]
    edge: list[End] = [number]
    for _ in range(depth):
        links = [
            link for it in edge if isinstance(it, int) for link in store.links_of.get(it, ()) if link.kind in DRAWN
        ]
        edge = sorted({end for link in links for end in (link.a, link.b)} - set(met), key=end_order)
        met += edge
    return met


def node_line(store: ExportStore, end: End, number: int, has_more: bool, langs: list[str]) -> str:
    """Returns the line of a concept, or of another publisher's concept."""
    label = store.term(end, langs) + (" ..." if has_more else "")
    if isinstance(end, str):
        return f"  {quote(end)} [label={quote(label)} shape=plain URL={quote(end)}]"
    look = " penwidth=2" if end == number else "" if store.resources[end].is_live else " color=gray fontcolor=gray"
    return f"  {quote(str(end))} [label={quote(label)}{look} URL={quote(f'{store.base}{end}')}]"


def link_line(link: Link) -> str:
    """Returns the line of a link: the broader concept first, which is drawn above."""
    a, b = (quote(str(it)) for it in link[1:])
    if link.kind == "broader":
        return f"  {b} -> {a} [dir=none]"
    if link.kind == "related":
        return f"  {a} -> {b} [dir=none style=dashed constraint=false]"
    heads = " dir=both" if link.kind in SYMMETRIC and isinstance(link.b, int) else ""
    return f"  {a} -> {b} [style=dotted label={quote(MATCHES[link.kind])}{heads}]"


def picture(store: ExportStore, number: int, depth: int, langs: list[str]) -> Iterator[str]:
    """Yields the lines of the picture."""
    ends = surroundings(store, number, depth)
    inside = set(ends)
    links = {link for it in ends if isinstance(it, int) for link in store.links_of.get(it, ()) if link.kind in DRAWN}
    cut = {it for link in links if not inside.issuperset(link[1:]) for it in link[1:]}
    yield "digraph thesaurus {"
    yield '  node [shape=box fontname="sans-serif"]; edge [fontname="sans-serif" fontsize=10]'
    for it in ends:
        yield node_line(store, it, number, it in cut, langs)
    for link in sorted(links, key=link_order):
        if inside.issuperset(link[1:]):
            yield link_line(link)
    yield "}"


def main() -> int:
    parser = parser_of("picture", __doc__)
    parser.add_argument("file", metavar="EXPORT", type=Path, help="an export of the program")
    parser.add_argument("number", metavar="N", type=int, help="the number of the concept")
    parser.add_argument(
        "--depth", metavar="D", type=int, default=1, help="how many steps from the concept (1 if left out)"
    )
    parser.add_argument(
        "--langs", metavar="TAG,..", type=languages, default=[], help="languages of terms, the first that a concept has"
    )
    parser.add_argument(
        "-o", "--output", type=Path, metavar="FILE", help="write to this file, and not to standard output"
    )
    given = parser.parse_args()
    if given.depth < 0:
        parser.error("--depth is 0 or more")
    store = store_of_export(str(given.file), read_ntriples(given.file))
    store.concept(given.number)
    lines = picture(store, given.number, given.depth, given.langs)
    write_output("".join(f"{it}\n" for it in lines).encode(), given.output)
    return DONE


def command() -> None:
    """Runs it, and ends with its exit status."""
    run("picture", main)
