"""Makes a static web site of a thesaurus from its export.

Each language has an edition of its own: a page for each concept, dead or alive, and for each alternative label; A to Z
with a search; a tree that opens; the collections; and an edition to print, split by letter. The pages need no server,
and reading needs no script. Beside each page is its RDF, as Turtle. With the address at which the site will be, pages
name their own, and there is a list of them for search engines (sitemap.xml). SKOS has no types of broader terms: --db,
--desk or --http reads them in the store that was exported. An export of a desk has definitions, notes and notations;
--journal adds these to one of the program, and the office's own fields. Concepts elsewhere to which others are mapped
have the names that the desk of --desk or --journal knows. Old codes and old addresses of concepts are for
catalogues, and not on the pages unless options ask for them.

Example:
  thesaurus --db museum.db --existing export > museum.nt
  tools/site museum.nt public --langs en,de,fr --db museum.db

A folder that this tool made is replaced as a whole; any other one that holds something is refused.
Exit status: 0 done, 1 the export or the folder is refused, 2 usage, 3 a fault.
"""
from __future__ import annotations

import argparse
import os
import re
import shutil
import tempfile
from collections.abc import Callable
from functools import partial
from html import escape
from pathlib import Path

from thesaurus_tools.command_line import (
    DONE,
    REFUSED,
    ToolError,
    language,
    languages,
    parser_of,
    run,
    say,
    without_password,
)
from thesaurus_tools.desk_values import add_values
from thesaurus_tools.store_options import add_journal_argument, open_named
from thesaurus_tools.site_export import Thesaurus, broader_links, read_thesaurus, read_types
from thesaurus_tools.site_pages import Edition
from thesaurus_tools.site_rdf import write_rdf, write_sitemaps
from thesaurus_tools.site_terms import FILES, words_of

MARK = ".made-by-thesaurus-site"
# The tag of hidden labels that are old codes.
CODES = "zxx"


def write_edition(thesaurus: Thesaurus, given: argparse.Namespace, out: Path, lang: str) -> tuple[str, int]:
    """Writes the pages of a language. Returns its title, and the number of pages."""
    edition = Edition(thesaurus, lang, given.langs, given.title, out / lang, given.address or "")
    return edition.title, edition.write_all()


def all_at_once(write: Callable[[str], tuple[str, int]], langs: list[str]) -> list[tuple[str, int]]:
    """Writes the languages, at the same time where the system can do that."""
    if len(langs) == 1 or not hasattr(os, "fork"):
        return list(map(write, langs))
    from multiprocessing import get_context  # (Windows has no fork)

    with get_context("fork").Pool(min(len(langs), len(os.sched_getaffinity(0)))) as pool:
        return pool.map(write, langs, chunksize=1)


def write_site(thesaurus: Thesaurus, given: argparse.Namespace, out: Path) -> int:
    """Writes the site to an empty folder, the languages at the same time, and returns the number of pages."""
    langs = given.langs
    for name in ("style.css", "site.js"):
        shutil.copyfile(FILES / name, out / name)
    editions = all_at_once(partial(write_edition, thesaurus, given, out), langs)
    write_rdf(thesaurus, out)

    def line(lang: str, title: str) -> str:
        return (
            f'<li lang="{lang}"><a href="{lang}/index.html">{escape(title)}</a> '
            f'<small>{words_of(lang)["language"]}</small></li>'
        )

    items = "".join(line(lang, title) for lang, (title, _) in zip(langs, editions))
    start = (
        (FILES / "start.html")
        .read_text(encoding="utf-8")
        .format(lang=langs[0], title=escape(editions[0][0]), items=items)
    )
    (out / "index.html").write_text(start, encoding="utf-8")
    if given.address:
        names = ["index", "tree", *(["collections"] if thesaurus.of_kind("Collection") else [])]
        names += [it.page for it in thesaurus.resources.values() if it.kind != "ConceptScheme"]
        write_sitemaps(given.address, [f"{lang}/{it}.html" for lang in langs for it in names], out)
    (out / MARK).touch()
    return 1 + sum(count for _, count in editions)


def put_in_place(new: Path, out: Path) -> None:
    """Gives a folder the name of an older one, which is removed."""
    if not out.exists():
        new.rename(out)
        return
    older = Path(tempfile.mkdtemp(prefix=f".{out.name}-", dir=out.parent))
    out.rename(older / out.name)
    new.rename(out)
    shutil.rmtree(older)


def check_types(given: argparse.Namespace, thesaurus: Thesaurus, links: set[tuple[str, str]]) -> None:
    """Reports how the links of the store differ from the exported ones: then types may be lacking or wrong."""
    exported = {(it.iri, above) for it in thesaurus.of_kind("Concept") for above in it.links.get("broader", ())}
    if links != exported:
        place = given.store or given.desk or without_password(given.http)
        say(
            "site",
            f"{place} isn't as it was exported: {len(exported - links)} broader links of {given.export} aren't in it, "
            f"and {len(links - exported)} others are; export it again",
        )


def choose_types(given: argparse.Namespace, thesaurus: Thesaurus) -> None:
    """Reads the types of broader links from the store that the options name."""
    with open_named(given.store, given.desk, given.http, has_values=True) as store:
        if given.journal:
            add_values(store, given.journal)
        thesaurus.types = read_types(store)
        # (processes that write pages are sent it)
        thesaurus.names_elsewhere = dict(store.names_elsewhere)
        check_types(given, thesaurus, broader_links(store))


def leave_out(given: argparse.Namespace, thesaurus: Thesaurus) -> None:
    """Takes away what isn't for the public unless the options ask for it: old codes, and old addresses."""
    thesaurus.codes = given.codes or ""
    codes = thesaurus.take_codes(CODES) if given.codes != CODES else 0
    starts = {} if given.old_iris else thesaurus.take_old_iris()
    for start, count in sorted(starts.items()):
        say("site", f"{count} exact matches that begin with {start} are old addresses, and left out without --old-iris")
    if codes:
        say("site", f"{codes} old codes (hidden labels in {CODES}) are left out; or give --hidden-codes {CODES}")


def make_site(given: argparse.Namespace) -> int:
    """Makes the site beside the folder that is asked for, and puts it there once it is whole. Returns the number of
    pages."""
    out = given.out.resolve()
    if out.exists() and not (out.is_dir() and ((out / MARK).exists() or not any(out.iterdir()))):
        raise ToolError(f"{given.out}: there is something else than a site of this tool, so it isn't replaced", REFUSED)
    thesaurus = read_thesaurus(given.export, given.journal)
    if given.store or given.desk or given.http:
        choose_types(given, thesaurus)
    if given.journal:
        thesaurus.take_values(given.journal)
    leave_out(given, thesaurus)
    there = {tag for it in thesaurus.of_kind("Concept") for tag, _ in it.labels["prefLabel"]}
    for lang in given.langs:
        if not any(tag == lang or tag.startswith(f"{lang}-") for tag in there):
            raise ToolError(
                f"{given.export}: no concept has a preferred label in {lang}; there are: {', '.join(sorted(there))}",
                REFUSED,
            )
    new = Path(tempfile.mkdtemp(prefix=f".{out.name}-", dir=out.parent))
    try:
        pages = write_site(thesaurus, given, new)
        new.chmod(0o755)
        put_in_place(new, out)
    finally:
        shutil.rmtree(new, ignore_errors=True)
    return pages


def site_address(text: str) -> str:
    """Returns the address of a site in an argument, with a slash at its end."""
    if not re.fullmatch(r"https?://[^\s\"'<>?#]+", text):
        raise argparse.ArgumentTypeError(f"not the address of a site: {text!r}")
    return text.rstrip("/") + "/"


def main() -> int:
    parser = parser_of("site", __doc__)
    parser.add_argument("export", type=Path, metavar="EXPORT", help="what `thesaurus export` printed: N-Triples")
    parser.add_argument("out", type=Path, metavar="OUT", help="the folder to make, or to replace if this tool made it")
    parser.add_argument(
        "--langs",
        type=languages,
        required=True,
        metavar="TAGS",
        help=(
            "the languages, as fr,de,en; each is an edition, and the order in which a name that lacks is "
            "taken from another language"
        ),
    )
    parser.add_argument(
        "--db",
        "--store",
        dest="store",
        type=Path,
        metavar="FILE",
        help="the store that was exported, or a copy: for the types of broader terms",
    )
    parser.add_argument("--desk", type=Path, metavar="FILE", help="the store of a desk that runs, in place of --db")
    parser.add_argument("--http", metavar="URL", help="a program that serves the store, in place of --db")
    add_journal_argument(parser)
    parser.add_argument(
        "--hidden-codes",
        dest="codes",
        metavar="TAG",
        type=language,
        help="have the search find the old codes, which are hidden labels in TAG, such as zxx",
    )
    parser.add_argument("--old-iris", action="store_true", help="show the exact matches to old addresses, too")
    parser.add_argument(
        "--title", default="", metavar="TEXT", help="the name of the site; that of the scheme if left out"
    )
    parser.add_argument("--address", type=site_address, metavar="URL", help="where the site will be")
    given = parser.parse_args()
    if sum(map(bool, (given.store, given.desk, given.http))) > 1:
        parser.error("one of --db, --desk and --http, and not several")
    print(f"{make_site(given)} pages in {given.out}")
    return DONE


def command() -> None:
    """Runs it, and ends with its exit status."""
    run("site", main)
