"""Keeps a triple store equal to a thesaurus, so that readers may ask it by SPARQL: whole at first, then by differences.

It reads the thesaurus from a program that serves it, a desk, or a file of N-Triples, and writes to a store that knows
SPARQL 1.1 Update, such as Virtuoso, Fuseki or GraphDB. After each update it compares the number of triples, and what
the store says of each resource that has changed; without a change what it says of all resources, with --every of some
more each time. If they differ, all triples are put anew: in a graph beside (its name ends with -new), which takes the
place of the other one by one update, so readers see all triples at each moment. What was fed is kept in a file, so that
a run goes on where the last one ended; if either end was down, the next run puts it right.

  tools/feed --http http://127.0.0.1:8080 --query http://127.0.0.1:8890/sparql \\
    --update http://127.0.0.1:8890/sparql-auth --user dba --password-file virtuoso.password \\
    --graph https://museum.example/id/ --state museum.fed --every 10

Exit status: 0 the store is equal, 1 refused, 2 usage, 3 a fault: run it again. With --every it runs until it is
stopped, and reports faults."""
from __future__ import annotations

import argparse
import time
from pathlib import Path
from urllib.parse import urlsplit

from thesaurus_tools.command_line import DONE, USAGE, ToolError, parser_of, run, say
from thesaurus_tools.triple_feed import FeedResult, Feed
from thesaurus_tools.files import read_file
from thesaurus_tools.server import Server
from thesaurus_tools.triple_store import TripleStore

TOOL = "feed"
# How many resources are compared each time that nothing has changed.
COMPARED = 200


def arguments() -> argparse.Namespace:
    parser = parser_of(TOOL, __doc__)
    add = parser.add_argument
    add("export", type=Path, nargs="?", metavar="EXPORT", help="a file of N-Triples")
    add("--http", metavar="URL", help="a program that serves, as http://127.0.0.1:8080")
    add("--url", metavar="URL", help="another address of N-Triples, as a desk's /export.nt")
    add("--query", required=True, metavar="URL", help="where the triple store takes queries")
    add("--update", required=True, metavar="URL", help="where it takes updates")
    add("--graph-store", default="", metavar="URL", help="where it takes many triples (Graph Store HTTP Protocol)")
    add("--graph", required=True, metavar="IRI", help="the graph that this tool alone writes")
    add("--state", type=Path, required=True, metavar="FILE", help="what was fed, so that a later run goes on")
    add("--user", default="", help="the user of the triple store")
    add("--password-file", type=Path, metavar="FILE", help="a file with the user's password")
    add("--every", type=float, default=0, metavar="SECONDS", help="feed again and again, until it is stopped")
    given = parser.parse_args()
    if sum(map(bool, (given.export, given.http, given.url))) != 1:
        parser.error("one of EXPORT, --http and --url is needed")
    if bool(given.user) != bool(given.password_file):
        parser.error("--user and --password-file go together")
    return given


def read_export(given: argparse.Namespace) -> bytes:
    """Returns the triples of the thesaurus."""
    if given.export:
        lines = {it for it in read_file(given.export).splitlines() if it.strip() and not it.lstrip().startswith(b"#")}
        return b"\n".join(sorted(lines))
    if given.http:
        return Server(given.http).export()
    return Server(given.url).call("GET", f"?{query}" if (query := urlsplit(given.url).query) else "")


def result_text(fed: FeedResult) -> str:
    """Says what was done."""
    if fed.is_whole:
        return f"all {fed.added} triples were put"
    return f"{fed.removed} triples removed, {fed.added} added" if fed.removed or fed.added else "nothing has changed"


def main() -> int:
    given = arguments()
    password = given.password_file.read_text(encoding="utf-8").strip() if given.password_file else ""
    if any(it in given.graph for it in '<>"{}|^`\\ '):
        raise ToolError(f"{given.graph}: no IRI", USAGE)
    store = TripleStore(given.query, given.update, given.graph, given.graph_store, given.user, password)
    feed = Feed(store, given.state, lambda text: say(TOOL, text), COMPARED if given.every else 0)
    if not given.every:
        say(TOOL, result_text(feed.feed(read_export(given))))
        return DONE
    while True:
        try:
            fed = feed.feed(read_export(given))
            if fed.removed or fed.added:
                say(TOOL, result_text(fed))
        except ToolError as error:
            say(TOOL, f"{error}; trying again in {given.every:g} seconds")
        time.sleep(given.every)


def command() -> None:
    """Runs it, and ends with its exit status."""
    run(TOOL, main)
