"""Loads the dump of another publisher's vocabulary into the file that a desk has beside its store, for its mappings.

The dump is SKOS as N-Triples, N-Quads, RDF/XML (by rapper, of Debian's raptor2-utils) or Turtle (by serdi), to 2
gigabytes; or in JSON-LD or N3, to 256 megabytes (by rdflib, which also stands in for these programs); or CSV with the
columns iri, label, lang, broader. Each may be packed by gzip. A newer dump takes the place of the one of the same name,
and what it no longer has is remembered. The desk may run meanwhile.

  tools/load-vocabulary aat.nt.gz --name AAT --db museum.db
  tools/load-vocabulary --remove AAT --db museum.db

Lines that can't be read are left out and counted. The file is museum-vocabularies.sqlite: it may be deleted, and no
backup has it, as it can be made again of the dumps.

Exit status: 0 done, 1 the dump can't be read, 2 usage, 3 a fault."""
from __future__ import annotations

import argparse
import contextlib
from pathlib import Path

from thesaurus_tools.command_line import DONE, USAGE, ToolError, parser_of, run, say
from thesaurus_tools.vocabulary_loader import load_dump, remove_vocabulary
from thesaurus_tools.vocabulary_tables import open_vocabularies, vocabularies_of

TOOL = "load-vocabulary"
# How many of the lines that can't be read are printed.
SHOWN = 10
# The most characters of a name.
LONGEST_NAME = 60


def load(given: argparse.Namespace) -> int:
    """Loads a dump or removes a vocabulary, says what came of it, and returns the exit status."""
    with contextlib.closing(open_vocabularies(vocabularies_of(given.db))) as rows:
        if given.remove:
            if not remove_vocabulary(rows, given.remove):
                raise ToolError(f"{given.remove}: there is no vocabulary of that name", USAGE)
            return say(TOOL, f"{given.remove} is removed")
        found = load_dump(rows, given.name, given.dump, given.called)
    for line, text in found.bad.first[:SHOWN]:
        say(TOOL, f"{given.dump}{f':{line}' if line else ''}: not read: {text}")
    return say(
        TOOL,
        f"{given.name}: {found.entries} concepts with {found.labels} labels; {found.bad.count} lines can't be read",
        DONE,
    )


def arguments() -> argparse.Namespace:
    parser = parser_of(TOOL, __doc__)
    add = parser.add_argument
    add("dump", type=Path, nargs="?", metavar="DUMP", help="the dump: .nt, .nq, .ttl, .rdf, .jsonld, .csv; or with .gz")
    add("--db", type=Path, required=True, metavar="STORE", help="the store beside which the file is")
    add("--name", metavar="NAME", help="what the vocabulary is called on the desk's pages")
    add("--called", default="", metavar="FILE", help="the name that pages show for the dump (its own)")
    add("--remove", metavar="NAME", help="remove a vocabulary")
    given = parser.parse_args()
    if bool(given.remove) == bool(given.dump):
        parser.error("either DUMP or --remove NAME")
    given.name = " ".join((given.name or "").split())
    if given.dump and not 0 < len(given.name) <= LONGEST_NAME:
        parser.error(f"--name has 1 to {LONGEST_NAME} characters")
    return given


def command() -> None:
    """Runs it, and ends with its exit status."""
    run(TOOL, lambda: load(arguments()))
