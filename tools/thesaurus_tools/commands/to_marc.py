"""Writes the concepts of a thesaurus as authority records, for library systems: MARC 21, in MARCXML.

A record has the preferred term of one language (150), its non-preferred terms (450), broader, narrower and related
terms (550 with $w g, h or none), scope notes (680), the replacement of a merged concept (682), and terms of other
languages and matches in other schemes of the store (750); 001 is the number, 024 and $0 have IRIs, 024 also those of
exact matches elsewhere. With --desk or --journal it has what the desk keeps and everybody may see: definitions (677),
examples and the office's fields (680), history notes (678), other notes (667), sources (670), and notations (083 of the
code ddc, 080 of udc, 053 of lcc, else 065 with the code in $2). What MARC can't say is counted on standard error.

A concept without a preferred term in the language is left out, and its number printed, unless --fallback has a language
of its terms: then its record is in that one, which its 040 $b names. A record that ISO 2709 can't hold (99,999 bytes,
9,999 a field) is left out, too, and its number printed; the status is 1 then.

  tools/to-marc --db museum.db --lang en --source musinstr > museum.xml
  yaz-marcdump -i marcxml -o marc museum.xml > museum.mrc

Exit status: 0 done, 1 refused (as a language that no term has), 2 usage, 3 a fault."""
from __future__ import annotations

import argparse
import os
from collections import Counter
from datetime import datetime, timezone
from pathlib import Path

from thesaurus_tools.command_line import DONE, REFUSED, ToolError, language, languages, natural, parser_of, run, say
from thesaurus_tools.files import write_output
from thesaurus_tools.marc import AuthorityWriter, collection_lines
from thesaurus_tools.store_options import add_journal_argument, add_store_arguments, open_store
from thesaurus_tools.store import Resource, Store
from thesaurus_tools.xml_texts import said_of

TOOL = "to-marc"


def arguments() -> argparse.Namespace:
    parser = parser_of(TOOL, __doc__)
    add = parser.add_argument
    add_store_arguments(parser)
    add_journal_argument(parser)
    add("--lang", required=True, metavar="TAG", type=language, help="the language of the records")
    fallback = "languages for concepts without a preferred term in --lang, the first that they have"
    add("--fallback", type=languages, default=(), metavar="TAG,..", help=fallback)
    add("--source", default="local", metavar="CODE", help="the code of the thesaurus, for 040 $f and 750 $2 (local)")
    add("--organisation", default="", metavar="CODE", help="the MARC code of the organisation, for 003 and 040 $a")
    add("--scheme", type=natural, metavar="N", help="only the concepts of a scheme")
    add("-o", "--output", type=Path, metavar="FILE", help="write to this file, and not to standard output")
    return parser.parse_args()


def concepts_of(store: Store, given: argparse.Namespace) -> list[Resource]:
    """Returns the concepts to write, dead ones among them. Raises ToolError if no term is in the language."""
    found = [
        it for _, it in sorted(store.resources.items()) if it.kind == "concept" and given.scheme in (None, it.scheme)
    ]
    if not any(it.tag in (given.lang, *given.fallback) and it.kind == "pref" for it in store.labels):
        tags = sorted({it.tag for it in store.labels if it.kind == "pref"})
        raise ToolError(f"no concept has a preferred term in {given.lang}; there are {', '.join(tags)}", REFUSED)
    return found


def made_at() -> datetime:
    """Returns the time for the records: now, or that of SOURCE_DATE_EPOCH, so that a file can be made again."""
    seconds = os.environ.get("SOURCE_DATE_EPOCH")
    return datetime.fromtimestamp(int(seconds), timezone.utc) if seconds else datetime.now(timezone.utc)


def main() -> int:
    given = arguments()
    with open_store(given) as store:
        concepts = concepts_of(store, given)
        langs = (given.lang, *given.fallback)
        writer = AuthorityWriter(store, langs, given.source, given.organisation, made_at())
        no_xml = Counter[str]()
        write_output("".join(collection_lines(writer.records(concepts), no_xml)).encode(), given.output)
    lost = ", ".join(f"{count} {what}" for what, count in sorted(writer.lost.items()) if count)
    say(TOOL, f"{writer.written} records{f'; MARC has no place for {lost}' if lost else ''}")
    if writer.without_term:
        numbers = " ".join(map(str, writer.without_term))
        say(TOOL, f"left out, since they have no preferred term in {' or '.join(langs)}: {numbers}")
    for number, fault in writer.faults.items():
        say(TOOL, f"left out, since ISO 2709 can't hold its record: {number}: {fault}")
    if no_xml:
        say(TOOL, said_of(no_xml))
    return REFUSED if writer.faults else DONE


def command() -> None:
    """Runs it, and ends with its exit status."""
    run(TOOL, main)
