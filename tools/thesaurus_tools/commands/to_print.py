"""Makes one page to print of a scheme: its alphabetical list, its tree and a rotated index of words, as HTML or PDF.

--desk or --journal adds definitions (DEF), notes and notations that everybody may see, and the names of concepts
elsewhere to which concepts are mapped (=EQ, ~EQ, BM, NM, RM). Terms are sorted as the language
has it where Debian's python3-icu is installed. --pdf needs weasyprint or chromium.

  tools/to-print --db museum.db --scheme 1 --lang en -o museum.html
  tools/to-print --db museum.db --scheme 1 --lang de --parts alphabetical,rotated --pdf -o museum.pdf

Exit status: 0 done, 1 refused (as a language that no term has), 2 usage, 3 a fault."""
from __future__ import annotations

import argparse
from pathlib import Path

from thesaurus_tools.command_line import DONE, REFUSED, ToolError, language, natural, parser_of, run
from thesaurus_tools.files import write_output
from thesaurus_tools.store_options import add_journal_argument, add_store_arguments, open_store
from thesaurus_tools.pdf import to_pdf
from thesaurus_tools.print_pages import PARTS, PrintPages, document

TOOL = "to-print"


def parts(text: str) -> list[str]:
    """Returns the parts that an argument names."""
    found = text.split(",")
    if not set(found) <= set(PARTS):
        raise argparse.ArgumentTypeError(f"not among {', '.join(PARTS)}: {text!r}")
    return found


def arguments() -> argparse.Namespace:
    parser = parser_of(TOOL, __doc__)
    add = parser.add_argument
    add_store_arguments(parser)
    add_journal_argument(parser)
    add("--scheme", type=natural, required=True, metavar="N", help="the scheme")
    add("--lang", required=True, type=language, metavar="TAG", help="the language of the page")
    add("--parts", type=parts, default=list(PARTS), metavar="PART,..", help=f"of {', '.join(PARTS)}; all if left out")
    add("--pdf", action="store_true", help="as PDF, by weasyprint or chromium")
    add("-o", "--output", type=Path, metavar="FILE", help="write to this file, and not to standard output")
    return parser.parse_args()


def main() -> int:
    given = arguments()
    with open_store(given) as store:
        found = store.resources.get(given.scheme)
        if not found or found.kind != "scheme":
            raise ToolError(f"{store.name}: no scheme has the number {given.scheme}", REFUSED)
        pages = PrintPages(store, given.scheme, given.lang)
        if pages.terms and all(text == f"[{number}]" for number, text in pages.terms.items()):
            raise ToolError(f"{store.name}: no concept of scheme {given.scheme} has a term in {given.lang}", REFUSED)
        page = document(given.lang, [pages], given.parts)
    write_output(to_pdf(page) if given.pdf else page.encode(), given.output)
    return DONE


def command() -> None:
    """Runs it, and ends with its exit status."""
    run(TOOL, main)
