"""The forms in which a thesaurus is saved, each as a file: of all, of a scheme or of a branch. A process of its own
makes one of an export, so that a desk answers meanwhile."""
from __future__ import annotations

import argparse
import io
import json
import os
import subprocess
import sys
import tempfile
import zipfile
from collections import Counter
from collections.abc import Callable, Iterable, Sequence
from dataclasses import asdict, dataclass, field
from datetime import datetime, timezone
from functools import cached_property, partial
from pathlib import Path

from thesaurus_tools.command_line import DONE, FAULT, REFUSED, ToolError
from thesaurus_tools.desk_export import store_with_values
from thesaurus_tools.export_values import read_facts
from thesaurus_tools.fields import Field
from thesaurus_tools.iso2709 import iso2709
from thesaurus_tools.iso25964 import Iso25964Writer
from thesaurus_tools.marc import AuthorityWriter, Record, collection_lines
from thesaurus_tools.ntriples import SKOS, Iri, Triple, read_ntriples
from thesaurus_tools.pdf import to_pdf
from thesaurus_tools.print_pages import PARTS, PrintPages, document
from thesaurus_tools.rdf_writer import WRITERS
from thesaurus_tools.reports import walk_down
from thesaurus_tools.store import Resource, Store
from thesaurus_tools.system_python import PackageError
from thesaurus_tools.table_writer import TableWriter, columns_with_something, table_text
from thesaurus_tools.term_dates import Dates, date_triples, from_json
from thesaurus_tools.triple_export import WORDS, base_of, choose_branch, choose_scheme
from thesaurus_tools.workbooks import LeftOut, ods, xlsx
from thesaurus_tools.zthes import ZthesWriter

# How much later than a desk's own work that of this process is done, as `nice` has it.
NICENESS = 10
# How many languages a web site has.
MOST_EDITIONS = 12
# The files of a folder: the export, what it lacks of values, the fields, the dates of terms, and what is made
# of them.
EXPORT, MORE, FIELDS, TERMS, MADE = "export.nt", "more.nt", "fields.json", "terms.json", "made"


@dataclass(frozen=True)
class Choice:
    """What is saved: all, a scheme, or a concept with all below it; and the language for forms of one."""

    lang: str
    scheme: int | None = None
    top: int | None = None


@dataclass
class Part:
    """What of a thesaurus is written.

    `more` are triples that RDF doesn't get: values of fields without property."""

    triples: list[Triple]
    choice: Choice
    more: list[Triple] = field(default_factory=list)
    fields: dict[str, Field] = field(default_factory=dict)
    # When terms were made and changed.
    dates: Dates = field(default_factory=dict)
    # What the cells of a spreadsheet can't have.
    left_out: LeftOut = field(default_factory=LeftOut)

    @cached_property
    def base(self) -> str:
        """What the IRIs of the thesaurus begin with."""
        return base_of(self.triples)

    @cached_property
    def chosen(self) -> list[Triple]:
        """The triples about what is chosen."""
        if self.choice.scheme:
            return choose_scheme(self.triples, self.base, self.choice.scheme)
        return choose_branch(self.triples, self.base, self.choice.top) if self.choice.top else self.triples

    @cached_property
    def store(self) -> Store:
        """The whole thesaurus."""
        return store_with_values("the export", [*self.triples, *self.more], self.fields)

    def scheme_of_top(self) -> int | None:
        """Returns the scheme of the branch that is chosen."""
        return self.store.live_concept(self.choice.top).scheme if self.choice.top else None

    def concepts(self, with_ended: bool = False) -> list[Resource]:
        """Returns the concepts that are chosen; those of a branch from the top down."""
        if self.choice.top:
            self.store.live_concept(self.choice.top)
            return [self.store.resources[it] for _, it in walk_down(self.store, self.choice.top)]
        every = sorted(it for it in self.store.resources.values() if it.kind == "concept")
        return [it for it in every if (it.is_live or with_ended) and self.choice.scheme in (None, it.scheme)]

    def languages(self) -> list[str]:
        """Returns the language that is chosen, and those of other preferred terms of concepts, the commonest first."""
        numbers = {it.number for it in self.concepts()}
        counts = Counter(it.tag for it in self.store.labels if it.kind == "pref" and it.owner in numbers)
        others = sorted(counts, key=lambda tag: (-counts[tag], tag))
        return list(dict.fromkeys((*([self.choice.lang] if counts[self.choice.lang] else ()), *others)))


# --- the forms ---


def as_rdf(syntax: str, part: Part, words: str = "") -> bytes:
    """Returns RDF in a syntax, in the words of SKOS or in others."""
    triples = [*WORDS[words](part.chosen)] if words else part.chosen
    if words == "skos-xl":
        triples += date_triples(part.chosen, part.base, part.dates)
    return "".join(WRITERS[syntax](triples, part.base)).encode()


class LongRecordError(Exception):
    """That MARC 21 can't hold the records of some concepts."""

    def __init__(self, numbers: Iterable[int]) -> None:
        super().__init__("records that are too long")
        self.numbers = [*numbers]


def marc_records(part: Part) -> list[Record]:
    """Returns the records of MARC 21, each in the first language that its concept has. Raises LongRecordError."""
    moment = datetime.now(timezone.utc)
    writer = AuthorityWriter(part.store, [part.choice.lang, *part.languages()], "local", "", moment)
    found = [*writer.records(part.concepts(with_ended=True))]
    if writer.faults:
        raise LongRecordError(writer.faults)
    return found


def as_marcxml(part: Part) -> bytes:
    """Returns MARC 21 in XML."""
    return "".join(collection_lines(iter(marc_records(part)), Counter())).encode()


def as_marc(part: Part) -> bytes:
    """Returns MARC 21 in ISO 2709."""
    return b"".join(map(iso2709, marc_records(part)))


def table_rows(part: Part) -> Iterable[list[str]]:
    """Returns the rows of a table with all that concepts have."""
    concepts = part.concepts()
    names = columns_with_something(part.store, concepts, part.choice.lang)
    return TableWriter(part.store, names, part.choice.lang).rows(concepts)


def as_csv(part: Part) -> bytes:
    """Returns a table as CSV, with a mark by which spreadsheets know UTF-8."""
    return b"\xef\xbb\xbf" + table_text(table_rows(part), for_excel=False).encode()


def title_of(part: Part) -> str:
    """Returns the name of what is chosen."""
    schemes = sorted(it.number for it in part.store.resources.values() if it.kind == "scheme")
    chosen = part.choice.top or part.choice.scheme
    numbers: list[int] = [chosen] if chosen else schemes
    return " · ".join(part.store.term(it, [part.choice.lang]) for it in numbers)


def as_workbook(write: Callable[[Iterable[list[str]], str, LeftOut], bytes], part: Part) -> bytes:
    """Returns a table as a spreadsheet."""
    return write(table_rows(part), title_of(part), part.left_out)


def as_page(parts: Sequence[str], part: Part) -> bytes:
    """Returns a page to print."""
    return page_text(parts, part).encode()


def page_text(parts: Sequence[str], part: Part) -> str:
    """Returns a page to print with some displays. Raises ToolError for a language that no term has."""
    top, lang = part.choice.top, part.choice.lang
    every = [it.number for _, it in sorted(part.store.resources.items()) if it.kind == "scheme"]
    schemes = [it for it in (part.choice.scheme or part.scheme_of_top(),) if it] or every
    pages = [PrintPages(part.store, it, lang, top) for it in schemes]
    if lang not in part.languages():
        raise ToolError(f"no concept has a preferred term in {lang}", REFUSED)
    return document(lang, pages, parts)


def as_pdf(display: str, part: Part) -> bytes:
    """Returns a display as PDF."""
    return to_pdf(page_text([display], part))


def as_site(part: Part) -> bytes:
    """Returns a web site in an archive."""
    with tempfile.TemporaryDirectory() as folder:
        export, out = Path(folder, EXPORT), Path(folder, "site")
        scheme = Iri(f"{part.base}{part.scheme_of_top()}")
        about = [it for it in part.triples if it.subject == scheme and it.predicate != SKOS + "hasTopConcept"]
        chosen = [*part.chosen, *(about if part.choice.top else ())]
        export.write_bytes("".join(WRITERS["ntriples"](chosen, part.base)).encode())
        tool, langs = Path(__file__).parents[1] / "site", part.languages()[:MOST_EDITIONS]
        words = [sys.executable, str(tool), str(export), str(out), "--langs", ",".join(langs)]
        ran = subprocess.run(words, capture_output=True, text=True, check=False)
        if ran.returncode:
            raise ToolError(ran.stderr.strip()[-300:], ran.returncode)
        return zip_files(out)


def zip_files(folder: Path) -> bytes:
    """Returns an archive of a folder, without the files that its maker hides."""
    out = io.BytesIO()
    with zipfile.ZipFile(out, "w", zipfile.ZIP_DEFLATED) as archive:
        for it in sorted(folder.rglob("*")):
            if it.is_file() and not it.name.startswith("."):
                archive.write(it, it.relative_to(folder.parent))
    return out.getvalue()


def as_zthes(part: Part) -> bytes:
    """Returns Zthes."""
    return ZthesWriter(part.store, [part.choice.lang, *part.languages()]).write(part.concepts(), title_of(part))


def as_iso25964(part: Part) -> bytes:
    """Returns ISO 25964-1 in XML."""
    writer = Iso25964Writer(part.store, read_facts(part.triples, part.base), part.dates)
    return writer.write(part.concepts(), is_whole=part.choice.top is None)


@dataclass(frozen=True)
class FileForm:
    """A form of files: the ends of their names, their type, and how one is written."""

    ending: str
    media: str
    write: Callable[[Part], bytes]
    # Whether it is in one language, which is chosen.
    has_language: bool = False


TURTLE, XML = "text/turtle; charset=utf-8", "application/xml"
SHEET = "application/vnd.openxmlformats-officedocument.spreadsheetml.sheet"
PDF = {"alphabetical": "alphabetical", "systematic": "tree", "rotated": "rotated"}
# By the names that addresses have.
FORMS = {
    "turtle": FileForm("ttl", TURTLE, partial(as_rdf, "turtle")),
    "rdfxml": FileForm("rdf", "application/rdf+xml", partial(as_rdf, "rdfxml")),
    "jsonld": FileForm("jsonld", "application/ld+json", partial(as_rdf, "jsonld")),
    "ntriples": FileForm("nt", "application/n-triples", partial(as_rdf, "ntriples")),
    "skosxl": FileForm("skos-xl.ttl", TURTLE, partial(as_rdf, "turtle", words="skos-xl")),
    "madsrdf": FileForm("mads.rdf", "application/rdf+xml", partial(as_rdf, "rdfxml", words="madsrdf")),
    "marc": FileForm("mrc", "application/marc", as_marc, True),
    "marcxml": FileForm("marc.xml", "application/marcxml+xml", as_marcxml, True),
    "zthes": FileForm("zthes.xml", XML, as_zthes, True),
    "iso25964": FileForm("iso25964.xml", XML, as_iso25964),
    "xlsx": FileForm("xlsx", SHEET, partial(as_workbook, xlsx), True),
    "ods": FileForm("ods", "application/vnd.oasis.opendocument.spreadsheet", partial(as_workbook, ods), True),
    "csv": FileForm("csv", "text/csv; charset=utf-8", as_csv, True),
    **{name: FileForm(f"{name}.pdf", "application/pdf", partial(as_pdf, part), True) for name, part in PDF.items()},
    "page": FileForm("html", "text/html; charset=utf-8", partial(as_page, PARTS), True),
    "site": FileForm("site.zip", "application/zip", as_site, True),
}


# --- a process that makes one ---


def read_part(folder: Path, choice: Choice) -> Part:
    """Returns what a folder has of a thesaurus."""
    export, more = ([*read_ntriples(folder / it)] for it in (EXPORT, MORE))
    fields = [Field(**it) for it in json.loads((folder / FIELDS).read_text(encoding="utf-8"))]
    dates = from_json((folder / TERMS).read_text(encoding="utf-8"))
    return Part(export, choice, more, {it.name: it for it in fields}, dates)


def outcome_of(form: str, folder: Path, choice: Choice) -> dict[str, object]:
    """Writes a file of a form beside the export, and returns what is said of that: nothing, what it hasn't (characters
    by how often, and how many texts are cut), or why there is none."""
    try:
        part = read_part(folder, choice)
        (folder / MADE).write_bytes(FORMS[form].write(part))
        return {"left_out": asdict(part.left_out)} if part.left_out else {}
    except PackageError as error:
        return {"needs": error.package}
    except LongRecordError as error:
        return {"too_long": error.numbers}
    except ToolError as error:
        return {"said": str(error)}


def main() -> int:
    """Makes the file that the command line names."""
    parser = argparse.ArgumentParser(description=__doc__)
    parser.add_argument("form", choices=sorted(FORMS))
    parser.add_argument("folder", type=Path)
    parser.add_argument("--lang", default="en")
    parser.add_argument("--scheme", type=int)
    parser.add_argument("--below", type=int)
    given = parser.parse_args()
    os.nice(NICENESS)
    outcome = outcome_of(given.form, given.folder, Choice(given.lang, given.scheme, given.below))
    json.dump(outcome, sys.stdout)
    return DONE if outcome.keys() <= {"left_out"} else FAULT


if __name__ == "__main__":
    sys.exit(main())
