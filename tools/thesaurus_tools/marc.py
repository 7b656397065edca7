"""Makes MARC 21 authority records of concepts, as MARCXML."""
from __future__ import annotations

from collections import Counter
from collections.abc import Iterator, Sequence
from datetime import datetime
from typing import NamedTuple
from xml.sax.saxutils import quoteattr

from thesaurus_tools.fields import TERM_SOURCE, mark_of
from thesaurus_tools.kinds import BROADER, MAPPINGS
from thesaurus_tools.marc_languages import marc_language
from thesaurus_tools.store import End, Label, Resource, Store
from thesaurus_tools.xml_texts import closing_comment, xml_text

NAMESPACE = "http://www.loc.gov/MARC21/slim"
# The most bytes of a record and of a field in ISO 2709, and what each of them has beside its fields or subfields: a
# leader and the end of its directory and its own; an entry of 12 bytes in the directory.
LONGEST_RECORD, LONGEST_FIELD = 99_999, 9_999
LEADER, ENTRY, END_MARK = 24, 12, 1
# What $w says of a 550: g is a broader term, h a narrower one.
BROADER_TERM, NARROWER_TERM = "g", "h"
# The kind of a match, in words for $i of a 750.
MATCHES = {
    "exact": "Exact match", "close": "Close match", "broad": "Broader match", "narrow": "Narrower match",
    "relMatch": "Related match",
}  # fmt: skip


# The fields for values that a desk keeps; those of the office are public general notes.
VALUE_FIELDS = {
    "definition": "677", "example": "680", "historyNote": "678", "editorialNote": "667", "changeNote": "667",
    "source": "670",
}  # fmt: skip
# The subfield of a note, where it isn't $a; and that of its source.
NOTE_SUBFIELDS, SOURCE_SUBFIELDS = {"680": "i"}, {"677": "v"}
# The fields for numbers of classifications, with their indicators, by the names of codes; 065 for all others.
CLASSIFICATIONS = {"ddc": ("083", "0 "), "udc": ("080", "  "), "lcc": ("053", " 0")}
OTHER_CLASSIFICATION = ("065", "  ")


class Field(NamedTuple):
    """A field with subfields: its tag, its two indicators, and the code and value of each subfield."""

    tag: str
    indicators: str
    subfields: tuple[tuple[str, str], ...]

    def length(self) -> int:
        """Returns the number of its bytes in ISO 2709, with its end."""
        return len(self.indicators) + sum(2 + len(value.encode()) for _, value in self.subfields) + END_MARK


class Record(NamedTuple):
    """An authority record."""

    leader: str
    controls: tuple[tuple[str, str], ...]
    fields: list[Field]

    def fault(self) -> str:
        """Returns why ISO 2709 doesn't take it: its size or that of a field; "" if it does."""
        for it in self.fields:
            if it.length() > LONGEST_FIELD:
                return f"a {it.tag} has {it.length():,} bytes, and at most {LONGEST_FIELD:,} fit"
        size = self.length()
        return f"it has {size:,} bytes, and at most {LONGEST_RECORD:,} fit" if size > LONGEST_RECORD else ""

    def length(self) -> int:
        """Returns the number of its bytes in ISO 2709."""
        lengths = [len(value.encode()) + END_MARK for _, value in self.controls] + [it.length() for it in self.fields]
        return LEADER + 2 * END_MARK + sum(ENTRY + it for it in lengths)


class AuthorityWriter:
    """Makes records of the concepts of a store, each in the first of some languages in which it has a preferred term,
    and counts what MARC can't say. Concepts without such a term, and those whose record ISO 2709 doesn't take, are left
    out; `faults` says of the latter why."""

    def __init__(self, store: Store, langs: Sequence[str], source: str, organisation: str, made: datetime):
        self.store, self.langs, self.source, self.organisation = store, langs, source, organisation
        self.made = made
        self.lost: Counter[str] = Counter()
        self.written = 0
        self.without_term: list[int] = []
        self.faults: dict[int, str] = {}

    def records(self, concepts: list[Resource]) -> Iterator[Record]:
        """Yields the records of concepts."""
        for it in concepts:
            if not self.lang_of(it.number):
                self.without_term.append(it.number)
                continue
            record = self.record(it)
            if fault := record.fault():
                self.faults[it.number] = fault
                continue
            self.written += 1
            yield record

    def lang_of(self, number: int) -> str:
        """Returns the language of a concept's record; "" if it has no preferred term in any."""
        tags = {it.tag for it in self.store.labels_of.get(number, ()) if it.kind == "pref"}
        return next((it for it in self.langs if it in tags), "")

    def record(self, concept: Resource) -> Record:
        """Returns the record of a concept, dead or alive."""
        status = "n" if concept.is_live else "x" if concept.replaced else "o"
        code = marc_language(self.lang_of(concept.number))
        controls = (
            ("001", str(concept.number)),
            *((("003", self.organisation),) if self.organisation else ()),
            ("005", self.made.strftime("%Y%m%d%H%M%S.0")),
            # An established subject heading of a thesaurus that 040 $f names.
            ("008", f"{self.made:%y%m%d}n||anznnbabn{'|' * 11}a|ana{'|' * 5}d"),
        )
        fields = [
            *(
                Field("024", "7 ", (("a", it), ("2", "uri")))
                for it in (self.iri(concept.number), *self.exact_matches(concept))
            ),
            Field(
                "040",
                "  ",
                (*((("a", self.organisation),) if self.organisation else ()), ("b", code), ("f", self.source)),
            ),
            *self.notations(concept),
            Field("150", "  ", (("a", self.term(concept.number)),)),
        ]
        fields += self.other_terms(concept)
        fields += self.relations(concept)
        fields += sorted((*self.values(concept), *self.notes(concept)), key=lambda it: it.tag)
        fields += self.replacement(concept)
        fields += self.matches(concept)
        return Record(f"00000{status}z  a2200000n  4500", controls, fields)

    def iri(self, number: int) -> str:
        return f"{self.store.base}{number}"

    def term(self, number: int) -> str:
        return self.store.term(number, self.langs)

    def labels(self, concept: Resource) -> list[Label]:
        return self.store.labels_of.get(concept.number, [])

    def other_terms(self, concept: Resource) -> Iterator[Field]:
        """Yields a 450 for each non-preferred term in the language; hidden and other languages' terms are lost."""
        for it in self.labels(concept):
            if it.kind == "alt" and it.tag == self.lang_of(concept.number):
                yield Field("450", "  ", (("a", it.text),))
            elif it.kind == "hidden" or it.kind == "alt":
                self.lost[f"{'hidden labels' if it.kind == 'hidden' else 'non-preferred terms'} in {it.tag}"] += 1

    def relations(self, concept: Resource) -> Iterator[Field]:
        """Yields a 550 for each broader, narrower and related term; types of broader terms are lost."""
        related = self.store.others(concept.number, ["related"], at_a=True, at_b=True)
        kinds: list[tuple[str, Sequence[End]]] = [
            (BROADER_TERM, self.store.broader(concept.number)),
            (NARROWER_TERM, self.store.narrower(concept.number)),
            ("", related),
        ]
        for control, numbers in kinds:
            for number in numbers:
                if isinstance(number, int) and not self.lang_of(number):
                    self.lost["relations to concepts that are left out"] += 1
                elif isinstance(number, int):
                    name = (("a", self.term(number)), ("0", self.iri(number)))
                    yield Field("550", "  ", ((("w", control), *name) if control else name))
        links = self.store.links_of.get(concept.number, [])
        self.lost["types of broader terms"] += sum(it.kind in BROADER[1:] and it.a == concept.number for it in links)
        self.lost["memberships in collections"] += sum(it.kind == "member" for it in links)

    def notes(self, concept: Resource) -> Iterator[Field]:
        """Yields a 680 for each scope note in the language; those in others are lost."""
        for it in self.labels(concept):
            if it.kind == "scope" and it.tag == self.lang_of(concept.number):
                yield Field("680", "  ", (("i", it.text),))
            elif it.kind == "scope":
                self.lost[f"scope notes in {it.tag}"] += 1

    def notations(self, concept: Resource) -> Iterator[Field]:
        """Yields a field of a classification for each notation."""
        for field, it in self.store.values_in(concept.number, ""):
            if field.kind == "code":
                tag, indicators = CLASSIFICATIONS.get(it.tag.lower(), OTHER_CLASSIFICATION)
                code = (("2", it.tag or self.source),) if tag == OTHER_CLASSIFICATION[0] else ()
                yield Field(tag, indicators, (("a", it.text), *code))

    def values(self, concept: Resource) -> Iterator[Field]:
        """Yields a note for each value of another field in the language, or in none, on one line; those in others are
        lost."""
        lang = self.lang_of(concept.number)
        for it in self.store.values_of.get(concept.number, ()):
            field = self.store.fields[it.field]
            if field.tag == "language" and it.tag != lang:
                self.lost[f"notes in {it.tag}"] += 1
            elif field.name == TERM_SOURCE:
                yield Field("670", "  ", (("a", it.source), ("b", it.text)))
            elif field.kind != "code":
                tag = VALUE_FIELDS.get(field.name, "680")
                text = " ".join(f"{mark_of(field, lang)}: {it.text}".split() if field.is_own else it.text.split())
                source = ((SOURCE_SUBFIELDS[tag], it.source),) if it.source and tag in SOURCE_SUBFIELDS else ()
                yield Field(tag, "  ", ((NOTE_SUBFIELDS.get(tag, "a"), text), *source))

    def replacement(self, concept: Resource) -> Iterator[Field]:
        """Yields a 682 that names the concept into which a dead one was merged."""
        if concept.replaced:
            name = (("i", "Merged into"), ("a", self.term(concept.replaced)), ("0", self.iri(concept.replaced)))
            yield Field("682", "  ", name)
        elif not concept.is_live:
            yield Field("682", "  ", (("i", "No longer in use"),))

    def matches(self, concept: Resource) -> Iterator[Field]:
        """Yields a 750 for each preferred term in another language, and for each match in another scheme of the store.

        A match elsewhere has no term here, which a 750 needs: an exact one is in a 024."""
        for it in self.labels(concept):
            if it.kind == "pref" and it.tag != self.lang_of(concept.number):
                name = (("a", it.text), ("0", self.iri(concept.number)), ("2", f"{self.source}/{it.tag}"))
                yield Field("750", " 7", name)
        for link in self.store.links_of.get(concept.number, []):
            if link.kind in MAPPINGS:
                turned = {"broad": "narrow", "narrow": "broad"}
                kind = link.kind if link.a == concept.number else turned.get(link.kind, link.kind)
                other = link.b if link.a == concept.number else link.a
                if isinstance(other, int):
                    name = (("i", MATCHES[kind]), ("a", self.term(other)), ("0", self.iri(other)))
                    yield Field("750", " 4", name)
                elif kind != "exact":
                    self.lost[f"matches elsewhere ({MATCHES[kind].lower()}), whose terms aren't known"] += 1

    def exact_matches(self, concept: Resource) -> list[str]:
        """Returns the IRIs of its exact matches in vocabularies elsewhere."""
        links = [it for it in self.store.links_of.get(concept.number, []) if it.kind == "exact"]
        return [end for it in links for end in (it.a, it.b) if isinstance(end, str)]


def record_lines(record: Record, lost: Counter[str]) -> Iterator[str]:
    """Yields a record as MARCXML. `lost` counts the characters that XML doesn't have."""
    yield f"<record>\n  <leader>{record.leader}</leader>\n"
    for tag, value in record.controls:
        yield f'  <controlfield tag="{tag}">{xml_text(value, lost)}</controlfield>\n'
    for field in record.fields:
        yield f'  <datafield tag="{field.tag}" ind1="{field.indicators[0]}" ind2="{field.indicators[1]}">\n'
        for code, value in field.subfields:
            yield f"    <subfield code={quoteattr(code)}>{xml_text(value, lost)}</subfield>\n"
        yield "  </datafield>\n"
    yield "</record>\n"


def collection_lines(records: Iterator[Record], lost: Counter[str]) -> Iterator[str]:
    """Yields records as a collection of MARCXML. `lost` counts the characters that XML doesn't have, and a comment at
    the end names them."""
    yield f'<?xml version="1.0" encoding="utf-8"?>\n<collection xmlns="{NAMESPACE}">\n'
    for it in records:
        yield from record_lines(it, lost)
    yield "</collection>\n" + closing_comment(lost)
