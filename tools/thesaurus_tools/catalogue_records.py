"""Reads records of a catalogue as rows of a table: bibliographic MARC 21 (ISO 2709 or XML), MODS, and Dublin Core."""
from __future__ import annotations

import io
import re
from collections.abc import Iterable, Iterator, Sequence
from pathlib import Path
from typing import NamedTuple
from xml.etree import ElementTree

from thesaurus_tools.files import TableError, read_table_file
from thesaurus_tools.marc import NAMESPACE as MARC
from thesaurus_tools.parse_places import place_in
from thesaurus_tools.spreadsheets import Row
from thesaurus_tools.texts import fold

# What is known of a record, with the headings of a table's columns, folded, in English, German and French.
HEADINGS = {
    "key": ("key", "record", "identifier", "schlussel", "datensatz", "signatur", "cle", "notice", "identifiant"),
    "title": ("title", "titel", "titre"),
    "text": ("text", "abstract", "description", "beschreibung", "zusammenfassung", "texte", "resume"),
    "link": ("link", "url", "adresse", "lien"),
}
# What the name of such a file ends with where it is read.
ENDING = ".records"
MODS, DUBLIN_CORE = "http://www.loc.gov/mods/v3", "http://purl.org/dc/elements/1.1/"
BOM = b"\xef\xbb\xbf"
# The length of a record, and its status.
LEADER = re.compile(rb"[0-9]{5}[a-z]")
END_OF_RECORD, END_OF_FIELD, SUBFIELD = b"\x1d", b"\x1e", "\x1f"
ADDRESS = re.compile(r"https?://\S+")
# Where MARC has the title, and what says more of the content: summary, contents, notes, subjects.
TITLE = ("245", "abnp")
TEXTS = (("520", "ab"), ("505", "at"), ("500", "a"), ("653", "a"), ("650", "a"), ("651", "a"), ("655", "a"))


class Field(NamedTuple):
    """A field of MARC: its tag, and the codes and values of its subfields; a control field has one without a code."""

    tag: str
    subfields: list[tuple[str, str]]


def is_catalogue(data: bytes) -> bool:
    """Whether the bytes of a file are XML or MARC, and no table of cells."""
    data = data.removeprefix(BOM).lstrip()
    return data.startswith(b"<") or LEADER.match(data) is not None


def read_records(path: Path) -> list[Row]:
    """Returns a heading, and a row for each record. Raises TableError."""
    data = read_table_file(path).removeprefix(BOM).lstrip()
    found = rows_of_xml(path, data) if data.startswith(b"<") else rows_of_marc(path, data)
    return [Row(1, list(HEADINGS)), *(Row(at, cells) for at, cells in enumerate(found, 2))]


def columns_of(path: Path, heading: Sequence[str]) -> dict[str, list[int]]:
    """Returns which columns of a table have what is known of a record. Raises TableError if none has keys."""
    folded = [fold(it.strip()) for it in heading]
    found = {part: [at for at, it in enumerate(folded) if it in names] for part, names in HEADINGS.items()}
    if not found["key"]:
        raise TableError("no_key", path)
    return found


# --- MARC 21 ---


def rows_of_marc(path: Path, data: bytes) -> Iterator[list[str]]:
    """Yields the cells of each record of ISO 2709. Raises TableError."""
    for at, record in enumerate(data.split(END_OF_RECORD), 1):
        # (some programs write a line for each)
        record = record.lstrip(b"\r\n\0 ")
        if not record:
            continue
        try:
            yield cells_of_marc(fields_of_marc(record))
        except UnicodeDecodeError:
            raise TableError("marc_8", path, at) from None
        except ValueError:
            raise TableError("damaged", path, at, form="MARC", error="its directory") from None


def fields_of_marc(record: bytes) -> Iterator[Field]:
    """Yields the fields of a record. Raises ValueError for one that is damaged, or in MARC-8."""
    encoding = "utf-8" if record[9:10] == b"a" else "ascii"
    start = int(record[12:17])
    for entry in re.findall(rb"(...)([0-9]{4})([0-9]{5})", record[24:start], re.S):
        at = start + int(entry[2])
        text = record[at : at + int(entry[1])].rstrip(END_OF_FIELD).decode(encoding)
        parts = text.split(SUBFIELD)
        is_control = entry[0] < b"010"
        yield Field(entry[0].decode("ascii"), [("", text)] if is_control else [(it[:1], it[1:]) for it in parts[1:]])


def cells_of_marc(fields: Iterable[Field]) -> list[str]:
    """Returns the cells of a record."""
    held = list(fields)

    def values(tag: str, codes: str = "") -> list[str]:
        return [
            " ".join(text.strip() for code, text in it.subfields if code in codes or not code)
            for it in held
            if it.tag == tag
        ]

    title = next(iter(values(*TITLE)), "").rstrip(" /:;,=")
    texts = [it for tag, codes in TEXTS for it in values(tag, codes)]
    return cells(values("001"), title, texts, values("856", "u"))


def cells(keys: list[str], title: str, texts: Iterable[str], links: Iterable[str]) -> list[str]:
    """Returns the cells of a row: the first key, and the first link that is one."""
    link = next((it for it in links if ADDRESS.fullmatch(it)), "")
    return [next(iter(keys), "").strip(), title, "\n".join(it for it in texts if it), link]


# --- XML ---


def rows_of_xml(path: Path, data: bytes) -> Iterator[list[str]]:
    """Yields the cells of each record of MARCXML, MODS or Dublin Core. Raises TableError."""
    if b"<!DOCTYPE" in data:
        raise TableError("declares", path, part="XML")
    try:
        for _, element in ElementTree.iterparse(io.BytesIO(data)):
            if element.tag == f"{{{MARC}}}record":
                yield cells_of_marc(fields_of_xml(element))
            elif element.tag == f"{{{MODS}}}mods":
                yield cells_of_mods(element)
            elif any(it.tag.startswith(f"{{{DUBLIN_CORE}}}") for it in element):
                yield cells_of_dublin_core(element)
            else:
                continue
            element.clear()
    except ElementTree.ParseError as error:
        raise TableError("damaged_xml", path, error.position[0], error=place_in(str(error)).reason) from None


def fields_of_xml(record: ElementTree.Element) -> Iterator[Field]:
    """Yields the fields of a record of MARCXML."""
    for it in record:
        tag = it.get("tag", "")
        if it.tag == f"{{{MARC}}}controlfield":
            yield Field(tag, [("", it.text or "")])
        elif it.tag == f"{{{MARC}}}datafield":
            yield Field(tag, [(one.get("code", ""), one.text or "") for one in it])


def text_of(element: ElementTree.Element) -> str:
    """Returns the text of an element and of all in it, with single spaces."""
    return " ".join(" ".join(element.itertext()).split())


def cells_of_mods(record: ElementTree.Element) -> list[str]:
    """Returns the cells of a record of MODS."""

    def values(path: str) -> list[str]:
        # (a prefix for all of its steps)
        steps = "/".join(f"{{{MODS}}}{it}" for it in path.split("/"))
        return [text_of(it) for it in record.findall(steps)]

    titles = [it for it in record.findall(f"{{{MODS}}}titleInfo") if "type" not in it.attrib]
    texts = [it for name in ("abstract", "tableOfContents", "note", "subject") for it in values(name)]
    keys = values("recordInfo/recordIdentifier") + values("identifier")
    return cells(keys, text_of(titles[0]) if titles else "", texts, values("location/url"))


def cells_of_dublin_core(record: ElementTree.Element) -> list[str]:
    """Returns the cells of a record of Dublin Core."""

    def values(name: str) -> list[str]:
        return [text_of(it) for it in record.findall(f"{{{DUBLIN_CORE}}}{name}")]

    names = values("identifier")
    keys = [it for it in names if not ADDRESS.fullmatch(it)]
    return cells(keys or names, " ".join(values("title")), values("description") + values("subject"), names)
