"""Texts as XML has them: without the characters that Unicode keeps for programs' own use, of which XML refuses some."""
from __future__ import annotations

import re
from collections import Counter
from pathlib import Path
from xml.etree import ElementTree
from xml.etree.ElementTree import Element
from xml.sax.saxutils import escape

from thesaurus_tools.command_line import DONE, say
from thesaurus_tools.files import write_output

ENDS = "".join(f"{chr(plane << 16 | 0xFFFE)}{chr(plane << 16 | 0xFFFF)}" for plane in range(17))
NO_CHARACTERS = re.compile(f"[\ufdd0-\ufdef{ENDS}]")


def xml_text(text: str, lost: Counter[str]) -> str:
    """Returns a text for an element of XML. `lost` counts the characters that it leaves out, as U+FFFE."""
    return escape(xml_characters(text, lost))


def xml_characters(text: str, lost: Counter[str]) -> str:
    """Returns the characters of a text that XML has. `lost` counts the others."""
    lost.update(f"U+{ord(it):04X}" for it in NO_CHARACTERS.findall(text))
    return NO_CHARACTERS.sub("", text)


def said_of(lost: Counter[str]) -> str:
    """Returns what is said of the characters that were left out."""
    return "characters that XML doesn't have are left out: " + ", ".join(f"{lost[it]} {it}" for it in sorted(lost))


def write_document(tool: str, document: bytes, lost: Counter[str], output: Path | None) -> int:
    """Writes a document to a file or to standard output, says what it leaves out, and returns the exit status."""
    write_output(document, output)
    if lost:
        say(tool, said_of(lost))
    return DONE


def closing_comment(lost: Counter[str]) -> str:
    """Returns the line at the end of a document that says which characters were left out; nothing, if none was."""
    return f"<!-- {said_of(lost)} -->\n" if lost else ""


def document_of(root: Element, lost: Counter[str]) -> bytes:
    """Returns the document of an element, which says at its end which characters it leaves out. `lost` counts them."""
    for it in root.iter():
        it.text = it.text and xml_characters(it.text, lost)
        for name, value in it.items():
            it.set(name, xml_characters(value, lost))
    ElementTree.indent(root)
    text = ElementTree.tostring(root, encoding="utf-8", xml_declaration=True)
    return text + b"\n" + closing_comment(lost).encode()
