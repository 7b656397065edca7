"""Values of fields from an export of this thesaurus, as rows: for resources that are there, by their own IRIs."""
from __future__ import annotations

import hashlib
import tempfile
from collections.abc import Iterable, Iterator
from dataclasses import asdict
from pathlib import Path

from thesaurus_desk.importing.tables import TableRun
from thesaurus_desk.importing.vocabularies import ENDS, SkosError
from thesaurus_desk.journal.values import Request, member_of, set_request
from thesaurus_tools.command_line import ToolError
from thesaurus_tools.fields import TERM_SOURCE, Field, code_of, is_value, tidy
from thesaurus_tools.headings import Fields
from thesaurus_tools.public_values import OF_TERMS
from thesaurus_tools.rdf_files import form_of
from thesaurus_tools.rdf_values import Statement, read_statements
from thesaurus_tools.table_plans import TableOptions


def read_export_rows(name: str, data: bytes, base: str, fields: Fields) -> TableRun:
    """Returns the values of an export, and the places of its collections, as rows that add those that are lacking.
    Raises SkosError."""
    if not form_of(name):
        raise SkosError("name", name=name, ends=", ".join(ENDS))
    by_property = {it.property: it for it in fields.values() if it.property}
    by_property |= dict.fromkeys(OF_TERMS, fields[TERM_SOURCE])
    with tempfile.TemporaryDirectory() as folder:
        path = Path(folder, f"export{''.join(Path(name.lower()).suffixes[-2:])}")
        path.write_bytes(data)
        try:
            found = read_statements(path, base, by_property)
        except ToolError as error:
            raise SkosError("failed", str(error).replace(str(path), name), name=name) from None
    places = (set_request(*it[:2], "", new=it.targets) for it in found.places)
    wanted = [*requests_of(found.statements, by_property, base), *places]
    run = TableRun(name, ["number", "term"], [], [], TableOptions(), digest=hashlib.sha256(data).hexdigest())
    run.exported = sorted(wanted, key=lambda it: it["owner"])
    run.lacking = [asdict(it) for it in found.lacking]
    return run


def requests_of(statements: Iterable[Statement], fields: Fields, base: str) -> Iterator[Request]:
    """Yields the requests that set what statements say, by fields of properties."""
    for it in statements:
        field = fields[it.property]
        tag, text = tag_of(it, field, base), it.text if field.name == TERM_SOURCE else tidy(it.text, field.kind)
        source = tidy(it.source, "line") if field.has_source else ""
        if is_value(field, tag, text):
            yield set_request(it.number, field.name, tag, new=member_of(text, source))


def tag_of(it: Statement, field: Field, base: str) -> str:
    """Returns the language of a value, or its code."""
    return it.tag.lower() if field.tag == "language" else code_of(it.datatype, base) if field.tag == "code" else ""
