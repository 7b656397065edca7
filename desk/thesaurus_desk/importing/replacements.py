"""Search and replace in terms and notes: what is found becomes rows, which are shown, ticked and performed as those of
a table."""
from __future__ import annotations

import re
from collections.abc import Iterable, Iterator, Sequence
from dataclasses import dataclass
from typing import Any

from thesaurus_desk.journal.entries import Request
from thesaurus_desk.journal.values import Values, member_of, set_request
from thesaurus_desk.store.replica import Replica
from thesaurus_desk.store.schema import KIND_NUMBER, LABEL_NUMBER
from thesaurus_tools.kinds import LABEL_KINDS
from thesaurus_tools.row_runner import RowPlan
from thesaurus_tools.spreadsheets import Row
from thesaurus_tools.table_store import KIND_OF_LABEL

# The kind of tables that have what is replaced; and what a row of these has: both texts, the kind of label or the
# field, the language, and whose it is.
REPLACE = "replace"
HEADING = ("old", "new", "what", "language", "concept")
OWNERS = ", ".join(str(KIND_NUMBER[it]) for it in ("concept", "collection", "scheme"))
# What is found: texts with either case of the first letter, in a language or all, of a scheme or all.
FOUND = f"""
CROSS JOIN resource r ON r.num = t.owner WHERE r.kind IN ({OWNERS}) AND r.live = 1
AND (?1 IS NULL OR r.scheme = ?1 OR r.num = ?1)
AND (?2 = '' OR t.tag = ?2 OR substr(t.tag, 1, length(?2) + 1) = ?2 || '-')
AND (instr(t.text, ?3) OR instr(t.text, ?4))"""


@dataclass(frozen=True)
class Replacement:
    """What is looked for, and what comes in its place: in some kinds of labels and fields, in a language (in all, if
    none is named), in a scheme, as whole words or within words."""

    find: str
    new: str
    places: frozenset[str]
    tag: str = ""
    scheme: int | None = None
    is_whole: bool = True

    @property
    def other(self) -> str:
        """What is looked for, with the other case of its first letter."""
        return self.find[0].swapcase() + self.find[1:]

    def replaced(self, text: str) -> str:
        """Returns a text in which what is looked for is replaced; the case of its first letter stays."""
        pattern = "|".join(re.escape(it) for it in (self.find, self.other))
        pattern = rf"(?<!\w)(?:{pattern})(?!\w)" if self.is_whole else pattern
        return re.sub(pattern, self.one, text).strip(" ")

    def one(self, found: re.Match[str]) -> str:
        """Returns what comes in place of a text that was found."""
        is_other = found[0] != self.find and self.new
        first = self.new[:1].upper() if found[0][0].isupper() else self.new[:1].lower()
        return first + self.new[1:] if is_other else self.new

    def rows(self, replica: Replica) -> list[Row]:
        """Returns a row for each text in which something is replaced."""
        found: list[Row] = []
        for owner, place, tag, text in self.texts(replica):
            if (new := self.replaced(text)) != text:
                found.append(Row(len(found) + 1, [text, new, place, tag, str(owner)]))
        return found

    def texts(self, replica: Replica) -> Iterator[tuple[int, str, str, str]]:
        """Yields the texts that have what is looked for: whose, of what kind or field, the language and the text."""
        kinds = ", ".join(str(LABEL_NUMBER[it]) for it in LABEL_KINDS if it in self.places)
        names = sorted(self.places.difference(LABEL_KINDS))
        fields = ", ".join(f"?{place}" for place in range(5, 5 + len(names)))
        asked = (self.scheme, self.tag, self.find, self.other)
        columns = "t.owner, {}, t.tag, t.text"
        labels = f"SELECT {columns.format('t.kind')} FROM label t {FOUND} AND t.kind IN ({kinds}) ORDER BY t.fold, t.id"
        values = f"SELECT {columns.format('t.field')} FROM value t {FOUND} AND t.field IN ({fields}) ORDER BY t.id"
        for owner, kind, tag, text in replica.all(labels, *asked):
            yield owner, KIND_OF_LABEL[kind], tag, text
        for owner, field, tag, text in replica.all(values, *asked, *names):
            yield owner, field, tag, text


def replacing(rows: Iterable[Row], keeps_old: bool, replica: Replica, values: Values) -> list[RowPlan]:
    """Returns the rows of what was found with the requests that replace it; the old preferred term may be kept as a
    non-preferred one."""
    return [RowPlan(it.line, it.cells, requests_of(it.cells, keeps_old, replica, values)) for it in rows]


def requests_of(cells: Sequence[str], keeps_old: bool, replica: Replica, values: Values) -> list[Request]:
    """Returns the requests that replace a text. What the resource has already isn't added again."""
    old, new, place, tag, owner = *cells[:4], int(cells[4])
    if place not in LABEL_KINDS:
        return [replaced_value(owner, place, tag, (old, new), values)]
    found = replica.get(owner)
    there = [kind for kind in LABEL_KINDS[:3] if found is not None and (kind, tag, new) in found.labels]
    label: dict[str, Any] = {"owner": owner, "tag": tag}
    if place == "pref":
        gone = [{"do": "dropLabel", **label, "kind": it, "text": new} for it in there]
        return [*gone, {"do": "relabel", **label, "text": new, "keep": keeps_old}]
    is_there = place != "scope" and there or (place, tag, new) in (found.labels if found is not None else ())
    added = [] if is_there else [{"do": "addLabel", **label, "kind": place, "text": new}]
    # (the source of what is removed goes to what comes directly before)
    return [*added, {"do": "dropLabel", **label, "kind": place, "text": old}]


def replaced_value(owner: int, field: str, tag: str, texts: tuple[str, str], values: Values) -> Request:
    """Returns the request that replaces the text of a value; its source stays."""
    held = [it for it in values.held(owner, field) if it.tag == tag]
    source = next((it.source for it in held if it.text == texts[0]), "")
    new = None if texts[1] in [it.text for it in held] else member_of(texts[1], source)
    return set_request(owner, field, tag, old=member_of(texts[0], source), new=new)
