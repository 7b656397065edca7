"""The values of fields, which the desk keeps beside the store: in the journal's file, written with the plan that sets
them.

A step `set` of a plan, which the program never sees, compares one value and sets it:

  {"do": "set", "owner": 5, "field": "definition", "tag": "en", "old": null, "new": "A small .."}

`old` is null where a value is added, `new` where one is removed. A value with a source is `{"text": .., "source": ..}`,
one that names resources the list of their numbers, or of references.
The table `value` holds what all such steps that were done come to, in their order."""
from __future__ import annotations

import sqlite3
from collections import defaultdict
from collections.abc import Iterable, Iterator, Sequence
from dataclasses import dataclass
from typing import Any

from thesaurus_desk.journal.schema import Database

from thesaurus_tools.desk_values import STATED_DATES
from thesaurus_tools.fields import (
    HIDDEN,
    ORDER,
    PLACE_FIELDS,
    SUPERORDINATE,
    Field,
    all_fields,
    table_fields,
    text_fields,
    written_field,
)
from thesaurus_tools.public_values import PublicValue
from thesaurus_tools.texts import fold
from thesaurus_tools.values import FieldValue, member_of, set_request, source_of, text_of

__all__ = ["Value", "Values", "inverse_of", "member_of", "set_request", "source_of", "text_of", "write_values"]

# The indexes of words, and of what is within them; the letters of what is looked for there, and how many values are
# looked at.
INDEXES = ("value_words", "value_parts")
PART, MOST_WEIGHED = 3, 2000
# A character after all others.
LAST = "\U0010ffff"
# The requests that end a concept.
ENDING = ("merge", "deprecate")
SAME = "owner = ? AND field = ? AND tag = ? AND text = ?"
Request = dict[str, Any]


@dataclass(frozen=True, slots=True)
class Value:
    """A value of a field. `plan`: the plan that set it."""

    id: int
    owner: int
    field: str
    tag: str
    text: str
    source: str
    plan: int

    @property
    def member(self) -> Any:
        """The value as a request has it."""
        return self.numbers if self.field in PLACE_FIELDS else member_of(self.text, self.source)

    @property
    def numbers(self) -> list[int]:
        """The resources that it names, in their order, where it names any."""
        return [int(it) for it in self.text.split()] if self.field in PLACE_FIELDS else []


def marks_of(values: Sequence[str]) -> str:
    """Returns the marks of values in a query."""
    return ", ".join("?" * len(values))


def moved_by(request: Request) -> set[int]:
    """Returns the resources that a value names and another one doesn't, where a request puts one for the other."""
    old, new = (set(it) if isinstance(it, list) else set() for it in (request["old"], request["new"]))
    return {it for it in old ^ new if isinstance(it, int)}


def inverse_of(request: Request) -> Request:
    """Returns the request that takes a request `set` back."""
    return {**request, "old": request["new"], "new": request["old"]}


def owners_of_statuses(requests: Iterable[Request]) -> set[int]:
    """Returns the concepts whose statuses requests set."""
    return {it["owner"] for it in requests if it["do"] == "set" and it["field"] == "status"}


def hides_or_shows(request: Request) -> bool:
    """Whether a request has the public see a concept, or see it no more."""
    of_status = request["do"] == "set" and request["field"] == "status"
    return of_status and (text_of(request["old"]) in HIDDEN) != (text_of(request["new"]) in HIDDEN)


class Values:
    """Looks values up."""

    def __init__(self, journal: Database) -> None:
        self.journal = journal

    def fields(self) -> dict[str, Field]:
        """Returns the fields by their names: those that each desk has, and those that the office has made."""
        return all_fields((it["name"], it["spec"]) for it in self.journal.all("SELECT name, spec FROM field"))

    def keep_at(self, number: int) -> None:
        """Notes that the values of a resource are its own, whatever terms it had."""
        with self.journal.writing() as rows:
            rows.execute("DELETE FROM taken WHERE number = ?", (number,))

    def write_field(self, field: Field) -> None:
        """Makes a field of the office, or changes one."""
        with self.journal.writing() as rows:
            rows.execute("INSERT OR REPLACE INTO field VALUES (?, ?)", (field.name, written_field(field)))

    def of(self, owner: int) -> dict[str, list[Value]]:
        """Returns the values of a resource by field, each field's in the order in which they came."""
        found: dict[str, list[Value]] = {}
        for it in self.select("owner = ?", owner):
            found.setdefault(it.field, []).append(it)
        return found

    def public(self, owner: int) -> list[PublicValue]:
        """Returns the values of a resource that everybody may see."""
        found = self.of(owner)
        public = [it for it in self.fields().values() if it.is_public] if found else []
        return [PublicValue(it, one.tag, one.text, one.source) for it in public for one in found.get(it.name, ())]

    def stated_dates(self, owner: int | None = None) -> dict[int, dict[str, str]]:
        """Returns the dates that resources had before the desk had them, if everybody may see these: of one, or of
        all."""
        one = () if owner is None else (owner,)
        rows = self.journal.all(f"SELECT * FROM ({STATED_DATES}) WHERE {'owner = ?' if one else 'true'}", *one)
        fields = self.fields() if rows else {}
        found: dict[int, dict[str, str]] = defaultdict(dict)
        for it in rows:
            if fields[it["field"]].is_public:
                found[it["owner"]][it["field"]] = it["text"]
        return found

    def public_fields(self) -> list[Field]:
        """Returns the fields of texts that everybody may see."""
        return [it for it in text_fields(self.fields()).values() if it.is_public]

    def held(self, owner: int, field: str) -> list[Value]:
        """Returns the values of a field of a resource."""
        return list(self.select("owner = ? AND field = ?", owner, field))

    def holders(self, field: str, tag: str, text: str) -> list[int]:
        """Returns the resources that have a value."""
        return [it.owner for it in self.select("field = ? AND tag = ? AND text = ?", field, tag, text)]

    def owners(self, field: str) -> set[int]:
        """Returns the resources that have a value of a field."""
        return {it["owner"] for it in self.journal.all("SELECT DISTINCT owner FROM value WHERE field = ?", field)}

    def count_concepts(self) -> dict[str, int]:
        """Returns the number of live concepts that have a value of each field."""
        query = (
            "SELECT field, count(DISTINCT owner) AS n FROM value JOIN resource r ON r.num = owner"
            " WHERE r.kind = 2 AND r.live = 1 GROUP BY field"
        )
        return {it["field"]: it["n"] for it in self.journal.all(query)}

    def is_change(self, request: Request) -> bool:
        """Whether a request that was performed has changed what everybody sees of a resource: postings, and values that
        aren't public, are none of its own."""
        if request["do"] == "set":
            field = self.fields().get(request["field"])
            return field is not None and (field.is_public or hides_or_shows(request))
        return request["do"] not in ("post", "withdraw", "import")

    def changed_by(self, request: Request, touched: set[int]) -> set[int]:
        """Returns the resources of which everybody sees something else after a request that was performed, which has
        touched some: what a place names is among them, and an array below a concept that has ended."""
        if not self.is_change(request):
            return set()
        if request["do"] == "set":
            return touched | (moved_by(request) if request["field"] != ORDER else set())
        ended = request.get("source" if request["do"] == "merge" else "concept")
        return touched | set(self.holders(SUPERORDINATE, "", str(ended)) if request["do"] in ENDING else ())

    def each(self) -> Iterator[Value]:
        """Yields all values, by resource."""
        return self.select("true")

    def places(self) -> Iterator[Value]:
        """Yields where collections are, and the orders in them."""
        return self.select(f"field IN ({', '.join('?' * len(PLACE_FIELDS))})", *PLACE_FIELDS)

    def by_owner(self) -> dict[int, list[FieldValue]]:
        """Returns the values of fields of which tables have columns by their resources, as tools know them."""
        found: dict[int, list[FieldValue]] = defaultdict(list)
        fields = table_fields(self.fields())
        for it in self.select(f"field IN ({', '.join('?' * len(fields))})", *fields):
            found[it.owner].append(FieldValue(it.owner, it.field, it.tag, it.text, it.source))
        return found

    def tags(self) -> set[tuple[str, str]]:
        """Returns the fields that have values, each with a language or a code of one."""
        return {(it["field"], it["tag"]) for it in self.journal.all("SELECT DISTINCT field, tag FROM value")}

    def select(self, condition: str, *values: Any) -> Iterator[Value]:
        """Yields the values of which a condition holds, by resource, in the order in which they came."""
        columns = "id, owner, field, tag, text, source, plan"
        for it in self.journal.all(f"SELECT {columns} FROM value WHERE {condition} ORDER BY owner, id", *values):
            yield Value(*it)

    def beginning(self, field: str, text: str, most: int) -> list[Value]:
        """Returns the values of a field that begin with a text, in their order."""
        found = self.journal.all(
            "SELECT id, owner, field, tag, text, source, plan FROM value"
            " WHERE field = ? AND text >= ? AND text < ? ORDER BY text, tag, owner LIMIT ?",
            field,
            text,
            text + LAST,
            most,
        )
        return [Value(*it) for it in found]

    def search(self, words: str, fields: Sequence[str], most: int) -> list[Value]:
        """Returns values of some fields that have all words of a text: first those that have words that begin so, the
        best first, then those that have them within words."""
        found = {it.id: it for it in self.with_words(words, fields, most)}
        if len(found) < most:
            found |= {it.id: it for it in self.with_parts(words, fields, most) if it.id not in found}
        return list(found.values())[:most]

    def with_parts(self, words: str, fields: Sequence[str], most: int) -> list[Value]:
        """Returns values of some fields that have each word of a text anywhere, of three letters or more."""
        asked = [it for it in fold(words).split() if len(it) >= PART]
        if not asked or any(len(it) < PART for it in fold(words).split()):
            return []
        parts = dict.fromkeys(it[at : at + PART] for it in asked for at in range(len(it) - PART + 1))
        found = self.journal.all(
            "SELECT value.id, owner, field, tag, text, source, plan"
            " FROM (SELECT rowid, fold FROM value_parts WHERE value_parts MATCH ? LIMIT ?) f"
            " JOIN value ON value.id = f.rowid"
            f" WHERE field IN ({marks_of(fields)}) AND {' AND '.join(['instr(f.fold, ?)'] * len(asked))}"
            " ORDER BY value.id LIMIT ?",
            " AND ".join('"' + it.replace('"', '""') + '"' for it in parts),
            MOST_WEIGHED,
            *fields,
            *asked,
            most,
        )
        return [Value(*it) for it in found]

    def with_words(self, words: str, fields: Sequence[str], most: int) -> list[Value]:
        """Returns values of some fields that have all words of a text, or words that begin so, the best first."""
        asked = " ".join(f'"{it}" *' for it in fold(words).replace('"', " ").split())
        if not asked:
            return []
        # (what begins with two letters has no best)
        order = "rank" if any(len(it) >= PART for it in fold(words).split()) else "value_words.rowid"
        found = self.journal.all(
            "SELECT value.id, owner, field, tag, text, source, plan FROM value_words"
            " JOIN value ON value.id = value_words.rowid"
            f" WHERE value_words MATCH ? AND field IN ({marks_of(fields)}) ORDER BY {order} LIMIT ?",
            asked,
            *fields,
            most,
        )
        return [Value(*it) for it in found]


def write_values(rows: sqlite3.Connection, plan: int, requests: Iterable[Request]) -> None:
    """Makes the changes of requests `set` in the tables, in the transaction that ends their plan."""
    for it in requests:
        old, new, key = text_of(it["old"]), text_of(it["new"]), (it["owner"], it["field"], it["tag"])
        its = (source_of(it["new"]), plan)
        if old is None:
            done = rows.execute("INSERT INTO value VALUES (NULL, ?, ?, ?, ?, ?, ?)", (*key, new, *its))
            number = done.lastrowid
        else:
            (number,) = rows.execute(f"SELECT id FROM value WHERE {SAME}", (*key, old)).fetchone()
            for index in INDEXES:
                rows.execute(f"DELETE FROM {index} WHERE rowid = ?", (number,))
        if new is None:
            rows.execute("DELETE FROM value WHERE id = ?", (number,))
            continue
        if old is not None:
            # (a value that is changed keeps its place among several)
            rows.execute("UPDATE value SET text = ?, source = ?, plan = ? WHERE id = ?", (new, *its, number))
        for index in INDEXES:
            rows.execute(f"INSERT INTO {index} (rowid, fold) VALUES (?, ?)", (number, fold(new)))
