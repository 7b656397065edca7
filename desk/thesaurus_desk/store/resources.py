"""Look-ups of resources: what they are, their labels and links."""
from __future__ import annotations

import json
import sqlite3
from collections.abc import Callable, Iterable, Sequence

from thesaurus_desk.store.model import Link, Resource, Term, View, best_of, normal, view_of
from thesaurus_desk.store.postings import Postings
from thesaurus_desk.store.read_transactions import ReadTransactions, Row, in_one_transaction
from thesaurus_desk.store.schema import KIND_NUMBER, KINDS, LINK_NUMBER, TYPE_NUMBER
from thesaurus_desk.store.text_keys import sort_text
from thesaurus_tools.kinds import BROADER
from thesaurus_tools.table_store import KIND_OF_LABEL, KIND_OF_LINK, KIND_OF_TYPE

# A concept and those below it, as the table `below (n)`; ?1 is the concept.
BELOW = "WITH RECURSIVE below (n) AS (VALUES (?1) UNION SELECT hier.a FROM below JOIN hier ON hier.b = n) "
BROADER_OF = "SELECT DISTINCT b FROM hier WHERE a = ?"


COUNTS = {
    name: f"SELECT coalesce(max(num), 0) FROM {table}"
    for name, table in (("resources", "resource"), ("postings", "posting"), ("moves", "move"))
}


def counts_of(rows: sqlite3.Connection) -> dict[str, int]:
    """Returns how many resources, postings and moves a connection sees."""
    return {name: rows.execute(query).fetchone()[0] for name, query in COUNTS.items()}


class Resources(ReadTransactions):
    """Resources by their numbers and IRIs, and their links."""

    postings: Postings
    # What is known of the names of a concept elsewhere, by its IRI.
    names: Callable[[str], Sequence[Term]]

    # --- one resource ---

    @property
    def base(self) -> str:
        """What the IRIs of the store's own resources begin with; it never changes."""
        # (an export asks for it at each triple)
        known = self.kept.get("base")
        return known[1] if known else self.once("base", lambda: str(self.value("SELECT base FROM meta")), ())

    @in_one_transaction
    def look_at(self, numbers: Iterable[int]) -> None:
        """Reads what links to resources show, of all in two queries: what they are, and their preferred terms."""
        transaction = self.transaction
        wanted = [it for it in numbers if it not in transaction.terms]
        if not wanted:
            return
        transaction.make_room(len(wanted))
        where, value = (
            ("= ?", wanted[0]) if len(wanted) == 1 else ("IN (SELECT value FROM json_each(?))", json.dumps(wanted))
        )
        for it in wanted:
            transaction.terms[it], transaction.heads[it] = [], None
        for row in self.all(f"SELECT num, kind, scheme, live, replaced FROM resource WHERE num {where}", value):
            transaction.heads[row[0]] = row
        labels = f"SELECT owner, tag, text, sort FROM label WHERE kind = 1 AND owner {where} ORDER BY owner, tag, text"
        for owner, tag, text, key in self.all(labels, value):
            transaction.terms[owner].append((tag, text, key))

    @in_one_transaction
    def head(self, number: int) -> Row | None:
        """Returns the row of a resource: number, kind, scheme, whether it is live, what it was merged into."""
        if number not in self.transaction.heads:
            self.look_at([number])
        return self.transaction.heads[number]

    def kind(self, number: int) -> str | None:
        """Returns the kind of a resource: scheme, concept, collection or outside."""
        found = self.head(number)
        return KINDS[found[1]] if found else None

    def scheme_of(self, number: int) -> int | None:
        """Returns the scheme of a resource: that in which it is, or itself."""
        found = self.head(number)
        return (number if KINDS[found[1]] == "scheme" else found[2]) if found else None

    def is_live(self, number: int) -> bool:
        """Whether there is a resource of a number, and it is live."""
        found = self.head(number)
        return found is not None and found[3] == 1

    def resource(self, number: int) -> Resource:
        """Returns the resource of a number that there is. Raises KeyError."""
        found = self.get(number)
        if found is None:
            raise KeyError(number)
        return found

    @in_one_transaction
    def get(self, number: int) -> Resource | None:
        """Returns a resource with its labels and links; it must not be changed."""
        known = self.transaction.resources
        if number not in known:
            row = self.head(number)
            known[number] = self.made_of(row) if row else None
        found: Resource | None = known[number]
        return found

    def made_of(self, row: Row) -> Resource:
        """Returns the resource of a row, with its labels and links."""
        number = row[0]
        iri = self.value("SELECT iri FROM outside WHERE num = ?", number) if KINDS[row[1]] == "outside" else None
        it = Resource(number, KINDS[row[1]], row[2], row[3] == 1, row[4], iri)
        labels = self.all("SELECT kind, tag, text FROM label WHERE owner = ?", number)
        it.labels = {(KIND_OF_LABEL[kind], tag, text) for kind, tag, text in labels}
        for broader, typ in self.all("SELECT b, typ FROM hier WHERE a = ?", number):
            it.broader.setdefault(broader, set()).add(KIND_OF_TYPE[typ])
        for narrower, typ in self.all("SELECT a, typ FROM hier WHERE b = ?", number):
            it.narrower.setdefault(narrower, set()).add(KIND_OF_TYPE[typ])
        both = "SELECT kind, a, b FROM link WHERE a = ?1 UNION ALL SELECT kind, a, b FROM link WHERE b = ?1"
        for kind, a, b in self.all(both, number):
            other = b if a == number else a
            if KIND_OF_LINK[kind] == "related":
                it.related.add(other)
            elif KIND_OF_LINK[kind] == "member":
                (it.members if a == number else it.collections).add(other)
            else:
                it.matches.add(Link(KIND_OF_LINK[kind], a, b))
        return it

    @in_one_transaction
    def view(self, number: int) -> View | None:
        """Returns a resource as it is now, of any kind, live or dead."""
        known = self.transaction.views
        if number not in known:
            it = self.get(number)
            known[number] = view_of(it, self.base, self.postings.count_at(number)) if it else None
        found: View | None = known[number]
        return found

    @in_one_transaction
    def iri(self, number: int) -> str:
        """Returns the IRI of a resource."""
        head = self.transaction.heads.get(number)
        if head is not None and KINDS[head[1]] != "outside":
            return f"{self.base}{number}"
        return self.value("SELECT iri FROM outside WHERE num = ?", number) or f"{self.base}{number}"

    @in_one_transaction
    def by_iri(self, iri: str) -> int | None:
        """Returns the number of the resource that has an IRI."""
        found: int | None = self.value("SELECT num FROM outside WHERE iri = ?", iri)
        if found is not None:
            return found
        rest = iri.removeprefix(self.base) if iri.startswith(self.base) else ""
        is_number = rest.isascii() and rest.isdigit() and not rest.startswith("0") and len(rest) < 11
        return int(rest) if is_number and self.head(int(rest)) else None

    @in_one_transaction
    def outside_named(self, text: str) -> list[int]:
        """Returns the concepts elsewhere whose address is a text, or ends with it after one of / # = : if it may be an
        identifier, of three characters or more with a digit among them."""
        found = self.numbers_of("SELECT num FROM outside WHERE iri = ?", text)
        if found or len(text) < 3 or not any(it.isdigit() for it in text) or any(it.isspace() for it in text):
            return found
        ends = [f"{sign}{text}" for sign in "/#=:"]
        query = "SELECT num FROM outside WHERE substr(iri, -?) IN (?, ?, ?, ?) ORDER BY num"
        return self.numbers_of(query, len(text) + 1, *ends)

    @in_one_transaction
    def best_term(self, number: int, langs: Iterable[str] = ()) -> tuple[str, str, str]:
        """Returns the language, the text and the sort key of a resource's term, as `term` chooses it."""
        found = self.head(number)
        preferred = self.transaction.terms[number]
        if not preferred:
            iri = self.value("SELECT iri FROM outside WHERE num = ?", number) if found else None
            named = self.names(iri) if iri else ()
            text = str(iri or f"[{number}]")
            preferred += [(tag, name, sort_text(name)) for tag, name in named] or [("", text, sort_text(text))]
        return best_of(preferred, langs) or preferred[0]

    def term(self, number: int, langs: Iterable[str] = ()) -> Term:
        """Returns the preferred label in the first language that has one, else in any; of a concept
        elsewhere what it is called there; else the IRI or the number."""
        return self.best_term(number, langs)[:2]

    @in_one_transaction
    def final(self, number: int) -> int | None:
        """Returns the live concept to which replacements lead from a concept."""
        found = self.head(number)
        while found and not found[3]:
            found = self.head(found[4] or 0)
        return found[0] if found else None

    @in_one_transaction
    def replacements(self, number: int) -> list[int]:
        """Returns the concept and, if it was merged, what it was merged into, one after another."""
        way, found = [number], self.head(number)
        while found and found[4] is not None:
            way.append(found[4])
            found = self.head(found[4])
        return way

    def merged_into(self, number: int) -> list[int]:
        """Returns the concepts that were merged into a concept."""
        return self.numbers_of("SELECT num FROM resource WHERE replaced = ? ORDER BY num", number)

    # --- many ---

    def numbers(self, kind: str, scheme: int | None = None, live: bool | None = None) -> list[int]:
        """Returns the numbers of the resources of a kind: of a scheme, live or dead ones, if that is asked for."""
        tests, values = ["kind = ?"], [KIND_NUMBER.get(kind, 0)]
        for name, value in (("scheme", scheme), ("live", live)):
            if value is not None:
                tests.append(f"{name} = ?")
                values.append(int(value))
        return self.numbers_of(f"SELECT num FROM resource WHERE {' AND '.join(tests)} ORDER BY num", *values)

    def count_concepts(self, scheme: int | None = None) -> int:
        """Returns the number of live concepts, of a scheme if one is named."""
        query = "SELECT sum(value) FROM total WHERE name = 'live' AND (?1 IS NULL OR about = ?1)"
        return self.once(("live", scheme), lambda: self.value(query, scheme) or 0, ("resources",))

    @in_one_transaction
    def ordered(self, numbers: Iterable[int], langs: Sequence[str] = ()) -> list[int]:
        """Returns resources in the order of their terms in the reader's languages."""
        found = list(numbers)
        if len(found) < 2:
            return found
        self.look_at(found)
        return sorted(found, key=lambda it: (self.best_term(it, langs)[2], it))

    def tops(self, scheme: int) -> list[int]:
        """Returns the live concepts of a scheme that have no broader concept."""
        query = (
            "SELECT num FROM resource WHERE kind = 2 AND scheme = ? AND live = 1"
            " AND NOT EXISTS (SELECT 1 FROM hier WHERE a = num) ORDER BY num"
        )
        return list(self.once(("tops", scheme), lambda: self.numbers_of(query, scheme), ("links", "resources")))

    def counts(self) -> dict[str, int]:
        """Returns how many resources, postings and moves there are. These numbers never become less."""
        return {name: self.value(query) for name, query in COUNTS.items()}

    # --- links ---

    @in_one_transaction
    def link_types(self, narrower: int, broader: int) -> tuple[str, ...]:
        """Returns the kinds of the links that lead from a concept to a broader one: `broader` is untyped."""
        branch = self.transaction.branches.get(broader)
        if branch is not None:
            return branch.get(narrower, ())
        found = self.numbers_of("SELECT typ FROM hier WHERE a = ? AND b = ? ORDER BY typ", narrower, broader)
        return tuple(BROADER[it] for it in found)

    def links_between(self, one: int, other: int) -> list[Link]:
        """Returns all links between two resources, as the store has them."""
        found = self.get(one)
        return sorted(it for it in found.links() if other in it[1:]) if found else []

    def normal(self, link: Link) -> Link:
        """Returns a link as the store has it."""
        return normal(link, self.kind(link.b) == "outside")

    def has_link(self, link: Link) -> bool:
        """Whether there is a link."""
        kind, a, b = self.normal(link)
        if kind in TYPE_NUMBER:
            return self.one("SELECT 1 FROM hier WHERE a = ? AND b = ? AND typ = ?", a, b, TYPE_NUMBER[kind]) is not None
        return self.one("SELECT 1 FROM link WHERE a = ? AND kind = ? AND b = ?", a, LINK_NUMBER[kind], b) is not None

    @in_one_transaction
    def branch(self, number: int) -> dict[int, tuple[str, ...]]:
        """Returns the narrower concepts of a concept, with the kinds of the links that lead from each to it."""
        known = self.transaction.branches
        if number not in known:
            known[number] = {}
            # (what a tree shows of each is read with them: how many are below it)
            count = "SELECT count(DISTINCT x.a) FROM hier x WHERE x.b = h.a"
            query = f"SELECT a, group_concat(typ), ({count}) FROM hier h WHERE b = ? GROUP BY a"
            for low, types, its in self.all(query, number):
                known[number][low] = tuple(BROADER[int(it)] for it in sorted(types.split(",")))
                self.transaction.narrower[low] = its
        return known[number]

    @in_one_transaction
    def count_narrower(self, number: int) -> int:
        """Returns the number of narrower concepts of a concept."""
        known = self.transaction.narrower
        if number not in known:
            known[number] = self.value("SELECT count(DISTINCT a) FROM hier WHERE b = ?", number) or 0
        return known[number]

    @in_one_transaction
    def above(self, numbers: Iterable[int]) -> dict[int, list[int]]:
        """Returns the broader concepts of several ones."""
        found: dict[int, list[int]] = {it: [] for it in numbers}
        query = "SELECT DISTINCT a, b FROM hier WHERE a IN (SELECT value FROM json_each(?))"
        for low, high in self.all(query, json.dumps(list(found))):
            found[low].append(high)
        return found

    @in_one_transaction
    def path_up(self, number: int, langs: Sequence[str] = ()) -> list[int]:
        """Returns a way from a top concept down to a concept, by the first broader one in alphabetical order."""
        way = [number]
        while above := self.numbers_of(BROADER_OF, way[0]):
            way.insert(0, self.ordered(above, langs)[0])
        self.look_at(way)
        return way

    def below(self, number: int) -> frozenset[int]:
        """Returns a concept and those below it."""
        find = BELOW + "SELECT n FROM below"
        return self.once(
            ("concepts below", number), lambda: frozenset((number, *self.numbers_of(find, number))), ("links",)
        )

    @in_one_transaction
    def ring(self, low: int, high: int) -> list[int]:
        """Returns the shortest chain up from one concept to another, both among them; empty if there is none.

        A broader match is broader, too, and chains run through other schemes and outside concepts."""
        return shortest_way(low, high, self.chained)

    def chained(self, number: int, up: bool = True) -> set[int]:
        """Returns what is broader than a node (or narrower) by one link or match."""
        it = self.resource(number)
        kind = "broad" if up else "narrow"
        return {*(it.broader if up else it.narrower), *(other for its, other in it.mappings() if its == kind)}


def shortest_way(low: int, high: int, above: Callable[[int], Iterable[int]]) -> list[int]:
    """Returns the shortest chain up from one to another, both among them; empty if there is none."""
    came: dict[int, int | None] = {low: None}
    waiting = [low]
    for at in waiting:
        for it in sorted(above(at)):
            if it not in came:
                came[it] = at
                waiting.append(it)
            if it == high:
                way = [high]
                node: int | None = at
                while node is not None:
                    way.append(node)
                    node = came[node]
                return way[::-1]
    return []
