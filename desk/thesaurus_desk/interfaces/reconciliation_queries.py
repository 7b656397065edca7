"""The queries of the Reconciliation Service API 0.2, as OpenRefine sends them: concepts for names, by scores."""
from __future__ import annotations

import json
from collections import Counter
from dataclasses import dataclass, field
from typing import Any

from thesaurus_desk.interfaces.source import Source
from thesaurus_desk.store.model import Hit
from thesaurus_desk.store.replica import Replica
from thesaurus_desk.store.search import MOST_WEIGHED
from thesaurus_tools.ntriples import SKOS
from thesaurus_tools.texts import fold

Json = dict[str, Any]
MOST_QUERIES, MOST_RESULTS, USUAL_RESULTS, LONGEST = 200, 50, 5, 300
# The types and the values of properties of one query.
MOST_TYPES, MOST_VALUES = 8, 20
# What the queries of one request may cost together: searches; labels that are weighed; hits that get a score; results.
SEARCHES, LABELS, HITS, RESULTS = 400, 20_000, 8_000, 2_000
# Types that each concept has, beside its scheme.
ANY_TYPE = ("skos:Concept", SKOS + "Concept")
# How a query means its types. (OpenRefine says "should" of the type that a user has chosen, which is a filter there.)
STRICT = ("any", "all", "should")


class BadQuery(ValueError):
    """A request that isn't in the form of the API."""


def likeness(one: str, other: str) -> float:
    """Returns from 0 to 1 how many of their pairs of characters two texts have in common."""
    pairs, others = pairs_of(one), pairs_of(other)
    both = sum((pairs & others).values())
    return 2 * both / max(1, sum(pairs.values()) + sum(others.values()))


def pairs_of(text: str) -> Counter[str]:
    """Returns the pairs of characters of a text, its ends among them."""
    framed = f" {text[:LONGEST]} "
    return Counter(framed[at : at + 2] for at in range(len(framed) - 1))


def score(query: str, hit: Hit) -> float:
    """Returns how well a label fits: 100 for the same preferred term, below 95 for another, less for another text."""
    wanted, found = query.strip(), hit.text
    if fold(wanted) == fold(found):
        return {"pref": 100.0, "alt": 94.0}.get(hit.kind, 92.0) - (0 if wanted == found else 1)
    return round(88 * likeness(fold(wanted), fold(found)) - (0 if hit.kind == "pref" else 3), 1)


@dataclass(frozen=True)
class Query:
    """A query: the text, the schemes (any, if None), how many results, and the broader terms that are asked for."""

    text: str
    schemes: tuple[int, ...] | None
    limit: int
    above: frozenset[str]

    @property
    def searches(self) -> int:
        """How many searches it takes."""
        return 1 if self.schemes is None else len(self.schemes)


@dataclass
class Reconciler:
    """Answers the queries of one request."""

    source: Source
    replica: Replica = field(init=False)
    terms: dict[tuple[int, str], str] = field(default_factory=dict)

    def __post_init__(self) -> None:
        self.replica = self.source.replica()
        self.langs = self.replica.languages() or ["en"]

    def term(self, number: int, lang: str = "") -> str:
        """Returns the term of a concept in a language, if it has one."""
        if (number, lang) not in self.terms:
            self.terms[number, lang] = self.replica.term(number, [it for it in (lang, *self.langs) if it])[1]
        return self.terms[number, lang]

    # --- reading queries ---

    def read(self, query: Any) -> Query:
        """Returns a query. Raises BadQuery."""
        if not isinstance(query, dict):
            raise BadQuery("a query is an object with a text `query`")
        text, limit = query.get("query", ""), query.get("limit", USUAL_RESULTS)
        # (a cell of a table may be a number)
        if isinstance(text, bool) or not isinstance(text, str | int | float):
            raise BadQuery("a query is an object with a text `query`")
        is_number = isinstance(limit, int) and not isinstance(limit, bool)
        limit = max(1, min(limit, MOST_RESULTS)) if is_number else USUAL_RESULTS
        above = frozenset(self.parents_of(query.get("properties")))
        strict = query.get("type_strict") or "any"
        if strict not in STRICT:
            raise BadQuery(f"type_strict is one of {', '.join(STRICT)}")
        schemes = self.schemes_of(query.get("type"), needs_all=strict == "all")
        return Query(str(text)[:LONGEST].strip(), schemes, limit, above)

    def schemes_of(self, asked: Any, needs_all: bool) -> tuple[int, ...] | None:
        """Returns the schemes that the types of a query name, each once: None without types, and nothing for types that
        no concept has, or not all of them at once. Raises BadQuery for too many."""
        types = asked if isinstance(asked, list) else [asked] if asked else []
        names = dict.fromkeys(str(it.get("id", "")) if isinstance(it, dict) else str(it) for it in types)
        others = [it for it in names if it not in ANY_TYPE]
        if not others or len(others) < len(names) and not needs_all:
            return None
        if len(names) > MOST_TYPES:
            raise BadQuery(f"a query has at most {MOST_TYPES} types")
        found = dict.fromkeys(self.source.number_of(it) for it in others)
        schemes = tuple(it for it in found if it is not None and self.replica.kind(it) == "scheme")
        # (a concept has one scheme)
        return () if needs_all and (len(found) > 1 or not schemes) else schemes

    def parents_of(self, properties: Any) -> list[str]:
        """Returns the broader terms that a query asks for, folded."""
        given = properties if isinstance(properties, list) else []
        values = [it.get("v") for it in given if isinstance(it, dict) and it.get("pid") == "broader"]
        flat = [one for it in values for one in (it if isinstance(it, list) else [it]) if one]
        names = [
            str(it.get("name", it.get("id", ""))) if isinstance(it, dict) else str(it) for it in flat[:MOST_VALUES]
        ]
        return [fold(it[:LONGEST]) for it in names]

    # --- answering them ---

    def answer_all(self, asked: dict[str, Any]) -> Json:
        """Returns the answers to queries by their names. Raises BadQuery."""
        queries = {name: self.read(it) for name, it in asked.items()}
        searches = sum(it.searches for it in queries.values())
        if searches > SEARCHES:
            raise BadQuery(f"the queries of a request may name {SEARCHES} types in all, not {searches}")
        # (what many queries cost is shared among them, so that no request takes long)
        labels, hits = min(MOST_WEIGHED, LABELS // max(1, searches)), min(2 * MOST_RESULTS, HITS // max(1, searches))
        share = Share(labels, hits, RESULTS // max(1, len(queries)))
        known: dict[Query, list[Json]] = {}
        for query in queries.values():
            if query not in known:
                known[query] = self.answer(query, share)
        return {name: {"result": known[query]} for name, query in queries.items()}

    def answer(self, query: Query, share: Share) -> list[Json]:
        """Returns the concepts that a query may mean, the best first."""
        scored = {it.number: (self.value(query, it), it) for it in self.hits(query, share)}
        if named := self.named(query):
            scored[named.number] = (100.0, named)
        order = sorted(scored.values(), key=lambda it: (-it[0], it[1].number))
        best = [self.result(value, it) for value, it in order[: min(query.limit, share.results)]]
        is_clear = len(order) == 1 or len(order) > 1 and order[1][0] < 92
        if best and best[0]["score"] >= 92 and is_clear:
            best[0]["match"] = True
        return best

    def hits(self, query: Query, share: Share) -> list[Hit]:
        """Returns what a search finds."""
        found: list[Hit] = []
        for scheme in [None] if query.schemes is None else query.schemes:
            found += self.replica.search(query.text, scheme=scheme, live=True, most=share.hits, weigh=share.labels)
        return found

    def named(self, query: Query) -> Hit | None:
        """Returns the concept that the text of a query names by its IRI or number: of a merged one that which replaces
        it."""
        number = self.source.number_of(query.text)
        final = self.replica.final(number) if number is not None and self.replica.kind(number) == "concept" else None
        found = self.replica.get(final) if final is not None else None
        if found is None or query.schemes is not None and found.scheme not in query.schemes:
            return None
        return Hit(found.number, "pref", *self.replica.term(found.number, self.langs))

    def value(self, query: Query, hit: Hit) -> float:
        """Returns the score of a hit: a broader term that doesn't fit costs a quarter."""
        value = score(query.text, hit)
        if query.above:
            above = self.replica.path_up(hit.number)[:-1]
            terms = {
                fold(text) for it in above if (view := self.replica.view(it)) for _, text in (*view.pref, *view.alt)
            }
            value *= 1 if terms & query.above else 0.75
        return round(value, 1)

    def result(self, value: float, hit: Hit) -> Json:
        """Returns a hit as the API has it."""
        way = self.way(hit.number, " > ")
        by = f" (by “{hit.text}”)" if hit.kind != "pref" else ""
        found: Json = {"id": str(hit.number), "name": self.term(hit.number, hit.tag), "score": value, "match": False}
        return {**found, "type": self.types(hit.number), "description": f"{way}{by}".strip()}

    def way(self, number: int, between: str) -> str:
        """Returns the terms above a concept, the top term first."""
        return between.join(self.term(it) for it in self.replica.path_up(number, self.langs)[:-1])

    def types(self, number: int) -> list[Json]:
        """Returns the scheme of a concept, as its type."""
        found = self.replica.get(number)
        return [{"id": str(found.scheme), "name": self.term(found.scheme)}] if found and found.scheme else []


@dataclass(frozen=True)
class Share:
    """What one search may cost, and how many results one query may have."""

    labels: int
    hits: int
    results: int


def read_json(text: str) -> Any:
    """Returns the value of a text. Raises BadQuery for what is no JSON."""
    try:
        return json.loads(text)
    except (ValueError, RecursionError):
        raise BadQuery("no JSON") from None


def read_queries(given: str) -> dict[str, Any]:
    """Returns the queries of a batch by their names. Raises BadQuery."""
    asked = read_json(given)
    if not isinstance(asked, dict) or len(asked) > MOST_QUERIES:
        raise BadQuery(f"queries is an object of at most {MOST_QUERIES} queries")
    return asked
