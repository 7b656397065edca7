"""Lists of concepts on which work is to be done, found by SQL."""
from __future__ import annotations

from collections import Counter
from collections.abc import Callable, Sequence
from dataclasses import dataclass, field
from typing import Any

from thesaurus_desk.store import quality, similar_terms
from thesaurus_desk.store.model import Link
from thesaurus_desk.store.quality import LIVE
from thesaurus_desk.store.replica import Replica
from thesaurus_desk.store.schema import PARTS
from thesaurus_desk.store.similar_terms import Group

# The most that the list of the busiest concepts has.
MOST_BUSY = 200
# What the names of counts of languages begin with, and of how many languages these are kept.
LANGUAGE, MOST_COUNTED = "term.", 40


@dataclass(frozen=True)
class WorkList:
    """A list: concepts in the order in which they are shown; groups of them; or links, each of which is doubtful."""

    numbers: list[int]
    groups: list[Group] = field(default_factory=list)
    links: list[Link] = field(default_factory=list)

    @property
    def rows(self) -> Sequence[Any]:
        """What is counted."""
        return self.links or self.groups or self.numbers


# Whether a concept has a preferred term in the language ?2, whose other tags begin with ?3.
HAS_TERM = (
    "EXISTS (SELECT 1 FROM label WHERE owner = r.num AND kind = 1 AND (tag = ?2 OR substr(tag, 1, length(?3)) = ?3))"
)
HAS_NARROWER = "EXISTS (SELECT 1 FROM hier WHERE b = r.num)"
ORPHANS = f"""
SELECT r.num FROM {LIVE} AND NOT EXISTS (SELECT 1 FROM hier WHERE a = r.num) AND NOT {HAS_NARROWER}
AND NOT EXISTS (SELECT 1 FROM link k WHERE k.a = r.num AND k.kind = 2)
AND NOT EXISTS (SELECT 1 FROM link k WHERE k.b = r.num AND k.kind = 2)
"""
UNUSED = f"""
SELECT r.num FROM {LIVE} AND NOT {HAS_NARROWER}
AND NOT EXISTS (SELECT 1 FROM posting WHERE at = r.num AND withdrawn = 0)
"""
# Returns which concepts of a scheme a list has, or of all schemes; some lists are of a language.
Finder = Callable[[Replica, "int | None", str], "list[int]"]


def by_query(query: str, *values: object) -> Finder:
    """Returns what finds concepts by a query with the scheme as ?1."""

    def look(store: Replica, scheme: int | None, lang: str) -> list[int]:
        return store.numbers_of(query, scheme, *values)

    return look


def without_language(store: Replica, scheme: int | None, lang: str) -> list[int]:
    """Returns the concepts without a preferred term in a language."""
    query = f"SELECT r.num FROM {LIVE} AND NOT {HAS_TERM} ORDER BY r.num"
    return store.numbers_of(query, scheme, lang, f"{lang}-")


def languages_of(tag: str) -> list[str]:
    """Returns the languages of a tag: `de-at` is `de`, too."""
    parts = tag.split("-")
    return ["-".join(parts[: end + 1]) for end in range(len(parts))]


def count_untranslated(store: Replica, langs: Sequence[str]) -> dict[str, int]:
    """Returns how many concepts have no preferred term in each language."""
    owners = "label l JOIN resource r ON r.num = l.owner WHERE l.kind = 1 AND r.kind = 2 AND r.live = 1"

    def count() -> tuple[int, Counter[str]]:
        tags = store.all(f"SELECT DISTINCT l.owner, l.tag FROM {owners}")
        having = {(owner, lang) for owner, tag in tags for lang in languages_of(tag)}
        return store.count_concepts(), Counter(lang for _, lang in having)

    count_of_all, having = store.once("having languages", count, ("labels", "resources"))
    return {lang: count_of_all - having[lang] for lang in langs}


def busiest(store: Replica, scheme: int | None, lang: str) -> list[int]:
    """Returns the concepts that have most records, those with most first."""
    counts = (
        "SELECT at, count(DISTINCT record) AS records FROM posting INDEXED BY posting_place WHERE withdrawn = 0"
        " GROUP BY at"
    )
    query = f"SELECT r.num FROM ({counts}) JOIN {LIVE} AND r.num = at ORDER BY records DESC, r.num LIMIT ?2"
    return store.numbers_of(query, scheme, MOST_BUSY)


LISTS: dict[str, Finder] = {
    "untranslated": without_language,
    "undefined": by_query(quality.UNDEFINED),
    "orphans": by_query(ORPHANS),
    "single_child": by_query(quality.SINGLE_CHILD),
    "deep": by_query(quality.DEEP, quality.MOST_LEVELS),
    "wide": by_query(quality.WIDE, quality.MOST_NARROWER),
    "unmapped": by_query(quality.UNMAPPED),
    "unused": by_query(UNUSED),
    "busiest": busiest,
    "dead_ends": by_query(quality.DEAD_ENDS),
    "lost_sources": by_query(quality.LOST_SOURCES),
}
# Of each list of concepts whose terms are mistaken for one another, the groups; and of each of links, the links.
GROUPS: dict[str, Callable[[Replica, int | None], list[Group]]] = {
    "alike": similar_terms.alike,
    "homographs": similar_terms.homographs,
    "plurals": similar_terms.plurals,
}
LINKS: dict[str, Callable[[Replica, int | None], list[Link]]] = {
    "related_siblings": quality.related_siblings,
    "redundant": quality.redundant,
    "mapped_twice": quality.mapped_twice,
}
KINDS = (*LISTS, *GROUPS, *LINKS)

# The parts of the store of which each list is made; its order is that of terms.
MADE_OF = {
    "untranslated": ("labels", "resources"),
    "orphans": ("labels", "links", "resources"),
    "unused": PARTS,
    "busiest": ("postings", "resources"),
    "dead_ends": ("postings", "resources"),
    **dict.fromkeys(("single_child", "deep", "wide", "unmapped", *LINKS), ("links", "resources")),
    **dict.fromkeys(GROUPS, ("labels", "resources")),
}
# The lists of which values are a part, too: they are made for each page.
OF_VALUES = ("undefined", "lost_sources")


def find(store: Replica, kind: str, scheme: int | None, lang: str) -> list[Any]:
    """Returns what a list has, in no order; it is kept until something changes of which it is made."""
    its_lang = lang if kind == "untranslated" else ""

    def make() -> list[Any]:
        if kind in LISTS:
            return LISTS[kind](store, scheme, its_lang)
        return (GROUPS.get(kind) or LINKS[kind])(store, scheme)

    return make() if kind in OF_VALUES else store.once(("found", kind, scheme, its_lang), make, MADE_OF[kind])


def count_list(store: Replica, kind: str) -> int:
    """Returns how long a list is that depends on no language."""
    return len(find(store, kind, None, ""))


def count_quality(store: Replica) -> dict[str, int]:
    """Returns what is counted each day: concepts, lists, and the concepts with a term in each language."""
    with store.reading():
        whole = store.count_concepts()
        lists = {it: count_list(store, it) for it in KINDS if it not in ("untranslated", "busiest")}
        lacking = count_untranslated(store, store.languages()[:MOST_COUNTED])
        return {"concepts": whole, **lists, **{f"{LANGUAGE}{tag}": whole - n for tag, n in lacking.items()}}


def make_list(store: Replica, kind: str, scheme: int | None, lang: str, tags: Sequence[str]) -> WorkList:
    """Returns a list of work; it is kept until something changes of which it is made."""

    def order() -> WorkList:
        found = find(store, kind, scheme, lang)
        if kind in GROUPS:
            groups = [{it: them[it] for it in store.ordered(them, tags)} for them in found]
            return WorkList([number for them in groups for number in them], groups)
        if kind in LINKS:
            place = {it: at for at, it in enumerate(store.ordered({it.a for it in found}, tags))}
            links = sorted(found, key=lambda it: (place[it.a], it.b))
            return WorkList(list(place), links=links)
        return WorkList(found if kind == "busiest" else store.ordered(found, tags))

    if kind in OF_VALUES:
        return order()
    return store.once(("work list", kind, scheme, lang, tags[0]), order, (*MADE_OF[kind], "labels"))
