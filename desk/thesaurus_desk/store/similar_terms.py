"""Groups of concepts with terms that are mistaken for one another: by case and signs, a qualifier, or the plural."""
from __future__ import annotations

import json
import re
from collections.abc import Iterable
from itertools import chain

from thesaurus_desk.store.replica import Replica
from thesaurus_desk.store.text_keys import WORD

# Of each concept of a group, its terms that are alike, with their languages.
Group = dict[int, list[tuple[str, str]]]
# Of a language and a key, the folded texts that have it.
Families = dict[tuple[str, str], set[str]]
# A term: the folded text, the concept, the text.
Found = tuple[str, int, str]

# The endings of the plural in languages, each with what the singular has in its place. Folded texts have no accents.
PLURALS = (
    *(("en", "ies", "y"), ("en", "ves", "f"), ("en", "ves", "fe"), ("en", "es", ""), ("en", "es", "is")),
    *(("en", "s", ""), ("en", "men", "man")),
    *(("de", "en", ""), ("de", "en", "um"), ("de", "en", "a"), ("de", "n", ""), ("de", "er", "")),
    *(("de", "e", ""), ("de", "s", "")),
    *(("fr", "aux", "al"), ("fr", "x", ""), ("fr", "s", "")),
    *(("es", "ces", "z"), ("es", "es", ""), ("es", "s", "")),
    *(("it", "i", "o"), ("it", "i", "e"), ("it", "e", "a")),
    *(("nl", "en", ""), ("nl", "s", "")),
)
# The shortest text that is taken for a singular.
SHORTEST = 3
# What parts homographs, behind a term.
QUALIFIER = re.compile(r"\s*\([^()]*\)$")
# The texts that several concepts have; those with a sign; those with a qualifier; and those beside their singulars.
DOUBLE = (
    "SELECT tag, fold FROM label INDEXED BY label_az WHERE kind < 3 GROUP BY tag, fold HAVING min(owner) < max(owner)"
)
SIGNED = "SELECT DISTINCT tag, fold FROM label INDEXED BY label_az WHERE kind < 3 AND fold GLOB '*[^a-z0-9 ]*'"
QUALIFIED = "SELECT DISTINCT tag, fold FROM label INDEXED BY label_az WHERE kind < 3 AND fold LIKE '%)'"
PLURAL = f"""
SELECT l.tag, s.fold, l.fold FROM label l INDEXED BY label_az CROSS JOIN label s INDEXED BY label_az
ON s.tag = ?1 AND s.fold = substr(l.fold, 1, length(l.fold) - length(?2)) || ?3 AND s.kind < 3 AND s.owner <> l.owner
WHERE l.tag = ?1 AND l.kind < 3 AND l.fold LIKE '%' || ?2 AND length(s.fold) >= {SHORTEST}
"""
# The terms of live concepts of a scheme that have one of some texts.
TERMS = """
SELECT r.scheme, l.tag, l.fold, l.owner, l.text
FROM (SELECT value ->> 0 AS tag, value ->> 1 AS fold FROM json_each(?2)) asked
CROSS JOIN label l INDEXED BY label_az ON l.tag = asked.tag AND l.fold = asked.fold AND l.kind < 3
CROSS JOIN resource r ON r.num = l.owner AND r.kind = 2 AND r.live = 1 AND (?1 IS NULL OR r.scheme = ?1)
ORDER BY l.owner, l.kind = 1, l.tag, l.text
"""


def words_as_one(folded: str) -> str:
    """Returns the words of a folded text, without signs."""
    return " ".join(WORD.findall(folded))


def families_of(rows: Iterable[tuple[str, ...]]) -> Families:
    """Returns families of a language, a key and a folded text each; the key is a text of its family, too."""
    families: Families = {}
    for tag, key, folded in rows:
        families.setdefault((tag, key), {key}).add(folded)
    return families


def alike(store: Replica, scheme: int | None) -> list[Group]:
    """Returns concepts of a scheme with terms in a language that differ only in case, accents and signs."""
    rows = chain(store.all(DOUBLE), store.all(SIGNED))
    return groups_of(store, scheme, families_of((tag, words_as_one(folded), folded) for tag, folded in rows))


def homographs(store: Replica, scheme: int | None) -> list[Group]:
    """Returns concepts with the same term, of which one has a qualifier and another one has none."""
    rows = ((tag, QUALIFIER.sub("", folded), folded) for tag, folded in store.all(QUALIFIED))
    return groups_of(store, scheme, families_of(rows), is_mixed=True)


def plurals(store: Replica, scheme: int | None) -> list[Group]:
    """Returns concepts of which one has the singular of another one's term."""
    asked = [(tag, plural, its) for lang, plural, its in PLURALS for tag in store.tags_of(lang)]
    rows = chain.from_iterable(store.all(PLURAL, *it) for it in asked)
    return groups_of(store, scheme, families_of(rows), is_mixed=True)


def groups_of(store: Replica, scheme: int | None, families: Families, is_mixed: bool = False) -> list[Group]:
    """Returns the concepts of each family in each scheme, if there are several; concepts of several families are one
    group. `is_mixed`: some of a group have the key itself, and others only other texts."""
    same = {key: them for key, them in terms_of(store, scheme, families).items() if len({it[1] for it in them}) > 1}
    groups: dict[tuple[int, ...], Group] = {}
    for (_, tag, key), them in sorted(same.items(), key=lambda pair: pair[0][1:]):
        concepts = {number for _, number, _ in them}
        having = {number for folded, number, _ in them if folded == key}
        if is_mixed and having in (set(), concepts):
            continue
        group = groups.setdefault(tuple(sorted(concepts)), {})
        for number in sorted(concepts):
            group.setdefault(number, []).extend(sorted((tag, text) for _, its, text in them if its == number))
    return list(groups.values())


def terms_of(store: Replica, scheme: int | None, families: Families) -> dict[tuple[int, str, str], list[Found]]:
    """Returns the terms of each family, by their schemes, languages and keys."""
    keys: dict[tuple[str, str], list[str]] = {}
    for (tag, key), texts in families.items():
        for folded in texts:
            keys.setdefault((tag, folded), []).append(key)
    found: dict[tuple[int, str, str], list[Found]] = {}
    for its_scheme, tag, folded, number, text in store.all(TERMS, scheme, json.dumps(list(keys))):
        for key in keys[tag, folded]:
            found.setdefault((its_scheme, tag, key), []).append((folded, number, text))
    return found
