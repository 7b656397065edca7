"""Words without the endings of plurals and cases, in three languages, by which terms are compared and found in texts;
words that say nothing, and the language that they show."""
from __future__ import annotations

import re
from collections import Counter
from collections.abc import Iterable
from functools import lru_cache

from thesaurus_tools.texts import fold

WORD = re.compile(r"\w+")
# Words that say nothing of a text's subject, folded, by languages.
SMALL_WORDS = {
    language: frozenset(words.split())
    for language, words in {
        "en": "a about after all also an and are as at be been but by can for from had has have he her his how if in"
        " into is it its may more no not of on one or other out over she so some such than that the their them then"
        " there these they this to up use used using was were what when where which who will with you your",
        "de": "aber als am an auch auf aus bei bis das dass dem den der des die durch ein eine einem einen einer eines"
        " er es fur gegen hat im in ist kann mit nach nicht noch nur ob oder ohne seine sich sie sind so uber um und"
        " unter vom von vor war wie wird wurde zu zum zur zwischen",
        "fr": "a au aux avec c ce ces cette d dans de des deux du elle en entre est et etre il ils l la le les leur"
        " mais n ne nous on ou par pas plus pour qu que qui s sa se ses son sont sous sur un une",
        "es": "al con de del el ella en entre es esta este fue ha hasta la las lo los mas no o para pero por que se"
        " ser sin sobre su sus un una y",
        "it": "al alla anche che chi come con da dal dalla dei del della delle di e ed gli i il in la le lo nel nella"
        " non o per piu si sono su sua suo tra un una uno",
        "nl": "aan als bij dat de deze die dit door een en er het hij in is met naar niet of om onder ook op over te"
        " tot uit van voor was wordt zijn",
        "pt": "a ao aos as com como da das de do dos e em entre foi mais na nas no nos o os ou para pela pelo por que"
        " se ser sua um uma",
    }.items()
}
ALL_SMALL = frozenset().union(*SMALL_WORDS.values())
# How many small words show a language.
SURE = 2
# Plurals of English that no ending shows.
IRREGULAR = {"buses": "bus", "children": "child", "feet": "foot", "geese": "goose", "mice": "mouse", "teeth": "tooth"}
# The endings of words in German, and how many letters they leave at least: those of one consonant one more.
GERMAN, SHORTEST = ("ern", "em", "en", "er", "es", "e", "n", "s"), 3
quick_fold = lru_cache(1 << 18)(fold)


def language_of(words: Iterable[str]) -> str:
    """Returns the language of a text by its small words, folded; nothing if these don't show it."""
    found = Counter(language for word in words for language, small in SMALL_WORDS.items() if word in small)
    first, *others = [*found.most_common(2), ("", 0)]
    return first[0] if first[1] >= SURE and first[1] > others[0][1] else ""


@lru_cache(1 << 16)
def stem(word: str, tag: str) -> str:
    """Returns a folded word of a language without the endings of its plural and of its cases."""
    make = {"en": english_stem, "de": german_stem, "fr": french_stem}.get(tag.partition("-")[0])
    return make(word) if make else word


def english_stem(word: str) -> str:
    """Returns what an English word has in both numbers: `knives` and `knife`, `berries` and `berry` become alike."""
    if word in IRREGULAR:
        return IRREGULAR[word]
    if len(word) > 3 and word.endswith("men"):
        return f"{word[:-2]}an"
    if len(word) > 3 and word.endswith("s") and not word.endswith(("ss", "us", "is")):
        word = word[:-1]
    if len(word) > 3 and word.endswith("ie"):
        return f"{word[:-2]}y"
    # (cactuses, and not houses)
    if len(word) > 4 and (word.endswith("sse") or word.endswith("use") and word[-4] not in "aeo"):
        return word[:-1]
    if len(word) > 3 and word.endswith(("ve", "fe")):
        return f"{word[:-2]}f"
    return word[:-1] if len(word) > 3 and word.endswith(("xe", "ze", "che", "she", "oe")) else word


def german_stem(word: str) -> str:
    """Returns a German word without its ending; its umlauts are folded already."""
    left = (it for it in GERMAN if word.endswith(it) and len(word) - len(it) >= SHORTEST + (it in ("n", "s")))
    return word.removesuffix(next(left, ""))


def french_stem(word: str) -> str:
    """Returns a French word in the singular."""
    if len(word) > 4 and word.endswith("aux") and not word.endswith("eaux"):
        return f"{word[:-3]}al"
    return word[:-1] if len(word) > 3 and word.endswith(("s", "x")) else word


def forms(word: str) -> set[str]:
    """Returns a folded word in each form that a term may have for it, in any language, and some that none has."""
    found = {word}
    for base in {word, english_stem(word), french_stem(word)}:
        found |= {base, f"{base}s", f"{base}es", f"{base}e", f"{base}x"}
        if base.endswith("y"):
            found |= {f"{base[:-1]}{it}" for it in ("ie", "ies")}
        if base.endswith("f"):
            found |= {f"{base[:-1]}{it}" for it in ("ve", "ves", "fe")}
        if base.endswith("al"):
            found.add(f"{base[:-1]}ux")
        if base.endswith("man"):
            found.add(f"{base[:-2]}en")
    base = german_stem(word)
    found |= {base, *(f"{base}{it}" for it in GERMAN)}
    return found | {it for it, one in IRREGULAR.items() if one == word}


def stems_of(folded: str, tag: str) -> str:
    """Returns the stems of a folded label in one order, each once, without its brackets and small words:
    `guitars, electric` and `electric guitar` have the same."""
    words = WORD.findall(folded.partition("(")[0]) or WORD.findall(folded)
    return " ".join(sorted({stem(it, tag) for it in words if it not in ALL_SMALL} or set(words)))
