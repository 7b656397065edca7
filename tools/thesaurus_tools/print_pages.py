"""Makes one page to print: an alphabetical list, a tree and a rotated index of a scheme."""
from __future__ import annotations

import re
from collections.abc import Callable, Iterable, Iterator, Sequence
from html import escape
from typing import Any

from thesaurus_tools.arrays import node_label
from thesaurus_tools.fields import DESCRIPTION, mark_of
from thesaurus_tools.kinds import BROADER
from thesaurus_tools.reports import name_elsewhere, walk_down
from thesaurus_tools.site_terms import words_of
from thesaurus_tools.store import Resource, Store
from thesaurus_tools.texts import sort_key

# The marks of mappings, by their kinds (ISO 25964-2).
MAPPED = {"exact": "=EQ", "close": "~EQ", "broad": "BM", "narrow": "NM", "relMatch": "RM"}
TYPE_LETTERS = {"broaderGeneric": "G", "broaderPartitive": "P", "broaderInstantial": "I"}
PARTS = ("alphabetical", "tree", "rotated")
# The titles of the parts in the languages of the site.
TITLES = {
    "en": ("Alphabetical list", "Tree", "Index of words"),
    "de": ("Alphabetische Liste", "Baum", "Wortregister"),
    "fr": ("Liste alphabétique", "Arborescence", "Index des mots"),
}
STYLE = """
@page { size: A4; margin: 18mm 16mm 20mm; @bottom-center { content: counter(page) } }
body { font: 10pt/1.35 "DejaVu Serif", Georgia, serif; color: #000; background: #fff }
body { margin: 1em auto; max-width: 60em }
h1 { font-size: 20pt }
h2 { font-size: 14pt; break-before: page }
h2:first-of-type { break-before: auto }
.columns { columns: 2; column-gap: 9mm }
dl, .tree > ul { margin: 0; padding: 0 }
dt { font-weight: 700; margin-top: .5em; break-after: avoid }
dt.other { font-weight: 400 }
dd { white-space: pre-line; margin: 0 0 0 1.4em; text-indent: -.7em; padding-left: .7em }
dd b, small { font: 8pt sans-serif }
ul { list-style: none; margin: 0; padding-left: 1.2em }
.rotated p { margin: 0; padding-left: 1.4em; text-indent: -1.4em }
p.letter { font: 700 11pt sans-serif; margin-top: .8em }
"""
WORD = re.compile(r"\w[\w'’-]*")
# Words shorter than this are no entries of the rotated index.
SHORTEST = 3
Key = Callable[[str], Any]


def collation(lang: str) -> Key:
    """Returns the sort key of a language: by PyICU where it is installed, so that accents have their place."""
    try:
        import icu  # (Debian's python3-icu)
    except ImportError:
        return sort_key
    collator = icu.Collator.createInstance(icu.Locale(lang))
    return lambda text: collator.getSortKey(text.lstrip("\"'«»„“”‘’([-. ") or text)


class PrintPages:
    """The parts of a page about a scheme, or a branch of it, in a language."""

    def __init__(self, store: Store, scheme: int, lang: str, top: int | None = None):
        self.store, self.scheme, self.lang, self.places, self.top = store, scheme, lang, store.places, top
        self.key = collation(lang)
        chosen = None if top is None else {it for _, it in walk_down(store, top)}
        living = (it for it in store.live_concepts() if it.scheme == scheme)
        self.concepts = [it for it in living if chosen is None or it.number in chosen]
        self.terms = {it.number: self.term(it) for it in self.concepts}

    def term(self, concept: Resource) -> str:
        """Returns the preferred label in the language, or the number in brackets."""
        labels = self.store.labels_of.get(concept.number, ())
        return next((it.text for it in labels if (it.kind, it.tag) == ("pref", self.lang)), f"[{concept.number}]")

    def ordered(self, numbers: Iterable[int]) -> list[int]:
        """Returns concepts in the order of their terms."""
        return sorted((it for it in numbers if it in self.terms), key=lambda it: (self.key(self.terms[it]), it))

    def texts(self, number: int, kind: str) -> list[str]:
        """Returns the labels of a kind in the language, sorted."""
        labels = self.store.labels_of.get(number, ())
        return sorted((it.text for it in labels if (it.kind, it.tag) == (kind, self.lang)), key=self.key)

    def type_letters(self, low: int, high: int) -> str:
        """Returns the letters of the types of a hierarchical link."""
        kinds = {it.kind for it in self.store.links_of.get(low, ()) if (it.a, it.b) == (low, high)}
        return "".join(TYPE_LETTERS[it] for it in BROADER[1:] if it in kinds)

    # --- arrays ---

    def label(self, array: int) -> str:
        """Returns the node label of an array, in the language or another one."""
        labels = self.store.labels_of.get(array, ())
        mine = (it.text for it in labels if (it.kind, it.tag) == ("pref", self.lang))
        return node_label(next(mine, self.store.term(array)))

    def is_array(self, number: int) -> bool:
        """Whether something below a concept is an array."""
        return self.store.resources[number].kind == "collection"

    def members(self, array: int) -> set[int]:
        """Returns the members of a collection."""
        return {it for it in self.store.others(array, ["member"], at_a=True) if isinstance(it, int)}

    def below(self, number: int) -> list[int]:
        """Returns what is below a concept, or in an array, in order: arrays, and the concepts that are in none."""
        if self.is_array(number):
            inner = sorted(self.places.inner.get(number, ()), key=lambda it: self.key(self.label(it)))
            return self.places.in_order(number, [*inner, *self.ordered(self.members(number))])
        within = {it for array in self.places.arrays.get(number, ()) for it in self.members(array)}
        direct = sorted(self.places.directly_below(number), key=lambda it: self.key(self.label(it)))
        return [*direct, *self.ordered(set(self.store.narrower(number)) - within)]

    # --- the parts ---

    def alphabetical(self) -> Iterator[str]:
        """Yields the entries of all terms, and of those that lead to others."""
        entries = [(self.key(text), text, number, True) for number, text in self.terms.items()]
        entries += [
            (self.key(text), text, number, False) for number in self.terms for text in self.texts(number, "alt")
        ]
        yield '<div class="columns"><dl>'
        for _, text, number, is_preferred in sorted(entries, key=lambda it: (it[0], it[1], it[2])):
            if is_preferred:
                yield f"<dt>{escape(text)}{self.notations(number)}</dt>"
                yield from (f"<dd><b>{mark}</b> {escape(value)}</dd>" for mark, value in self.lines(number))
            else:
                yield f'<dt class="other">{escape(text)}</dt><dd><b>USE</b> {escape(self.terms[number])}</dd>'
        yield "</dl></div>"

    def lines(self, number: int) -> Iterator[tuple[str, str]]:
        """Yields what an entry says of a concept."""
        yield from (("SN", text) for text in self.texts(number, "scope"))
        values = self.store.values_in(number, self.lang)
        yield from ((mark_of(field, self.lang), it.text) for field, it in values if field.kind != "code")
        yield from (("UF", text) for text in self.texts(number, "alt"))
        for high in self.ordered(self.store.broader(number)):
            yield f"BT{self.type_letters(number, high)}", self.terms[high]
        waiting = self.below(number)[::-1]
        while waiting:
            low = waiting.pop()
            if self.is_array(low):
                yield "", self.label(low)
                waiting += self.below(low)[::-1]
            else:
                yield f"NT{self.type_letters(low, number)}", self.terms[low]
        related = self.store.others(number, ["related"], at_a=True, at_b=True)
        yield from (("RT", self.terms[it]) for it in self.ordered(it for it in related if isinstance(it, int)))
        for kind, mark in MAPPED.items():
            ends = self.store.others(number, [kind], at_a=True)
            yield from ((mark, name) for it in ends if (name := name_elsewhere(self.store, it, [self.lang])))

    def notations(self, number: int) -> str:
        """Returns the notations of a concept as HTML, each behind a space."""
        found = (it.text for field, it in self.store.values_in(number, self.lang) if field.kind == "code")
        return "".join(f" <small>{escape(text)}</small>" for text in found)

    def tree(self) -> Iterator[str]:
        """Yields the tree: below each concept those that are narrower."""
        yield '<div class="columns tree">'
        tops = (it for it in self.terms if self.terms.keys().isdisjoint(self.store.broader(it)))
        yield from self.branches(self.ordered(tops if self.top is None else [self.top]), None, set())
        yield "</div>"

    def branches(self, numbers: list[int], above: int | None, shown: set[int]) -> Iterator[str]:
        """Yields some concepts with what is below them; one that was shown before only with a star, as displays do."""
        if numbers:
            yield "<ul>"
            for it in numbers:
                if self.is_array(it):
                    yield f'<li><i class="label">{escape(self.label(it))}</i>'
                    yield from self.branches(self.below(it), above, shown)
                    yield "</li>"
                    continue
                letters = self.type_letters(it, above) if above else ""
                star = " *" if it in shown else ""
                term = f"{escape(self.terms[it])}{self.notations(it)}"
                yield f"<li>{term}{f' <small>{letters}</small>' if letters else ''}{star}"
                if not star:
                    shown.add(it)
                    yield from self.branches(self.below(it), it, shown)
                yield "</li>"
            yield "</ul>"

    def rotated(self) -> Iterator[str]:
        """Yields each word of each term with the rest behind it, as `instruments, String`."""
        found = []
        for number, term in self.terms.items():
            for text in (term, *self.texts(number, "alt")):
                target = "" if text == term else f" → {term}"
                for word in WORD.finditer(text):
                    if len(word[0]) >= SHORTEST:
                        rest = text[word.start() :] + (f", {text[: word.start()].strip()}" if word.start() else "")
                        found.append((self.key(word[0]), self.key(rest), f"{rest}{target}"))
        yield '<div class="columns rotated">'
        letter = ""
        for _, _, line in sorted(found, key=lambda it: (it[0], it[1], it[2])):
            first = sort_key(line)[1][:1].upper()
            if first != letter:
                letter = first
                yield f'<p class="letter">{escape(letter)}</p>'
            yield f"<p>{escape(line)}</p>"
        yield "</div>"

    def title(self) -> str:
        """Returns the name of the branch, or of the scheme."""
        labels = self.store.labels_of.get(self.top or self.scheme, ())
        mine = (it.text for it in labels if (it.kind, it.tag) == ("pref", self.lang))
        return next(mine, self.store.term(self.top or self.scheme))

    def about(self) -> str:
        """Returns what describes the scheme."""
        words = words_of(self.lang)
        values = [(it.name, value.text) for it, value in self.store.values_in(self.scheme, self.lang)]
        return "".join(f"<p>{words[name]}: {escape(text)}</p>" for name, text in values if name in DESCRIPTION)

    def body(self, parts: Iterable[str]) -> str:
        """Returns the parts that are named, with their titles."""
        titles = dict(zip(PARTS, TITLES.get(self.lang.partition("-")[0], TITLES["en"])))
        makers = dict(zip(PARTS, (self.alphabetical, self.tree, self.rotated)))
        return "\n".join(f'<h2 id="{it}">{titles[it]}</h2>\n' + "\n".join(makers[it]()) for it in parts)


def document(lang: str, them: Sequence[PrintPages], parts: Sequence[str]) -> str:
    """Returns a page of HTML with some schemes, or a branch."""
    head = f'<meta charset="utf-8"><title>{escape(them[0].title())}</title><style>{STYLE}</style>'
    start = f'<!DOCTYPE html>\n<html lang="{lang}"><head>{head}</head>\n'
    bodies = "".join(f"<h1>{escape(it.title())}</h1>\n{it.about()}{it.body(parts)}\n" for it in them)
    return f"{start}<body>{bodies}</body></html>\n"
