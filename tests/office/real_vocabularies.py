"""Vocabularies that others have made, as Debian has them, turned into SKOS: languages, countries, currencies, nouns."""
from __future__ import annotations

import json
from collections.abc import Iterator
from pathlib import Path

CODES, NOUNS = Path("/usr/share/iso-codes/json"), Path("/usr/share/wordnet/data.noun")
SKOS = "http://www.w3.org/2004/02/skos/core#"
BASE = "http://codes.example/"
# Of the nouns: all below animals.
ANIMAL, MOST_NOUNS = "00015388", 4_500


def quoted(text: str) -> str:
    """Returns a text as a literal."""
    escaped = text.replace("\\", "\\\\").replace('"', '\\"').replace("\n", "\\n")
    return f'"{escaped}"@en'


class Writer:
    """Lines of N-Triples about one scheme."""

    def __init__(self, name: str):
        self.name, self.lines = name, []  # type: ignore[var-annotated]
        self.add("", "prefLabel", quoted(name))
        self.kind("", "ConceptScheme")

    def iri(self, code: str) -> str:
        return f"<{BASE}{self.name}/{code}>"

    def add(self, code: str, property_: str, value: str) -> None:
        self.lines.append(f"{self.iri(code)} <{SKOS}{property_}> {value} .")

    def kind(self, code: str, name: str) -> None:
        self.lines.append(f"{self.iri(code)} <http://www.w3.org/1999/02/22-rdf-syntax-ns#type> <{SKOS}{name}> .")

    def concept(self, code: str, term: str) -> None:
        """Adds a concept with its code and its preferred label."""
        self.kind(code, "Concept")
        self.add(code, "inScheme", self.iri(""))
        self.add(code, "prefLabel", quoted(term))
        self.add(code, "notation", f'"{code}"')


def read_codes(name: str, key: str) -> list[dict[str, str]]:
    """Returns the entries of a list of codes."""
    entries: list[dict[str, str]] = json.loads((CODES / f"iso_{name}.json").read_text(encoding="utf-8"))[name]
    return [it for it in entries if it.get(key)]


def languages() -> Writer:
    """Languages (ISO 639-3)."""
    writer = Writer("languages")
    for it in read_codes("639-3", "alpha_3"):
        writer.concept(it["alpha_3"], it["name"])
        if it.get("inverted_name"):
            writer.add(it["alpha_3"], "altLabel", quoted(it["inverted_name"]))
    return writer


def countries() -> Writer:
    """Countries (ISO 3166-1), with what they are divided into (ISO 3166-2) below them."""
    writer = Writer("countries")
    for it in read_codes("3166-1", "alpha_2"):
        writer.concept(it["alpha_2"], it["name"])
        for other in ("official_name", "common_name"):
            if it.get(other):
                writer.add(it["alpha_2"], "altLabel", quoted(it[other]))
    for it in read_codes("3166-2", "code"):
        writer.concept(it["code"], it["name"])
        country, parent = it["code"].partition("-")[0], it.get("parent", "")
        # (a parent is written with its country, or without it)
        above = parent if "-" in parent else f"{country}-{parent}" if parent else country
        writer.add(it["code"], "broader", writer.iri(above))
    return writer


def currencies() -> Writer:
    """Currencies (ISO 4217)."""
    writer = Writer("currencies")
    for it in read_codes("4217", "alpha_3"):
        writer.concept(it["alpha_3"], it["name"])
    return writer


def synsets() -> Iterator[tuple[str, list[str], list[str], str]]:
    """Yields the nouns of WordNet: a number, the words, the numbers of broader ones, and the definition."""
    with NOUNS.open(encoding="utf-8") as file:
        for line in file:
            if line.startswith(" "):
                continue
            data, _, gloss = line.partition("|")
            cells = data.split()
            count = int(cells[3], 16)
            words = [cells[4 + 2 * it].replace("_", " ") for it in range(count)]
            pointers = cells[5 + 2 * count :]
            above = [pointers[it + 1] for it in range(0, len(pointers) - 3, 4) if pointers[it] in ("@", "@i")]
            yield cells[0], words, above, gloss.strip()


def animals() -> Writer:
    """The nouns of WordNet below animal."""
    writer, found = Writer("animals"), {it[0]: it for it in synsets()}
    below: dict[str, list[str]] = {}
    for number, _, above, _ in found.values():
        for it in above:
            below.setdefault(it, []).append(number)
    chosen = [ANIMAL]
    for number in chosen:
        chosen += [it for it in below.get(number, []) if it not in set(chosen)] if len(chosen) < MOST_NOUNS else []
    kept = set(chosen)
    for number in sorted(kept):
        _, words, above, gloss = found[number]
        writer.concept(number, words[0])
        for word in words[1:]:
            writer.add(number, "altLabel", quoted(word))
        writer.add(number, "definition", quoted(gloss))
        for it in above:
            if it in kept:
                writer.add(number, "broader", writer.iri(it))
    return writer


VOCABULARIES = {"languages": languages, "countries": countries, "currencies": currencies, "animals": animals}


def with_faults(writer: Writer) -> list[str]:
    """Returns the lines with faults: a ring, a second preferred label, a text that is too long, a link to itself."""
    codes = [it.partition(">")[0].rpartition("/")[2] for it in writer.lines if "notation" in it][:6]
    a, b, c, d, e, _ = codes
    writer.add(a, "broader", writer.iri(b))
    writer.add(b, "broader", writer.iri(a))
    writer.add(c, "prefLabel", quoted("Another name"))
    writer.add(d, "altLabel", quoted("x" * 300))
    writer.add(e, "related", writer.iri(e))
    return writer.lines
