"""What a page shows of an entry of a vocabulary, and how entries are searched for."""
from __future__ import annotations

from dataclasses import dataclass

from thesaurus_desk.mapping.vocabularies import Vocabularies
from thesaurus_desk.store.model import Term
from thesaurus_desk.store.text_keys import fold, words_of
from thesaurus_tools.vocabulary_tables import LABEL_KINDS

# How many labels, and how many neighbours, are shown; and how many entries a search finds.
MOST_LABELS, MOST_NEIGHBOURS, MOST_FOUND = 60, 12, 12
LABELS = f"SELECT kind, tag, text FROM label WHERE entry = ? ORDER BY kind, tag, text LIMIT {MOST_LABELS}"
NAMES_OF = "SELECT tag, text FROM label WHERE entry = ? AND kind = 0 ORDER BY tag"
NEIGHBOURS = {
    "broader": f"SELECT above FROM above WHERE entry = ? LIMIT {MOST_NEIGHBOURS}",
    "narrower": f"SELECT entry FROM above WHERE above = ? LIMIT {MOST_NEIGHBOURS}",
}
FOUND = (
    "SELECT DISTINCT label.entry FROM label_words CROSS JOIN label ON label.id = label_words.rowid"
    " CROSS JOIN entry ON entry.id = label.entry AND entry.state = 0"
    f" WHERE label_words MATCH ? AND label.vocabulary = ? ORDER BY label.size LIMIT {MOST_FOUND}"
)


@dataclass(frozen=True)
class Entry:
    """An entry: its address, labels by kind, neighbours by their names, and its note."""

    id: int
    iri: str
    labels: dict[str, list[Term]]
    broader: list[list[Term]]
    narrower: list[list[Term]]
    note: str


def entry_of(vocabularies: Vocabularies, number: int) -> Entry:
    """Returns the entry of a number that there is."""
    ((iri, note),) = vocabularies.all("SELECT iri, note FROM entry WHERE id = ?", number)
    labels: dict[str, list[Term]] = {it: [] for it in LABEL_KINDS}
    for kind, tag, text in vocabularies.all(LABELS, number):
        labels[LABEL_KINDS[kind]].append((tag, text))
    around = {name: neighbours(vocabularies, query, number) for name, query in NEIGHBOURS.items()}
    return Entry(number, iri, labels, around["broader"], around["narrower"], note)


def neighbours(vocabularies: Vocabularies, query: str, number: int) -> list[list[Term]]:
    """Returns the names of each entry that a query finds around one; none of those without a name."""
    named = ([(tag, text) for tag, text in vocabularies.all(NAMES_OF, it)] for (it,) in vocabularies.all(query, number))
    return [it for it in named if it]


def search_entries(vocabularies: Vocabularies, vocabulary: int, text: str) -> list[int]:
    """Returns the entries with a label that has all words of a text, or words that begin so: the shortest first."""
    asked = " ".join(f'"{it}" *' for it in sorted(words_of(fold(text).replace("_", " "))))
    return [it for (it,) in vocabularies.all(FOUND, asked, vocabulary)] if asked else []
