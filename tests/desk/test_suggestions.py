"""Concepts are suggested for a record, each with why: by terms in its text, and by indexed records alike."""
from __future__ import annotations

import re

import pytest
from clients import Site, text_of
from thesaurus_desk.journal.record_texts import RecordText
from thesaurus_desk.store.label_matches import LabelMatcher
from thesaurus_desk.store.plan_execution import Desk
from thesaurus_desk.store.record_suggestions import Suggester
from thesaurus_tools.stems import forms, language_of, stem

STRINGS, BOWED, VIOLINS, HARPS, FIDDLES = 3, 4, 5, 11, 31
# Singular and plural, as dictionaries have them.
PAIRS = {
    "en": "violin violins, box boxes, glass glasses, city cities, glove gloves, knife knives, leaf leaves,"
    " shelf shelves, potato potatoes, shoe shoes, axe axes, cache caches, brush brushes, house houses,"
    " woman women, fireman firemen, tooth teeth, craft crafts, toy toys, bus buses, corpus corpus, cactus cactuses,"
    " movie movies, fly flies, tie ties",
    "de": "violine violinen, haus hauser, geige geigen, instrument instrumente, buch bucher, kleid kleider,"
    " glas glaser, messer messer, wagen wagen, auto autos, uhr uhren, rose rosen",
    "fr": "violon violons, cheval chevaux, bateau bateaux, instrument instruments, prix prix, canal canaux",
}
APART = {"en": "glass gas, bus bu, car care", "de": "haus hase, bach buch, lauf laub", "fr": "port pore, as a"}


def pairs_of(text: str) -> list[list[str]]:
    return [it.split() for it in text.split(", ")]


@pytest.mark.parametrize("tag", PAIRS)
def test_singular_and_plural_are_one(tag: str) -> None:
    wrong = [it for it in pairs_of(PAIRS[tag]) if stem(it[0], tag) != stem(it[1], tag)]
    assert wrong == []
    # (each is looked for in the form of the other)
    assert [it for it in pairs_of(PAIRS[tag]) if it[1] not in forms(it[0])] == []
    assert [it for it in pairs_of(PAIRS[tag]) if it[0] not in forms(it[1])] == []


@pytest.mark.parametrize("tag", APART)
def test_other_words_stay_apart(tag: str) -> None:
    assert [it for it in pairs_of(APART[tag]) if stem(it[0], tag) == stem(it[1], tag)] == []


@pytest.mark.parametrize(
    ("text", "language"),
    [
        ("a bow for the violin, with its case", "en"),
        ("eine Geige aus dem Schwarzwald, mit Bogen", "de"),
        ("un violon avec son archet, dans une boîte", "fr"),
        ("Violin", ""),
    ],
)
def test_the_language_of_a_text_is_guessed(text: str, language: str) -> None:
    assert language_of(text.lower().split()) == language


def keep(desk: Desk, *texts: RecordText) -> None:
    desk.record_texts.keep(texts)


def index(desk: Desk, record: str, *concepts: int) -> None:
    posts = [{"do": "post", "key": f"k{record[2:]}-{it}", "record": record, "concept": it} for it in concepts]
    assert desk.perform("ina", "post", posts).is_done


def found(desk: Desk, title: str, text: str = "") -> dict[int, str]:
    """Returns the concepts whose terms are in a text, with these."""
    return {it.concept: it.text for it in LabelMatcher(desk.replica).find(title, text)}


def test_terms_are_found_in_any_form_and_language(desk: Desk) -> None:
    assert found(desk, "A violin and its case") == {VIOLINS: "Violins"}
    assert found(desk, "Die Geige und eine Harfe aus der Sammlung") == {VIOLINS: "Geigen", HARPS: "Harfen"}
    assert found(desk, "Un instrument à cordes dans le musée") == {STRINGS: "Instruments à cordes"}


def test_the_longest_term_is_meant(desk: Desk) -> None:
    """“Bowed string instruments” isn't about string instruments and instruments, too."""
    term = next(text for tag, text in desk.replica.view(BOWED).pref if tag == "en")  # type: ignore[union-attr]
    assert len(term.split()) > 1
    assert list(found(desk, f"The {term.lower()} of the collection")) == [BOWED]


def test_brackets_small_words_and_short_words(desk: Desk) -> None:
    labels = [("Tables (furniture)", "en"), ("Tables (data)", "en"), ("So", "en"), ("Ur", "en"), ("Ale", "de")]
    requests = [{"do": "concept", "scheme": 1, "tag": tag, "text": text} for text, tag in labels]
    outcome = desk.perform("anna", "concept", requests)
    assert outcome.is_done
    furniture, data, so, ur, ale = outcome.numbers()
    matches = LabelMatcher(desk.replica).find("A table, so old as ur", "the ale is in the jar")
    assert {it.concept: it.meanings for it in matches} == {furniture: 2, data: 2}
    assert ur in found(desk, "A jar from Ur, in the museum")


def test_records_alike_are_followed_through_merges(desk: Desk) -> None:
    keep(desk, *(RecordText(f"M {n}", "Nyckelharpa", "Uppland, with sympathetic strings") for n in range(3)))
    keep(desk, RecordText("M 9", "Ophicleide", "Brass, Paris"))
    index(desk, "M 0", FIDDLES)
    index(desk, "M 1", FIDDLES, HARPS)
    index(desk, "M 9", HARPS)
    suggester = Suggester(desk.replica)
    given = [(it.concept, it.alike) for it in suggester.suggest("M 2", "Nyckelharpa", "Uppland")]
    assert given == [(FIDDLES, ["M 0", "M 1"]), (HARPS, ["M 1"])]
    assert all(it.score <= 0.1 for it in suggester.suggest("M 2", "Nyckelharpa", "Uppland"))
    assert desk.perform("anna", "merge", [{"do": "merge", "source": FIDDLES, "target": VIOLINS}]).is_done
    assert [it.concept for it in suggester.suggest("M 2", "Nyckelharpa", "Uppland")] == [VIOLINS, HARPS]
    # (a record isn't alike itself, and one whose text is deleted is asked no more)
    assert suggester.suggest("M 9", "Ophicleide", "Brass") == []
    desk.record_texts.forget("M 0")
    assert [record for record, _ in suggester.nearest("M 2", "Nyckelharpa", "Uppland")] == ["M 1"]


def test_a_page_says_why(site: Site) -> None:
    desk, ina = site.desk, site.client("ina")
    keep(desk, RecordText("M 1", "Nyckelharpa of Uppland"), RecordText("M 2", "Nyckelharpa, beside a violin"))
    index(desk, "M 1", FIDDLES)
    answer = ina.get("/index?record=M+2")
    page = " ".join(text_of(answer).split())
    assert re.findall(r'name="concept" value="([0-9]+)"( checked)?', answer.text) == [("5", ""), ("31", "")]
    assert "“Violins” is in the text" in page and "1 record like this has it: Nyckelharpa of Uppland M 1" in page
    form = {"record": "M 2", "was": "", "do": "save", "concept": ["31"], "once": ""}
    assert ina.post("/index", form).status_code == 303
    assert [it.place for it in desk.replica.postings.of_record("M 2")] == [FIDDLES]
    assert "No term of the thesaurus" not in text_of(ina.get("/index?record=M+3"))


def test_suggestions_are_measured_beside_the_commonest_concepts(site: Site) -> None:
    """The record that is measured isn't asked itself; the one that nothing leads to has no part of its concepts."""
    desk, ina = site.desk, site.client("ina")
    assert "No indexed record has a text" in text_of(ina.get("/index/quality"))
    keep(desk, RecordText("M 1", "Ophicleide"), RecordText("M 2", "A violin"), RecordText("M 3", "Ophicleide, Paris"))
    keep(desk, RecordText("M 4", "Serpent"), RecordText("M 5", "A harp"))
    indexed = {"M 1": [FIDDLES], "M 2": [VIOLINS, FIDDLES], "M 3": [FIDDLES], "M 4": [HARPS]}
    for record, concepts in indexed.items():
        index(desk, record, *concepts)
    # (by records alike, by a term the one of two, by records alike, by nothing; but four concepts are used at all)
    page = " ".join(text_of(ina.get("/index/quality")).split())
    assert "measured on 4 indexed records" in page and "suggestions 62 %" in page
    assert "concepts 100 %" in page
