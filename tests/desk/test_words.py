"""The words of the pages: three languages with the same keys and placeholders, and each key that a page asks for."""
from __future__ import annotations

import re
import string
from pathlib import Path

import pytest
import thesaurus_desk
import thesaurus_tools
from markupsafe import Markup
from thesaurus_desk.words import LANGUAGES, Words, best_language, texts_of
from thesaurus_desk.words.catalogues import forms_of, path_of, written_catalogue
from thesaurus_tools.finding_messages import FINDINGS, LOST
from thesaurus_tools.table_messages import ROWS, TABLES

PACKAGE = Path(thesaurus_desk.__file__).parent
# A key as the whole first argument of the call: those that are put together are tried by the pages' own tests.
CALLS = re.compile(r"""(?:\b_|\bsay|g\.words)\(\s*["']([a-z_]+(?:\.\w+)+)["']\s*[,)]""")
OTHERS = [it for it in LANGUAGES if it != "en"]
# Words for what has another name: the desk, the store, the journal, kinds of terms, and what is done.
OTHER_WORDS = {
    "en": "data ?base|keyword|descriptor|take (it |this )?back|taken back|come in\\b|bring (it )?in|out of use|top term"
    "|alternative term|hidden term|outside concept|kind of link",
    "de": "Schreibtisch|Pult\\b|indexiert|andere Benennung|zusammenführ|Datenbank|einbring|eingebracht|außer Gebrauch"
    "|zurücknehm|Nebenbenennung|fremder Begriff|Zuordnung",
    "fr": "bureau|préféré|alternatif|reprendre|apporter|base de données|hors d’usage|terme caché|terme de tête",
}


def placeholders(text: str) -> set[str]:
    """Returns the names in braces."""
    return {name for _, name, _, _ in string.Formatter().parse(text) if name is not None}


@pytest.mark.parametrize("language", OTHERS)
def test_the_same_keys(language: str) -> None:
    english, other = texts_of("en"), texts_of(language)
    assert english and {*english} ^ {*other} == set()


@pytest.mark.parametrize("language", LANGUAGES)
def test_catalogue_is_ordered_and_has_the_english_texts_beside(language: str, request: pytest.FixtureRequest) -> None:
    ordered = written_catalogue(language, texts_of(language))
    if request.config.getoption("--write"):
        path_of(language).write_bytes(ordered)
    assert path_of(language).read_bytes() == ordered, "tests/run --write words writes it"


@pytest.mark.parametrize("language", LANGUAGES)
def test_the_same_placeholders(language: str) -> None:
    for key, text in texts_of("en").items():
        mine, theirs = forms_of(text), forms_of(texts_of(language)[key])
        assert len(mine) == len(theirs), key
        for ours, words in zip(mine, theirs):
            assert bool(words) == bool(ours) and placeholders(words) <= placeholders(ours) | {"n"}, key
        assert placeholders(theirs[-1]) == placeholders(mine[-1]), key


@pytest.mark.parametrize("language", LANGUAGES)
def test_texts_are_whole(language: str) -> None:
    for key, text in texts_of(language).items():
        assert isinstance(text, str) or "{n}" in text[-1], key
        for words in forms_of(text):
            assert "<" not in words and "  " not in words.replace("  ( / )", "") and words == words.strip(), key
            assert "'" not in words, f"{key}: a typewriter's apostrophe"


@pytest.mark.parametrize(("language", "others"), OTHER_WORDS.items())
def test_one_word_for_one_thing(language: str, others: str) -> None:
    found = [(key, it) for key, text in texts_of(language).items() for it in forms_of(text)]
    assert [(key, it) for key, it in found if re.search(others, it, re.IGNORECASE)] == []


def test_why_a_row_of_a_table_cant_be_done() -> None:
    """The tools have the same reasons as the desk, with the same values."""
    its = {key.removeprefix("rows."): str(text) for key, text in texts_of("en").items() if key.startswith("rows.")}
    assert its.keys() == ROWS.keys()
    assert {key: placeholders(it) for key, it in its.items()} == {key: placeholders(it) for key, it in ROWS.items()}


def test_what_is_left_out_of_a_vocabulary() -> None:
    """The tools have the same findings as the desk, with the same values; the desk has no advice on their options."""
    texts = texts_of("en")
    its = {key.removeprefix("findings."): it for key, it in texts.items() if key.startswith("findings.")}
    assert its.keys() == FINDINGS.keys()
    for key, text in FINDINGS.items():
        assert placeholders(forms_of(its[key])[-1]) == placeholders(forms_of(text)[-1]), key
    lost = {key.removeprefix("lost.") for key in texts if key.startswith("lost.")}
    assert lost == LOST.keys() & FINDINGS.keys()
    assert not [it for it in its.values() if "--" in "".join(forms_of(it))]


def test_why_a_file_is_no_table() -> None:
    """The tools have the same reasons as the desk, which has its own advice, and says none of others' errors."""
    its = {key.removeprefix("tables."): str(text) for key, text in texts_of("en").items() if key.startswith("tables.")}
    assert its.keys() == {"row", *TABLES}
    assert placeholders(its.pop("row")) == {"name", "row"}
    unsaid = {
        "no_text": {"advice"},
        "csv": {"error"},
        "damaged": {"error", "form"},
        "damaged_xml": {"error"},
        "no_sheet": {"sheet", "sheets"},
    }
    unsaid["costly"] = {"seconds", "megabytes"}
    given = {key: placeholders(it) - unsaid.get(key, set()) for key, it in TABLES.items()}
    assert {key: placeholders(it) for key, it in its.items()} == {key: it | {"where"} for key, it in given.items()}
    tools = Path(thesaurus_tools.__file__).parent
    raised = {key for it in tools.glob("*.py") for key in re.findall(r'TableError\(\s*"(\w+)"', it.read_text("utf-8"))}
    assert raised == TABLES.keys()


def files() -> list[Path]:
    """Returns the files that ask for words."""
    return [*PACKAGE.rglob("*.py"), *PACKAGE.rglob("*.html")]


def test_each_key_is_there() -> None:
    asked = {(key, it.name) for it in files() for key in CALLS.findall(it.read_text(encoding="utf-8"))}
    assert len(asked) > 60
    assert [(key, name) for key, name in sorted(asked) if key not in texts_of("en")] == []


def test_pages_have_no_words_of_their_own() -> None:
    found = []
    for path in PACKAGE.rglob("*.html"):
        text = re.sub(r"\{% block kind %\}.*?\{% endblock %\}", "", path.read_text(encoding="utf-8"))
        text = re.sub(r"\{#.*?#\}|\{%.*?%\}|\{\{.*?\}\}", "", text, flags=re.S)
        text = re.sub(r"""<[^>]*>|[\w-]+="[^"]*\"""", "\n", text)
        found += [(path.name, it.strip()) for it in text.splitlines() if re.search(r"[A-Za-zäöüé]{3}", it)]
    assert found == []


def test_plurals_and_counts() -> None:
    for language, none, one, many in (
        ("en", "0 concepts", "1 concept", "12,345 concepts"),
        ("de", "0 Begriffe", "1 Begriff", "12.345 Begriffe"),
        ("fr", "0 concept", "1 concept", "12\u202f345 concepts"),
    ):
        words = Words(language)
        assert [words("home.concepts", n=it) for it in (0, 1, 12345)] == [none, one, many]


def test_values_are_escaped() -> None:
    words = Words("en")
    assert words("find.new", query="<b>") == "New concept “<b>”"
    assert not hasattr(words("find.new", query="<b>"), "__html__")
    marked = words("people.added", name="<b>", role=Markup("<i>head</i>"))
    assert str(marked) == "&lt;b&gt; may sign in now, as: <i>head</i>." and hasattr(marked, "__html__")
    assert words("find.new", query="{0.__class__}") == "New concept “{0.__class__}”"
    assert words("no.such.key") == "no.such.key" and not words.has("no.such.key") and words.has("find.new")


def test_the_best_language() -> None:
    assert best_language(["de-AT", "en"]) == "de" and best_language(["es", "fr-CA"]) == "fr"
    assert best_language(["es"]) == best_language([]) == "en" and Words("xx").language == "en"
