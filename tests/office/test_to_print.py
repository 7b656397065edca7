"""Tests tools/to-print: the lists have what the displays have, in the order of the language; it makes a PDF."""
from __future__ import annotations

import html
import re
import subprocess
from pathlib import Path

import pytest
from office import tool
from program import ROOT, built


@pytest.fixture(scope="module")
def store(tmp_path_factory: pytest.TempPathFactory) -> Path:
    """The store of musical instruments."""
    path = tmp_path_factory.mktemp("print") / "museum.db"
    words = [built(), "--db", path, "script"]
    subprocess.run(words, input=(ROOT / "examples/instruments.jsonl").read_bytes(), capture_output=True, check=True)
    return path


def page(store: Path, *words: str) -> str:
    ended = tool("to-print", "--db", store, "--scheme", "1", "--lang", "en", *words)
    assert ended.status == 0, ended.err.decode()
    return ended.out.decode()


def display(store: Path, kind: str) -> list[str]:
    """Returns the lines of the program's display."""
    words = [built(), "--db", store, kind, "--scheme", "1", "--lang", "en"]
    return subprocess.run(words, capture_output=True, check=True).stdout.decode().splitlines()


def test_the_alphabetical_list_says_what_the_display_says(store: Path) -> None:
    text = page(store, "--parts", "alphabetical")
    entries = re.findall(r"<dt[^>]*>(.*?)</dt>", text)
    assert sorted(map(html.unescape, entries)) == sorted(it for it in display(store, "alphabetical") if it[0] != " ")
    lines = [html.unescape(f"  {mark} {value}") for mark, value in re.findall(r"<dd><b>(.*?)</b> (.*?)</dd>", text)]
    assert sorted(lines) == sorted(it for it in display(store, "alphabetical") if it[0] == " ")


def test_the_tree_has_each_line_of_the_display(store: Path) -> None:
    terms = [html.unescape(it) for it in re.findall(r"<li>([^<*]*)", page(store, "--parts", "tree"))]
    wanted = [re.sub(r" \([GPI,]+\)( \*)?$", "", it.strip()) for it in display(store, "hierarchical")]
    assert [it.strip() for it in terms] == wanted


def test_each_word_is_in_the_rotated_index(store: Path) -> None:
    text = page(store, "--parts", "rotated")
    lines = [html.unescape(it) for it in re.findall(r"<p>(.*?)</p>", text)]
    assert "instruments, String" in lines and "String instruments" in lines
    assert any(" → " in it for it in lines)


@pytest.mark.needs("icu")
def test_the_order_of_the_language(tmp_path: Path) -> None:
    """In Swedish å, ä and ö come after z; elsewhere they are sorted as a and o."""
    path = tmp_path / "words.db"
    lines = ['{"do":"scheme","tag":"sv","text":"Ord"}\n']
    for tag in ("sv", "de"):
        for text in ("Zebra", "Ärla", "Apa"):
            lines.append(f'{{"do":"concept","scheme":1,"tag":"{tag}","text":"{text}"}}\n')
    subprocess.run([built(), "--db", path, "script"], input="".join(lines).encode(), capture_output=True, check=True)
    for lang, wanted in (("sv", ["Apa", "Zebra", "Ärla"]), ("de", ["Apa", "Ärla", "Zebra"])):
        ended = tool("to-print", "--db", path, "--scheme", 1, "--lang", lang, "--parts", "alphabetical")
        found = re.findall(r"<dt>([^\[<]*)</dt>", ended.out.decode())
        assert [it for it in found if it] == wanted


@pytest.mark.needs("chromium")
def test_pdf(store: Path, tmp_path: Path) -> None:
    path = tmp_path / "museum.pdf"
    page(store, "--pdf", "-o", str(path))
    assert path.read_bytes().startswith(b"%PDF-") and path.stat().st_size > 5000


@pytest.mark.parametrize(
    ("words", "status", "says"),
    [
        (("--scheme", "99", "--lang", "en"), 1, "no scheme has the number 99"),
        (("--scheme", "1", "--lang", "fi"), 1, "has a term in fi"),
        (("--scheme", "1", "--lang", "en", "--parts", "cover"), 2, "not among"),
    ],
)
def test_refusals(store: Path, words: tuple[str, ...], status: int, says: str) -> None:
    ended = tool("to-print", "--db", store, *words)
    assert (ended.status, ended.out) == (status, b"") and says in ended.err.decode()
