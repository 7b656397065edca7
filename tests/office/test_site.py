"""tools/site: each page is checked as HTML, its links lead somewhere, its terms are those of the program; and the site
is used in Chromium. The site of 10,000 concepts in three languages takes at most two minutes of a processor."""
from __future__ import annotations

import functools
import json
import random
import re
import resource
import subprocess
from collections import defaultdict
from collections.abc import Iterator
from html.parser import HTMLParser
from pathlib import Path
from typing import Any, NamedTuple
from urllib.parse import quote, unquote
from xml.etree import ElementTree

import pytest
from browser import Page, browsing
from office import TOOLS, Request
from program import ROOT, lines_of, over, values_of
from serving import serving
from thesaurus_tools.ntriples import parse_statement
from thesaurus_tools.site_rdf import write_sitemaps

TOOL = TOOLS / "site"
LANGS = ("en", "de", "fr")
SAMPLE = (ROOT / "examples" / "instruments.jsonl").read_bytes()
HOSTILE = "<script>alert(1)</script> & \"Zithern\" 'x'"
# What the sample lacks: a merged and a deprecated concept, one alternative label of two concepts, hidden labels, labels
# in no language, another script, a text that looks like HTML, an address that is a script, and a second scheme with a
# mapping and a name in one language alone.
MORE: list[Request] = [
    {"do": "concept", "scheme": 1, "tag": "en", "text": "Lyres"},
    {"do": "merge", "source": 40, "target": 10},
    {"do": "concept", "scheme": 1, "tag": "en", "text": "Noise makers"},
    {"do": "deprecate", "concept": 41},
    {"do": "addLabel", "owner": 7, "kind": "alt", "tag": "en", "text": "Bass violins"},
    {"do": "addLabel", "owner": 8, "kind": "alt", "tag": "en", "text": "Bass violins"},
    {"do": "addLabel", "owner": 5, "kind": "hidden", "tag": "fr", "text": "Voilons"},
    {"do": "addLabel", "owner": 5, "kind": "hidden", "tag": "zxx", "text": "V 17.5"},
    {"do": "addLabel", "owner": 6, "kind": "alt", "tag": "mul", "text": "Vla."},
    {"do": "concept", "scheme": 1, "tag": "de", "text": HOSTILE},
    {"do": "addLabel", "owner": 42, "kind": "scope", "tag": "de", "text": HOSTILE},
    {"do": "addLabel", "owner": 42, "kind": "alt", "tag": "fr", "text": HOSTILE},
    {"do": "addLabel", "owner": 42, "kind": "alt", "tag": "de", "text": "箏"},
    {"do": "outside", "iri": "javascript:alert(1)"},
    {"do": "link", "kind": "close", "a": 42, "b": 43},
    {"do": "scheme", "tag": "en", "text": "Materials"},
    {"do": "concept", "scheme": 44, "tag": "de-at", "text": "Saiten"},
    {"do": "link", "kind": "relMatch", "a": 45, "b": 3},
]
# Idle, a machine takes a tenth of it; busy, up to thrice that. Pages that each looked at all others would take an hour.
MOST_SECONDS, CONCEPTS = 120, 10_000
EMPTY = {"meta", "link", "input", "br", "hr", "img"}
TYPES: dict[str, str] = {"Generic": "G", "Partitive": "P", "Instantial": "I"}


class Document(HTMLParser):
    """A page: its faults, its links, the names of its places, and its rows, the heading with the lines."""

    def __init__(self) -> None:
        super().__init__()
        self.faults: list[str] = []
        self.links: list[tuple[str, str]] = []
        self.places: list[str] = []
        self.rows: list[list[str]] = []
        self.open: list[str] = []
        self.title = ""

    def handle_starttag(self, tag: str, attrs: list[tuple[str, str | None]]) -> None:
        given = {name: value or "" for name, value in attrs}
        if tag not in EMPTY:
            self.open.append(tag)
        if "id" in given:
            self.places.append(given["id"])
        if "style" in given or any(it.startswith("on") for it in given):
            self.faults.append(f"{tag} with a style or a script of its own")
        for name in ("href", "src"):
            if name in given:
                self.links.append((tag, given[name]))
        if tag in ("dt", "li", "h1", "dd"):
            self.rows.append([tag, ""])

    def handle_endtag(self, tag: str) -> None:
        if not self.open or self.open.pop() != tag:
            self.faults.append(f"{tag} is closed, and another one is open")

    def handle_data(self, data: str) -> None:
        if "script" in self.open and data.strip():
            self.faults.append("a script within the page")
        if "title" in self.open:
            self.title += data
        elif self.rows and {"dt", "li", "h1", "dd"} & set(self.open):
            self.rows[-1][1] += data

    def lines_of(self, heading: str) -> list[str]:
        """The lines of the row whose heading begins so."""
        found, is_in = list[str](), False
        for tag, text in self.rows:
            if tag == "dt":
                is_in = text.startswith(heading)
            elif is_in and tag == "li":
                found.append(" ".join(text.split()))
        return found


def read_document(path: Path) -> Document:
    """Reads a page."""
    document = Document()
    document.feed(path.read_text(encoding="utf-8"))
    document.close()
    if document.open:
        document.faults.append(f"{document.open} isn't closed")
    return document


class Site:
    """The pages of a site, as documents by their paths."""

    def __init__(self, root: Path) -> None:
        self.root = root.resolve()
        self.documents = {it: read_document(it) for it in sorted(self.root.rglob("*.html"))}

    def page(self, name: str) -> Document:
        return self.documents[self.root / f"{name}.html"]

    def faults_of(self, path: Path) -> Iterator[str]:
        """Yields what is wrong with the HTML and the links of a page."""
        document = self.documents[path]
        yield from document.faults
        if not document.title.strip():
            yield "no title"
        if len(set(document.places)) < len(document.places):
            yield "an id stands twice"
        for tag, link in document.links:
            if why := self.fault_of(path, tag, link):
                yield f"{tag} {link}: {why}"

    def fault_of(self, path: Path, tag: str, link: str) -> str | None:
        """Why a link of a page is wrong, if it is."""
        if re.match(r"https?://", link):
            return None if tag == "a" else "something of another host is loaded"
        if ":" in link:
            return "a link to something else than a page"
        file, _, place = link.partition("#")
        target = (path.parent / unquote(file)).resolve() if file else path
        if not target.is_file() or not target.is_relative_to(self.root):
            return "it leads nowhere"
        return "no such place on the page" if place and place not in self.documents[target].places else None


def make(*words: object) -> subprocess.CompletedProcess[str]:
    return subprocess.run([TOOL, *map(str, words)], capture_output=True, text=True, check=False)


@functools.cache
def said() -> dict[str, dict[str, str]]:
    """The words of the pages, by language."""
    words: dict[str, dict[str, str]] = json.loads((ROOT / "share" / "site" / "words.json").read_text(encoding="utf-8"))
    return words


class Sample(NamedTuple):
    """The store of the sample with more, what the program shows of each concept, and the site of it."""

    store: Path
    views: dict[int, dict[str, Any]]
    site: Site


@pytest.fixture(scope="module")
def sample(tmp_path_factory: pytest.TempPathFactory) -> Sample:
    room = tmp_path_factory.mktemp("site")
    store, export, out = room / "sample.db", room / "sample.nt", room / "site"
    answers = values_of(over(store, "script", SAMPLE + lines_of(MORE)).out)
    assert not any("no" in it or "bad" in it for it in answers), answers
    export.write_bytes(over(store, "export").out)
    ran = make(export, out, "--langs", ",".join(LANGS), "--store", store, "--hidden-codes", "zxx")
    assert ran.returncode == 0 and not ran.stderr, ran
    shown = values_of(over(store, "script", lines_of({"get": "concept", "number": n} for n in range(1, 60))).out)
    return Sample(store, {it["number"]: it for it in shown if "number" in it}, Site(out))


# --- pages ---


def test_pages_are_html_and_their_links_lead_somewhere(sample: Sample) -> None:
    found = {str(it.relative_to(sample.site.root)): list(sample.site.faults_of(it)) for it in sample.site.documents}
    assert len(found) > 100
    assert {name: faults for name, faults in found.items() if faults} == {}


@pytest.mark.needs("tidy")
def test_tidy_finds_nothing(sample: Sample) -> None:
    found = []
    for path in sample.site.documents:
        ran = subprocess.run(["tidy", "-errors", "-quiet", "-utf8", path], capture_output=True, text=True, check=False)
        # (it is older than this attribute, which tells a screen reader which page is shown)
        found += [f"{path.name}: {it}" for it in ran.stderr.splitlines() if 'attribute "aria-current"' not in it]
    assert not found


def language(tag: str) -> str:
    return tag.split("-")[0]


def name_in(view: dict[str, Any], lang: str) -> str:
    """The name of a concept in a language, or in one that stands in for it."""
    labels = {language(tag): (tag, text) for tag, text in view["pref"]}
    tag, text = next(labels[it] for it in (lang, *LANGS) if it in labels)
    return text if language(tag) == lang else f"{text} {language(tag)}"


def wanted_rows(sample: Sample, view: dict[str, Any], lang: str) -> dict[str, list[str]]:
    """The lines of a concept's rows, by their kind."""

    def name(n: int) -> str:
        return name_in(sample.views[n], lang)

    wanted = {"related": sorted(map(name, view["related"]))}
    for kind in ("broader", "narrower"):
        typed = [(word.removeprefix(kind), n) for word, n in view["typed"] if word.startswith(kind)]
        types = {n: said()[lang][TYPES[word]] for word, n in typed}
        wanted[kind] = sorted(f"{name(n)} {types.get(n, '')}".strip() for n in view[kind])
    wanted["used_for"] = sorted(" ".join(text.split()) for tag, text in view["alt"] if language(tag) == lang)
    return wanted


@pytest.mark.parametrize("lang", LANGS)
def test_page_of_a_concept_shows_what_the_program_does(lang: str, sample: Sample) -> None:
    for number, view in sample.views.items():
        page = sample.site.page(f"{lang}/{number}")
        for kind, lines in wanted_rows(sample, view, lang).items():
            assert sorted(page.lines_of(said()[lang][kind])) == lines, (number, kind)


@pytest.mark.parametrize("lang", LANGS)
def test_page_of_a_dead_concept_names_the_one_that_replaced_it(lang: str, sample: Sample) -> None:
    dead = {number: view["replaced"] for number, view in sample.views.items() if not view["live"] and view["replaced"]}
    assert dead
    for number, other in dead.items():
        page = sample.site.page(f"{lang}/{number}")
        assert name_in(sample.views[other], lang) in [text for tag, text in page.rows if tag == "li"], number


Entries = dict[str, set[str]]


def printed_entries(site: Site) -> Entries:
    """The entries of the edition to print, each with its lines."""
    found: Entries = defaultdict(set)
    pages = [it for it in site.documents if it.parent.name == "en" and it.name.startswith("print-")]
    for tag, text in (row for path in pages for row in site.documents[path].rows):
        if tag == "dt":
            term = text
        if tag in ("dt", "dd"):
            found[term].add("" if tag == "dt" else text)
    return found


def displayed_entries(store: Path) -> Entries:
    """The entries of the program's alphabetical displays, each with its lines."""
    found: Entries = defaultdict(set)
    for scheme in ("1", "44"):
        shown = over(store, "alphabetical", after=("--scheme", scheme, "--lang", "en")).out.decode()
        for line in shown.splitlines():
            if not line.startswith(" "):
                term = line
            found[term].add(line.strip() if line.startswith(" ") else "")
    return found


def test_edition_to_print_has_the_entries_of_the_displays(sample: Sample) -> None:
    wanted, found = displayed_entries(sample.store), printed_entries(sample.site)
    # (a concept without a name in the language is a number there, and has a name of another language here)
    terms = {*wanted, *found} - {f"{HOSTILE} de", "Saiten de"}
    terms -= {it for it in terms if it.startswith("[")}
    assert {it: found[it] for it in terms} == {it: wanted[it] for it in terms}


@pytest.mark.parametrize("lang", json.loads((ROOT / "share" / "site" / "words.json").read_text(encoding="utf-8")))
def test_each_language_has_all_words(lang: str) -> None:
    assert said()[lang].keys() == said()["en"].keys()


def test_each_page_has_what_a_screen_reader_needs(sample: Sample) -> None:
    """A way to the content, names of the navigations, and what the abbreviations stand for."""
    for path in sample.site.documents:
        text = path.read_text(encoding="utf-8")
        if path.parent != sample.site.root:
            assert text.index('<a class="skip" href="#main">') < text.index("<header>") < text.index('<main id="main">')
        assert not re.search(r"<nav(?![^>]* aria-label=\"\w)", text), path
        assert not re.search(r"<abbr(?! title=\"\w)", text), path


def luminance(colour: str) -> float:
    """The relative luminance of a colour such as #fdfcfa, as WCAG defines it."""
    parts = [int(colour[at : at + 2], 16) / 255 for at in (1, 3, 5)]
    red, green, blue = (it / 12.92 if it <= 0.04045 else ((it + 0.055) / 1.055) ** 2.4 for it in parts)
    return 0.2126 * red + 0.7152 * green + 0.0722 * blue


def contrast(one: str, other: str) -> float:
    low, high = sorted((luminance(one), luminance(other)))
    return (high + 0.05) / (low + 0.05)


def test_borders_of_fields_and_buttons_are_seen() -> None:
    """A contrast of 3 to 1, by day and by night."""
    style = (ROOT / "share" / "site" / "style.css").read_text(encoding="utf-8")
    looks = [dict(re.findall(r"--(\w+): (#[0-9a-f]{6})", it)) for it in re.findall(r":root \{(.*?)\}", style, re.S)[:2]]
    assert len(looks) == 2
    for look in looks:
        assert contrast(look["edge"], look["paper"]) >= 3 and contrast(look["edge"], look["tint"]) >= 3
    for what in ("input", "button", ".letters a, .letters span"):
        (rule,) = re.findall(rf"^{re.escape(what)} \{{(.*?)\}}", style, re.M)
        assert "border: 1px solid var(--edge)" in rule, what


# --- what isn't for the public ---

OLD = "http://old.example/museum#"


@pytest.fixture(scope="module")
def brought(tmp_path_factory: pytest.TempPathFactory) -> Path:
    """The export of a vocabulary that came in with its old codes and addresses, and of a concept made since."""
    room = tmp_path_factory.mktemp("brought")
    names = ("Harps", "Lutes", "Lyres")
    script: list[Request] = [
        {"do": "scheme", "tag": "en", "text": "Brought"},
        *({"do": "concept", "scheme": 1, "tag": "en", "text": it} for it in (*names, "Zithers")),
        *({"do": "outside", "iri": f"{OLD}{it}"} for it in names),
        *({"do": "link", "kind": "exact", "a": 2 + at, "b": 6 + at} for at in range(3)),
        *({"do": "addLabel", "owner": 2 + at, "kind": "hidden", "tag": "zxx", "text": f"Q-{at}"} for at in range(3)),
        {"do": "addLabel", "owner": 2, "kind": "hidden", "tag": "en", "text": "Hraps"},
        {"do": "outside", "iri": "http://www.wikidata.org/entity/Q47369"},
        {"do": "link", "kind": "exact", "a": 2, "b": 9},
    ]
    answers = values_of(over(room / "store.db", "script", lines_of(script)).out)
    assert not any("no" in it or "bad" in it for it in answers), answers
    (room / "export.nt").write_bytes(over(room / "store.db", "export").out)
    return room / "export.nt"


def text_of_site(out: Path) -> str:
    return "".join(it.read_text(encoding="utf-8") for it in out.rglob("*") if it.suffix in (".html", ".js"))


def test_old_codes_and_addresses_are_left_out(brought: Path, room: Path) -> None:
    ran = make(brought, room / "out", "--langs", "en")
    assert ran.returncode == 0
    assert f"3 exact matches that begin with {OLD} are old addresses" in ran.stderr
    assert "3 old codes (hidden labels in zxx) are left out" in ran.stderr
    text = text_of_site(room / "out")
    assert "old.example" not in text and "Q-1" not in text
    assert "Q47369" in text and "Hraps" in text


def test_old_codes_and_addresses_if_asked(brought: Path, room: Path) -> None:
    ran = make(brought, room / "out", "--langs", "en", "--old-iris", "--hidden-codes", "zxx")
    assert (ran.returncode, ran.stderr) == (0, "")
    text = text_of_site(room / "out")
    assert f"{OLD}Lutes" in text and "Q-1" in text


# --- the types of links ---


def test_types_of_a_store_that_is_served(sample: Sample, room: Path) -> None:
    export = room / "sample.nt"
    export.write_bytes(over(sample.store, "export").out)
    with serving(sample.store, 1_000_000) as served:
        ran = make(export, room / "out", "--langs", "en", "--store", sample.store)
        assert ran.returncode == 3 and "another program has it open" in ran.stderr and "--http URL" in ran.stderr
        words = ("--http", f"http://127.0.0.1:{served.port}", "--hidden-codes", "zxx")
        ran = make(export, room / "out", "--langs", "en", *words)
        assert (ran.returncode, ran.stderr) == (0, "")
    wanted = (sample.site.root / "en" / "tree.html").read_text(encoding="utf-8").count("<small>generic</small>")
    assert wanted and (room / "out" / "en" / "tree.html").read_text(encoding="utf-8").count("<small>generic") == wanted


def test_an_older_copy_is_told(sample: Sample, room: Path) -> None:
    older, export = room / "older.db", room / "sample.nt"
    export.write_bytes(over(sample.store, "export").out)
    over(older, "script", SAMPLE + lines_of(MORE[:4]))
    over(older, "script", lines_of([{**next(links_of(SAMPLE)), "do": "unlink"}]))
    ran = make(export, room / "out", "--langs", "en", "--db", older)
    assert ran.returncode == 0 and "isn't as it was exported: 1 broader links" in ran.stderr, ran


def links_of(script: bytes) -> Iterator[Request]:
    """The hierarchical links of a script."""
    for it in map(json.loads, script.splitlines()):
        if it.get("do") == "link" and it["kind"].startswith("broader"):
            yield it


# --- in a browser ---


@pytest.fixture(scope="module")
def page(tmp_path_factory: pytest.TempPathFactory) -> Iterator[Page]:
    with browsing(tmp_path_factory.mktemp("profile")) as it:
        yield it


@pytest.mark.needs("chromium")
def test_search_and_links_are_followed(page: Page, sample: Sample) -> None:
    page.open((sample.site.root / "fr" / "index.html").as_uri())
    page.click("document.querySelector('header input')")
    page.type("flute a b")
    found = page.wait(
        "document.querySelector('#results li') && [...document.querySelectorAll('#results li')].map(it => it.innerText)"
    )
    assert found == ["Flûtes à bec"]
    page.click("document.querySelector('#results a')")
    page.wait("location.pathname.endsWith('/fr/16.html') && document.readyState === 'complete'")
    page.click("document.querySelector('nav.languages a[lang=de]')")
    heading = page.wait("location.pathname.endsWith('/de/16.html') && document.querySelector('h1').innerText")
    assert heading == "Blockflöten"


@pytest.mark.needs("chromium")
@pytest.mark.parametrize(
    ("lang", "text", "wanted"),
    [
        ("fr", "voilons", ["Violons"]),
        ("fr", "v 17.5", ["Violons"]),
        ("de", "V 17", ["Geigen"]),
        ("en", "vla", ["Violas"]),
        ("en", "bass v", ["Bass violins → Cellos, Double basses"]),
        ("de", "<script>", [HOSTILE]),
        ("en", "zzz", []),
    ],
)
def test_search_finds(lang: str, text: str, wanted: list[str], page: Page, sample: Sample) -> None:
    page.open(f"{(sample.site.root / lang / 'index.html').as_uri()}?q={quote(text)}")
    page.wait("!document.getElementById('results').hidden && document.querySelector('#results .count').innerText")
    assert page.value("[...document.querySelectorAll('#results li')].map(it => it.innerText)") == wanted


# The controls of a page that are less than 24 pixels high or wide, and so near another one that a circle of 24 pixels
# around its middle meets that. A link within a sentence or a list of words is as high as its line.
SMALL = """[...document.querySelectorAll('a, button, input, summary')].filter(it => it.checkVisibility())
  .map(it => [it, it.getBoundingClientRect()]).filter(([it, at]) => at.left >= 0 && Math.min(at.width, at.height) < 24)
  .filter(([it, at], _, all) => all.some(([other, near]) => other !== it && !other.contains(it) && !it.contains(other)
    && Math.hypot((at.left + at.right - near.left - near.right) / 2, (at.top + at.bottom - near.top - near.bottom) / 2)
    < 24)).map(([it]) => it.outerHTML)"""


@pytest.mark.needs("chromium")
@pytest.mark.parametrize("name", ["index", "5", "tree", "az-v", "collections"])
def test_targets_are_large_or_apart(name: str, page: Page, sample: Sample) -> None:
    page.open((sample.site.root / "en" / f"{name}.html").as_uri())
    page.wait("document.readyState === 'complete'")
    assert page.value(SMALL) == []


@pytest.mark.needs("chromium")
def test_tree_opens_at_a_concept(page: Page, sample: Sample) -> None:
    page.open(f"{(sample.site.root / 'en' / 'tree.html').as_uri()}#t30")
    assert page.wait("document.readyState === 'complete' && document.getElementById('t30').checkVisibility()")


# --- what is refused ---

# The words of a call, with places in braces, the status, and a part of what is said.
REFUSED: dict[str, tuple[list[str], int, str]] = {
    "something else than a site": (["{export}", "{other}", "--langs", "en"], 1, "something else"),
    "a line that is no triple": (["{bad}", "{out}", "--langs", "en"], 1, "bad.nt:{line}: "),
    "a language without labels": (["{export}", "{out}", "--langs", "en,xx"], 1, "xx"),
    "no export": (["{room}/none.nt", "{out}", "--langs", "en"], 3, "none.nt"),
    "no store": (["{export}", "{out}", "--langs", "en", "--store", "{bad}"], 3, "bad.nt"),
    "no languages": (["{export}", "{out}"], 2, "--langs"),
    "no tag": (["{export}", "{out}", "--langs", "e n"], 2, "language"),
}


@pytest.fixture
def places(sample: Sample, room: Path) -> dict[str, object]:
    """The places of a call: an export, a site of it, another folder, and an export with a wrong line."""
    export, bad, out, other = room / "sample.nt", room / "bad.nt", room / "out", room / "other"
    export.write_bytes(over(sample.store, "export").out)
    text = export.read_text(encoding="utf-8")
    bad.write_text(f"{text}<a> <b> .\n", encoding="utf-8")
    assert make(export, out, "--langs", "en").returncode == 0
    (other / "mine").mkdir(parents=True)
    return {"room": room, "export": export, "bad": bad, "out": out, "other": other, "line": text.count("\n") + 1}


@pytest.mark.parametrize("what", REFUSED)
def test_refused_and_nothing_changed(what: str, places: dict[str, object], room: Path) -> None:
    words, status, message = REFUSED[what]
    before = sorted(room.rglob("*"))
    ran = make(*(it.format(**places) for it in words))
    assert ran.returncode == status and message.format(**places) in ran.stderr and "Traceback" not in ran.stderr, ran
    assert sorted(room.rglob("*")) == before


def test_site_is_replaced_as_a_whole(places: dict[str, object], room: Path) -> None:
    assert make(places["export"], places["out"], "--langs", "fr").returncode == 0
    assert not (room / "out" / "en").exists() and (room / "out" / "fr" / "5.html").is_file()


# --- a large site ---


def large_export() -> Iterator[str]:
    """Yields the lines of an export of many concepts in three languages."""
    dice = random.Random(1)
    skos, base = "http://www.w3.org/2004/02/skos/core#", "https://thesaurus.example/id/"

    def word() -> str:
        return "".join(
            dice.choice(("ba", "ko", "lé", "mi", "tür", "sa", "ne", "qui", "öl", "ze", "pa", "chi")) for _ in range(4)
        ).title()

    def node(n: int) -> str:
        return f"<{base}{n}>"

    def text(it: str, lang: str) -> str:
        return f'"{it}"@{lang}'

    def triple(n: int, name: str, target: str) -> str:
        return f"{node(n)} <{skos}{name}> {target} .\n"

    def kind(n: int, name: str) -> str:
        return f"{node(n)} <http://www.w3.org/1999/02/22-rdf-syntax-ns#type> <{skos}{name}> .\n"

    yield kind(1, "ConceptScheme") + "".join(triple(1, "prefLabel", text("Large", lang)) for lang in LANGS)
    for n in range(2, CONCEPTS + 2):
        yield kind(n, "Concept") + triple(n, "inScheme", node(1)) + triple(
            n, "scopeNote", text(" ".join(word() for _ in range(12)), "en")
        )
        for lang in LANGS:
            yield triple(n, "prefLabel", text(f"{word()} {n}", lang)) + triple(
                n, "altLabel", text(f"{word()} {word()}", lang)
            )
        if n > 20:
            yield triple(n, "broader", node(n // 8)) + triple(n // 8, "narrower", node(n))
        if n % 4 == 0:
            yield triple(n, "related", node(n + 1)) + triple(n + 1, "related", node(n))


# --- what it has for programs ---

ADDRESS = "https://museum.example/terms/"


@pytest.fixture(scope="module")
def addressed(sample: Sample, tmp_path_factory: pytest.TempPathFactory) -> Path:
    """The sample's site, made for an address."""
    out = tmp_path_factory.mktemp("addressed") / "out"
    ran = make(
        (sample.site.root.parent / "sample.nt"), out, "--langs", ",".join(LANGS), "--address", ADDRESS.rstrip("/")
    )
    assert not ran.returncode, ran.stderr
    return out


def heads(path: Path, relation: str) -> list[tuple[str, str]]:
    """Returns the links of a page's head with a relation: their languages or types, and where they lead."""
    text = path.read_text(encoding="utf-8").partition("</head>")[0]
    found = re.findall(rf'<link rel="{relation}"(?: (?:hreflang|type)="(.*?)")? href="(.*?)">', text)
    return [(kind, href) for kind, href in found]


def test_each_page_names_itself_and_those_in_other_languages(addressed: Path) -> None:
    assert heads(addressed / "en" / "5.html", "canonical") == [("", f"{ADDRESS}en/5.html")]
    assert heads(addressed / "en" / "5.html", "alternate") == [
        *((lang, f"{ADDRESS}{lang}/5.html") for lang in LANGS),
        ("text/turtle", "../rdf/5.ttl"),
    ]
    (lead, *_) = sorted((addressed / "en").glob("use-*.html"))
    ((_, target),) = heads(lead, "canonical")
    assert re.fullmatch(rf"{ADDRESS}en/\d+\.html", target) and not heads(lead, "alternate")
    (letter, *_) = sorted((addressed / "en").glob("print-*.html"))
    assert heads(letter, "canonical") == [("", f"{ADDRESS}en/{letter.name.replace('print-', 'az-')}")]


def test_the_list_of_pages_has_all_that_are_their_own(addressed: Path) -> None:
    listed = [it.text for it in ElementTree.parse(addressed / "sitemap.xml").getroot().iter() if it.tag.endswith("loc")]
    own = {
        f"{ADDRESS}{path.relative_to(addressed)}"
        for path in addressed.glob("*/*.html")
        if heads(path, "canonical") == [("", f"{ADDRESS}{path.relative_to(addressed)}")] and "az-" not in path.name
    }
    assert len(listed) == len(set(listed)) and set(listed) == own
    assert (addressed / "robots.txt").read_text(encoding="ascii") == f"Sitemap: {ADDRESS}sitemap.xml\n"


@pytest.mark.needs("xmllint")
def test_xmllint_takes_the_list_of_pages(addressed: Path) -> None:
    ran = subprocess.run(["xmllint", "--nonet", "--noout", addressed / "sitemap.xml"], capture_output=True, check=False)
    assert ran.returncode == 0 and not ran.stderr, ran.stderr


def test_a_long_list_of_pages_is_cut(tmp_path: Path, monkeypatch: pytest.MonkeyPatch) -> None:
    monkeypatch.setattr("thesaurus_tools.site_rdf.MOST_PAGES", 2)
    write_sitemaps(ADDRESS, ["a&b.html", "c.html", "d.html"], tmp_path)
    found = {it.name: re.findall("<loc>(.*?)</loc>", it.read_text(encoding="utf-8")) for it in tmp_path.glob("*.xml")}
    assert found == {
        "sitemap.xml": [f"{ADDRESS}sitemap-1.xml", f"{ADDRESS}sitemap-2.xml"],
        "sitemap-1.xml": [f"{ADDRESS}a&amp;b.html", f"{ADDRESS}c.html"],
        "sitemap-2.xml": [f"{ADDRESS}d.html"],
    }


def test_without_an_address_there_is_no_list(sample: Sample) -> None:
    assert not (sample.site.root / "sitemap.xml").exists() and not heads(
        sample.site.root / "en" / "5.html", "canonical"
    )
    assert (LANGS[0], f"../{LANGS[0]}/5.html") in heads(sample.site.root / "en" / "5.html", "alternate")


@pytest.mark.needs("rapper")
def test_the_rdf_beside_the_pages_is_that_of_the_export(sample: Sample) -> None:
    """Each file's is read by rapper; together they have all triples."""
    lines: set[str] = set()
    for path in sorted((sample.site.root / "rdf").iterdir()):
        words = ["rapper", "-q", "-i", "turtle", "-o", "ntriples", str(path)]
        lines.update(subprocess.run(words, capture_output=True, check=True).stdout.decode().splitlines())
    wanted = (sample.site.root.parent / "sample.nt").read_text(encoding="utf-8").splitlines()
    assert {parse_statement(it) for it in lines} == {parse_statement(it) for it in wanted}


def test_large_site_takes_little_time(room: Path) -> None:
    """Counted is a processor's time, as others may use the processors, too."""
    export = room / "large.nt"
    export.write_text("".join(large_export()), encoding="utf-8")
    before = resource.getrusage(resource.RUSAGE_CHILDREN)
    ran = make(export, room / "large", "--langs", ",".join(LANGS))
    after = resource.getrusage(resource.RUSAGE_CHILDREN)
    assert not ran.returncode, ran.stderr
    assert after.ru_utime + after.ru_stime - before.ru_utime - before.ru_stime <= MOST_SECONDS
    last = read_document(room / "large" / "fr" / f"{CONCEPTS}.html")
    assert last.lines_of("Termes génériques")
