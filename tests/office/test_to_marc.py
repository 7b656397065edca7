"""Tests tools/to-marc: its records are read back by other programs, field by field."""
from __future__ import annotations

import json
import re
import shutil
import subprocess
from collections import defaultdict
from pathlib import Path
from typing import Any
from xml.etree import ElementTree

import pytest
from office import tool
from program import ROOT, built
from thesaurus_tools.marc import Field, Record
from thesaurus_tools.marc_languages import marc_language

NAMESPACE = "{http://www.loc.gov/MARC21/slim}"
BASE = "https://museum.example/id/"
ISO_639 = Path("/usr/share/iso-codes/json/iso_639-2.json")
# What a record has: by tag, the subfields of each field as code and value.
Fields = dict[str, list[list[tuple[str, str]]]]


@pytest.fixture(scope="module")
def store(tmp_path_factory: pytest.TempPathFactory) -> Path:
    """The store of musical instruments, of which a concept is merged and one ended."""
    path = tmp_path_factory.mktemp("marc") / "museum.db"
    more = b'{"do":"concept","scheme":1,"tag":"en","text":"Old"}\n{"do":"deprecate","concept":%d}\n'
    script = (ROOT / "examples/instruments.jsonl").read_bytes()
    words = [built(), "--db", path, "--base", BASE, "script"]
    made = subprocess.run(words, input=script, capture_output=True, check=True).stdout.count(b'"ok"')
    ended = more % (made + 1)
    subprocess.run(words, input=ended + b'{"do":"merge","source":6,"target":5}\n', capture_output=True, check=False)
    return path


@pytest.fixture(scope="module")
def marcxml(store: Path, tmp_path_factory: pytest.TempPathFactory) -> Path:
    path = tmp_path_factory.mktemp("marcxml") / "museum.xml"
    ended = tool("to-marc", "--db", store, "--lang", "en", "--source", "musinstr", "--organisation", "DE-M", "-o", path)
    assert ended.status == 0, ended.err.decode()
    assert b"MARC has no place for" in ended.err
    return path


def records(path: Path) -> dict[str, Fields]:
    """Returns the records of a file by their numbers."""
    found: dict[str, Fields] = {}
    for record in ElementTree.parse(path).getroot():
        fields: Fields = defaultdict(list)
        for it in record:
            if it.tag == f"{NAMESPACE}datafield":
                fields[it.attrib["tag"]].append([(sub.attrib["code"], sub.text or "") for sub in it])
            else:
                fields[it.attrib.get("tag", "leader")].append([("", it.text or "")])
        found[fields["001"][0][0][1]] = fields
    return found


def view(store: Path, number: int) -> dict[str, list[list[str]]]:
    words = [built(), "--db", store, "script"]
    asked = b'{"get":"concept","number":%d}\n' % number
    return json.loads(subprocess.run(words, input=asked, capture_output=True, check=True).stdout)


def test_each_field_is_what_the_store_has(store: Path, marcxml: Path) -> None:
    found = records(marcxml)
    export = subprocess.run([built(), "--db", store, "export"], capture_output=True, check=True).stdout.decode()
    assert len(found) > 20
    for number, fields in found.items():
        seen = view(store, int(number))
        names = {tag: text for tag, text in seen["pref"]}
        assert (fields["001"], fields["003"]) == ([[("", number)]], [[("", "DE-M")]])
        # (the sample's matches are all exact ones with Wikidata)
        exact = re.findall(rf"(?m)^<{BASE}{number}> <\S+#exactMatch> <(.*)> \.$", export)
        assert fields["024"] == [[("a", it), ("2", "uri")] for it in (f"{BASE}{number}", *exact)]
        assert fields["150"] == [[("a", names["en"])]] or "en" not in names
        assert [it[0][1] for it in fields["450"]] == [text for tag, text in seen["alt"] if tag == "en"]
        assert [it[0][1] for it in fields["680"]] == [text for tag, text in seen["scope"] if tag == "en"]
        ends = {kind: [it[-1][1] for it in fields["550"] if it[0] == ("w", kind)] for kind in "gh"}
        assert ends["g"] == [f"{BASE}{it}" for it in seen["broader"]]
        assert ends["h"] == [f"{BASE}{it}" for it in seen["narrower"]]
        related = [it[-1][1] for it in fields["550"] if it[0][0] == "a"]
        assert related == [f"{BASE}{it}" for it in seen["related"]]
        assert {it[0][1] for it in fields["750"] if it[0][0] == "a"} == {it for tag, it in names.items() if tag != "en"}
        assert not [it for it in fields["750"] if it[0][0] == "i"]


# A store whose concepts have terms in different languages, and matches elsewhere.
MIXED: list[dict[str, Any]] = [
    {"do": "scheme", "tag": "en", "text": "Animals"},
    {"do": "concept", "scheme": 1, "tag": "en", "text": "Cats"},
    {"do": "concept", "scheme": 1, "tag": "de", "text": "Hunde"},
    {"do": "concept", "scheme": 1, "tag": "haw", "text": "Manu"},
    {"do": "outside", "iri": "http://www.wikidata.org/entity/Q146"},
    {"do": "outside", "iri": "http://id.loc.gov/cats"},
    {"do": "link", "kind": "exact", "a": 2, "b": 5},
    {"do": "link", "kind": "close", "a": 2, "b": 6},
    {"do": "link", "kind": "related", "a": 2, "b": 3},
]


def store_of(path: Path, requests: list[dict[str, Any]]) -> Path:
    """Makes a store by requests."""
    lines = "".join(json.dumps(it) + "\n" for it in requests).encode()
    words = [built(), "--db", path, "--base", BASE, "script"]
    assert b'"no"' not in subprocess.run(words, input=lines, capture_output=True, check=True).stdout
    return path


@pytest.fixture
def mixed(tmp_path: Path) -> Path:
    """A store whose concepts have terms in different languages."""
    return store_of(tmp_path / "mixed.db", MIXED)


def test_a_concept_without_a_term_in_the_language_is_left_out(mixed: Path, tmp_path: Path) -> None:
    ended = tool("to-marc", "--db", mixed, "--lang", "en", "-o", tmp_path / "en.xml")
    assert ended.status == 0 and b"1 records;" in ended.err
    assert b"left out, since they have no preferred term in en: 3 4" in ended.err
    assert b"1 relations to concepts that are left out" in ended.err
    (fields,) = records(tmp_path / "en.xml").values()
    assert fields["150"] == [[("a", "Cats")]] and not fields["550"]


def test_a_fallback_is_a_records_own_language(mixed: Path, tmp_path: Path) -> None:
    ended = tool("to-marc", "--db", mixed, "--lang", "en", "--fallback", "de,haw", "-o", tmp_path / "all.xml")
    assert ended.status == 0 and b"left out" not in ended.err
    found = {it["150"][0][0][1]: dict(it["040"][0])["b"] for it in records(tmp_path / "all.xml").values()}
    assert found == {"Cats": "eng", "Hunde": "ger", "Manu": "haw"}


def test_matches_elsewhere_have_no_750(mixed: Path, tmp_path: Path) -> None:
    """Their terms aren't known. An exact one is in a 024."""
    ended = tool("to-marc", "--db", mixed, "--lang", "en", "-o", tmp_path / "en.xml")
    fields = records(tmp_path / "en.xml")["2"]
    assert not fields["750"] and b"1 matches elsewhere (close match), whose terms aren't known" in ended.err
    assert [it[0][1] for it in fields["024"]] == [f"{BASE}2", "http://www.wikidata.org/entity/Q146"]


def test_a_record_that_iso_2709_cant_hold_is_left_out(tmp_path: Path) -> None:
    """It is that of a concept with 2,000 narrower ones."""
    narrower = [{"do": "concept", "scheme": 1, "tag": "en", "text": f"Cats {n}"} for n in range(3, 2003)]
    links = [{"do": "link", "kind": "broader", "a": n, "b": 2} for n in range(3, 2003)]
    store = store_of(tmp_path / "large.db", [*MIXED[:2], *narrower, *links])
    ended = tool("to-marc", "--db", store, "--lang", "en", "-o", tmp_path / "large.xml")
    assert ended.status == 1 and b"2000 records" in ended.err
    assert b"left out, since ISO 2709 can't hold its record: 2: it has " in ended.err
    assert "2" not in records(tmp_path / "large.xml")


@pytest.mark.needs("yaz-marcdump")
def test_the_length_of_a_record_is_that_of_yaz(marcxml: Path) -> None:
    words = ["yaz-marcdump", "-i", "marcxml", "-o", "marc", "-f", "utf-8", "-t", "utf-8", str(marcxml)]
    data = subprocess.run(words, capture_output=True, check=True).stdout
    lengths = [int(it[:5]) for it in data.split(b"\x1d")[:-1]]
    assert lengths == [length_of(it) for it in ElementTree.parse(marcxml).getroot()]


def length_of(record: ElementTree.Element) -> int:
    """Returns the length of a record as the tool counts it."""
    controls = tuple((it.attrib["tag"], it.text or "") for it in record.iterfind(f"{NAMESPACE}controlfield"))
    fields = [
        Field(
            it.attrib["tag"],
            it.attrib["ind1"] + it.attrib["ind2"],
            tuple((sub.attrib["code"], sub.text or "") for sub in it),
        )
        for it in record.iterfind(f"{NAMESPACE}datafield")
    ]
    return Record("", controls, fields).length()


@pytest.mark.parametrize(
    ("tag", "code"),
    [("en", "eng"), ("de-at", "ger"), ("deu", "ger"), ("cy", "wel"), ("gsw", "gsw"), ("xx", "und"), ("qqq", "und")],
)
def test_codes_of_languages(tag: str, code: str) -> None:
    assert marc_language(tag) == code


@pytest.mark.skipif(not ISO_639.exists(), reason="skipped without iso-codes")
def test_all_codes_of_iso_639_2() -> None:
    for it in json.loads(ISO_639.read_text(encoding="utf-8"))["639-2"]:
        if it["alpha_3"] != "qaa-qtz":
            assert marc_language(it["alpha_3"]) == it.get("bibliographic", it["alpha_3"])
            assert marc_language(it.get("alpha_2", it["alpha_3"])) == it.get("bibliographic", it["alpha_3"])


def test_dead_concepts(marcxml: Path) -> None:
    found = records(marcxml)
    assert found["6"]["682"][0][0] == ("i", "Merged into") and found["6"]["682"][0][2] == ("0", f"{BASE}5")
    assert found["6"]["leader"][0][0][1][5] == "x"
    last = found[max(found, key=int)]
    assert last["682"] == [[("i", "No longer in use")]] and last["leader"][0][0][1][5] == "o"
    assert all(len(it["leader"][0][0][1]) == 24 and len(it["008"][0][0][1]) == 40 for it in found.values())


@pytest.mark.needs("yaz-marcdump")
def test_yaz_makes_iso_2709_of_it_and_back(marcxml: Path, tmp_path: Path) -> None:
    binary = tmp_path / "museum.mrc"
    words = ["yaz-marcdump", "-i", "marcxml", "-o", "marc", "-f", "utf-8", "-t", "utf-8", str(marcxml)]
    binary.write_bytes(subprocess.run(words, capture_output=True, check=True).stdout)
    back = tmp_path / "back.xml"
    words = ["yaz-marcdump", "-i", "marc", "-o", "marcxml", "-f", "utf-8", "-t", "utf-8", str(binary)]
    back.write_bytes(subprocess.run(words, capture_output=True, check=True).stdout)
    ours, theirs = records(marcxml), records(back)
    assert ours.keys() == theirs.keys()
    for number, fields in ours.items():
        del fields["leader"], theirs[number]["leader"]  # (lengths are in it)
        assert fields == theirs[number]


# Prints each field of each record: its tag, its indicators, and the code and value of each subfield.
PERL = """
binmode STDOUT, ":utf8";
my $batch = MARC::Batch->new("XML", $ARGV[0]);
while (my $record = $batch->next) {
    for my $it ($record->fields) {
        my @parts = $it->is_control_field
            ? $it->data : ($it->indicator(1) . $it->indicator(2), map { @$_ } $it->subfields);
        print join("\t", $it->tag, @parts), "\n";
    }
}
"""


@pytest.mark.needs("perl")
def test_perl_reads_each_field(marcxml: Path) -> None:
    modules = ["-MMARC::Batch", "-MMARC::File::XML=BinaryEncoding,utf8,RecordFormat,USMARC"]
    if subprocess.run(["perl", *modules, "-e", "1"], capture_output=True, check=False).returncode:
        pytest.skip("skipped without libmarc-xml-perl")
    ran = subprocess.run(["perl", *modules, "-e", PERL, str(marcxml)], capture_output=True, check=True)
    wanted = []
    for it in ElementTree.parse(marcxml).getroot().iterfind("*/*[@tag]"):
        subfields = [part for sub in it for part in (sub.attrib["code"], sub.text or "")]
        parts = [it.attrib["ind1"] + it.attrib["ind2"], *subfields] if len(it) else [it.text or ""]
        wanted.append([it.attrib["tag"], *parts])
    assert len(wanted) > 200
    assert [it.split("\t") for it in ran.stdout.decode().splitlines()] == wanted


def test_a_language_that_no_term_has(store: Path) -> None:
    ended = tool("to-marc", "--db", store, "--lang", "fi")
    assert (ended.status, ended.out) == (1, b"") and b"no concept has a preferred term in fi" in ended.err


ODD = "Odd\ufffe\uffff\ufdd0 \U0001fffe<&> name"
XML_FORMS: tuple[tuple[str | Path, ...], ...] = (
    ("to-marc", "--lang", "en"),
    ("to-rdf", "--format", "rdfxml", "--program", built()),
    ("to-zthes",),
    ("to-iso25964",),
)


@pytest.fixture(scope="module")
def odd(store: Path, tmp_path_factory: pytest.TempPathFactory) -> Path:
    """A store with a term that has characters which XML doesn't have."""
    path = Path(shutil.copy(store, tmp_path_factory.mktemp("odd") / "museum.db"))
    request = json.dumps({"do": "addLabel", "owner": 5, "kind": "alt", "tag": "en", "text": ODD}).encode()
    words = [built(), "--db", path, "--base", BASE, "script"]
    assert b'"done"' in subprocess.run(words, input=request, capture_output=True, check=True).stdout
    return path


def test_what_xml_doesnt_have_is_left_out_and_told(odd: Path) -> None:
    """By the tool, and at the end of each form of XML, which is read by a parser; Turtle has all characters."""
    # (Zthes names a term again where it refers to it)
    said = rb"characters that XML doesn't have are left out: \d U\+1FFFE, \d U\+FDD0, \d U\+FFFE, \d U\+FFFF"
    for form in XML_FORMS:
        ended = tool(str(form[0]), "--db", odd, *form[1:])
        assert ended.status == 0 and re.search(said, ended.err), ended.err
        assert re.search(said + rb" -->\n\Z", ended.out), ended.out[-200:]
        assert "Odd <&> name" in "".join(ElementTree.fromstring(ended.out).itertext())
    turtle = tool("to-rdf", "--db", odd, "--program", built())
    assert ODD in turtle.out.decode() and not turtle.err


@pytest.mark.needs("xmllint")
@pytest.mark.parametrize("form", XML_FORMS, ids=["MARCXML", "RDF/XML", "Zthes", "ISO 25964"])
def test_xmllint_takes_each_form_of_xml(odd: Path, form: tuple[str | Path, ...]) -> None:
    document = tool(str(form[0]), "--db", odd, *form[1:]).out
    ran = subprocess.run(["xmllint", "--nonet", "--noout", "-"], input=document, capture_output=True, check=False)
    assert ran.returncode == 0 and not ran.stderr, ran.stderr
