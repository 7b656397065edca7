"""OAI-PMH 2.0 at /oai: each answer by the rules of the protocol's schema; a harvester that keeps a copy by it."""
from __future__ import annotations

import subprocess
from dataclasses import dataclass, field
from pathlib import Path
from urllib.parse import urlencode
from xml.etree import ElementTree
from xml.etree.ElementTree import Element

import pytest
from asking import done, label, new
from clients import Client, Site
from rdflib import SKOS, Graph, Literal, URIRef
from test_arrays import BASSES, CELLOS, FIDDLES, VIOLINS
from thesaurus_desk.interfaces import oai
from thesaurus_desk.journal.values import set_request
from thesaurus_desk.web.app import create_app

pytestmark = pytest.mark.needs("xmllint")
RULES = Path(__file__).with_name("oai_pmh.xsd")
OAI, DC = "{http://www.openarchives.org/OAI/2.0/}", "{http://purl.org/dc/elements/1.1/}"
RDF = "{http://www.w3.org/1999/02/22-rdf-syntax-ns#}RDF"
BASE = "https://thesaurus.example/id/"
FIRST = "1970-01-01T00:00:00Z"


@dataclass
class Repository:
    """A repository that is asked, each of whose answers is kept for a look at the schema's rules."""

    client: Client
    answers: list[bytes] = field(default_factory=list)

    def ask(self, **given: str) -> Element:
        """The answer to a request: its arguments end in an underscore where Python has their names."""
        query = urlencode({name.rstrip("_"): text for name, text in given.items()})
        answer = self.client.get(f"/oai?{query}")
        assert answer.status_code == 200 and answer.headers["Content-Type"].startswith("text/xml")
        self.answers.append(answer.data)
        return ElementTree.fromstring(answer.data)

    def error(self, **given: str) -> str:
        """The code of the error that a request leads to."""
        found = self.ask(**given).findall(f"{OAI}error")
        return ",".join(it.get("code", "") for it in found)

    def check(self, folder: Path) -> None:
        """Holds the answers against the rules."""
        for number, it in enumerate(self.answers):
            (folder / f"{number}.xml").write_bytes(it)
        files = [str(folder / f"{number}.xml") for number in range(len(self.answers))]
        words = ["xmllint", "--nonet", "--noout", "--schema", str(RULES), *files]
        ran = subprocess.run(words, capture_output=True, text=True, check=False)
        assert ran.returncode == 0, ran.stderr


@dataclass
class Harvester:
    """A harvester as portals have one: it asks for what has changed since it last asked, follows tokens, and forgets
    what is deleted."""

    repository: Repository
    kept: dict[str, Element] = field(default_factory=dict)
    last: str = ""

    def harvest(self, **more: str) -> int:
        """Brings its copy up to date, and returns how many records came."""
        given = {"metadataPrefix": "oai_dc", **({"from_": self.last} if self.last else {}), **more}
        count, begin = 0, ""
        while True:
            answer = self.repository.ask(verb="ListRecords", **given)
            begin = begin or answer.findtext(f"{OAI}responseDate") or ""
            for record in answer.iter(f"{OAI}record"):
                self.take(record)
                count += 1
            token = answer.findtext(f"{OAI}ListRecords/{OAI}resumptionToken")
            if not token:
                break
            given = {"resumptionToken": token}
        self.last = begin
        return count

    def take(self, record: Element) -> None:
        """Keeps a record, or forgets it."""
        header = record.find(f"{OAI}header")
        assert header is not None
        identifier = header.findtext(f"{OAI}identifier") or ""
        if header.get("status") == "deleted":
            assert record.find(f"{OAI}metadata") is None
            self.kept.pop(identifier, None)
        else:
            self.kept[identifier] = record

    def titles(self, number: int) -> set[str | None]:
        """The titles of a record."""
        return {it.text for it in self.kept[f"{BASE}{number}"].iter(f"{DC}title")}


@pytest.fixture
def repository(site: Site) -> Repository:
    return Repository(site.client("rita"))


def test_what_it_is(repository: Repository, tmp_path: Path) -> None:
    its = repository.ask(verb="Identify").find(f"{OAI}Identify")
    assert its is not None and its.findtext(f"{OAI}protocolVersion") == "2.0"
    assert its.findtext(f"{OAI}baseURL") == "http://localhost/oai"
    formats = repository.ask(verb="ListMetadataFormats", identifier=f"{BASE}{VIOLINS}")
    assert [it.text for it in formats.iter(f"{OAI}metadataPrefix")] == ["oai_dc", "rdf"]
    sets = repository.ask(verb="ListSets")
    assert sets.findtext(f"{OAI}ListSets/{OAI}set/{OAI}setSpec") == "1"
    sent = repository.client.ask("POST", "/oai", {"verb": "Identify"}, {})
    assert sent.status_code == 200 and b"<Identify>" in sent.data
    repository.check(tmp_path)


@pytest.mark.parametrize(
    ("query", "code"),
    [
        ("", "badVerb"),
        ("verb=Nothing", "badVerb"),
        ("verb=Identify&verb=Identify", "badVerb"),
        ("verb=Identify&set=1", "badArgument"),
        ("verb=ListRecords", "badArgument"),
        ("verb=ListRecords&metadataPrefix=oai_dc&metadataPrefix=oai_dc", "badArgument"),
        ("verb=ListRecords&metadataPrefix=oai_dc&from=yesterday", "badArgument"),
        ("verb=ListRecords&metadataPrefix=oai_dc&from=2026-02-31", "badArgument"),
        ("verb=ListRecords&metadataPrefix=oai_dc&from=2026-02-03&until=2026-02-01", "badArgument"),
        ("verb=ListRecords&metadataPrefix=oai_dc&from=2026-02-03&until=2026-02-05T00:00:00Z", "badArgument"),
        ("verb=ListRecords&metadataPrefix=oai_dc&set=", "badArgument"),
        ("verb=ListRecords&metadataPrefix=marc21", "cannotDisseminateFormat"),
        (f"verb=GetRecord&metadataPrefix=marc21&identifier={BASE}{VIOLINS}", "cannotDisseminateFormat"),
        (f"verb=GetRecord&metadataPrefix=oai_dc&identifier={BASE}99999", "idDoesNotExist"),
        (f"verb=GetRecord&metadataPrefix=oai_dc&identifier={BASE}1", "idDoesNotExist"),
        ("verb=ListMetadataFormats&identifier=urn:none", "idDoesNotExist"),
        ("verb=ListIdentifiers&metadataPrefix=oai_dc&set=99", "noRecordsMatch"),
        ("verb=ListIdentifiers&metadataPrefix=oai_dc&until=1969-01-01", "noRecordsMatch"),
        ("verb=ListIdentifiers&metadataPrefix=oai_dc&from=2999-01-01", "noRecordsMatch"),
        ("verb=ListRecords&resumptionToken=none", "badResumptionToken"),
        ("verb=ListRecords&resumptionToken=oai_dc!!!!99999!100", "badResumptionToken"),
        ("verb=ListRecords&resumptionToken=none&metadataPrefix=oai_dc", "badArgument"),
        ("verb=ListSets&resumptionToken=none", "badResumptionToken"),
    ],
)
def test_errors(repository: Repository, tmp_path: Path, query: str, code: str) -> None:
    answer = repository.client.get(f"/oai?{query}")
    assert answer.status_code == 200
    repository.answers.append(answer.data)
    root = ElementTree.fromstring(answer.data)
    assert [it.get("code") for it in root.findall(f"{OAI}error")] == [code]
    asked = root.find(f"{OAI}request")
    assert asked is not None and bool(asked.attrib) == (code not in ("badVerb", "badArgument"))
    repository.check(tmp_path)


def test_a_harvester_keeps_a_copy(
    site: Site, repository: Repository, tmp_path: Path, monkeypatch: pytest.MonkeyPatch
) -> None:
    monkeypatch.setattr(oai, "PAGE", 7)
    harvester = Harvester(repository)
    replica = site.desk.public_view()
    living = {it for it in replica.numbers("concept") if replica.is_live(it)}
    assert harvester.harvest() == len(replica.numbers("concept")) and len(repository.answers) > 3
    assert {*harvester.kept} == {f"{BASE}{it}" for it in living}
    # (what changes within the second of an answer comes again)
    harvester.last = "2026-01-01T00:00:00Z"
    made = done(site.desk, new("Rebecs")).made
    done(site.desk, label("addLabel", VIOLINS, "pref", "it", "Violini"))
    done(site.desk, {"do": "merge", "source": FIDDLES, "target": VIOLINS}, {"do": "deprecate", "concept": BASSES})
    done(site.desk, set_request(CELLOS, "definition", "en", new="A large violin."))
    harvester.harvest()
    assert made and harvester.titles(made) == {"Rebecs"}
    assert {*harvester.kept} == {f"{BASE}{it}" for it in (living | {made}) - {FIDDLES, BASSES}}
    assert "A large violin." in {it.text for it in harvester.kept[f"{BASE}{CELLOS}"].iter(f"{DC}description")}
    done(site.desk, set_request(CELLOS, "status", "", new="candidate"))
    assert repository.error(verb="GetRecord", metadataPrefix="rdf", identifier=f"{BASE}{CELLOS}") == "idDoesNotExist"
    only = Harvester(repository)
    assert only.harvest(set="1", until=FIRST) > 0 and f"{BASE}{made}" not in only.kept
    repository.check(tmp_path)


def test_records(site: Site, repository: Repository, tmp_path: Path) -> None:
    done(site.desk, set_request(VIOLINS, "editorialNote", "en", new="Inner words"))
    record = repository.ask(verb="GetRecord", metadataPrefix="rdf", identifier=f"{BASE}{VIOLINS}")
    (found,) = record.iter(RDF)
    graph = Graph().parse(data=ElementTree.tostring(found), format="xml")
    wanted = Graph().parse(data=repository.client.get(f"/id/{VIOLINS}?format=nt").data, format="nt")
    assert {*graph} == {*wanted}
    assert (URIRef(f"{BASE}{VIOLINS}"), SKOS.prefLabel, Literal("Violins", lang="en")) in graph
    core = repository.ask(verb="GetRecord", metadataPrefix="oai_dc", identifier=f"{BASE}{VIOLINS}")
    assert {it.text for it in core.iter(f"{DC}identifier")} == {f"{BASE}{VIOLINS}"}
    assert f"{BASE}4" in {it.text for it in core.iter(f"{DC}relation")}
    assert not any(b"Inner words" in it for it in repository.answers)
    repository.check(tmp_path)


def test_a_visitor_may_harvest_a_public_desk_alone(site: Site) -> None:
    assert site.client().get("/oai?verb=Identify").status_code in (302, 303, 401, 403)
    site.settings = type(site.settings)(site.settings.hosts, is_public=True)
    site.app = create_app(site.desk, site.entry, site.settings)
    assert b"<Identify>" in site.client().get("/oai?verb=Identify").data
