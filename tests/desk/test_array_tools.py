"""Arrays in RDF and beyond the desk: tools read them from a journal or an export, and a vocabulary brings them in."""
from __future__ import annotations

import subprocess
import sys
from pathlib import Path

import pytest
from flask import Flask
from asking import done, link
from clients import Site
from conftest import ROOT
from test_array_pages import LABEL
from test_arrays import BASSES, BOWED, CELLOS, QUARTET, array, collection, place
from thesaurus_desk.importing.vocabularies import SkosOptions, perform_script, read_skos
from thesaurus_desk.interfaces import interfaces_of
from thesaurus_desk.store.arrays import parts_of
from thesaurus_desk.store.export_replica import export_source, read_export
from thesaurus_desk.store.plan_execution import Desk
from thesaurus_tools.arrays import number_places, places_of_triples
from thesaurus_tools.export_store import store_of_export
from thesaurus_tools.ntriples import Triple, read_ntriples
from thesaurus_tools.rdf_writer import ISO_THES
from whole import resources

BASE = "https://thesaurus.example/id/"
ABOUT_PLACES = (ISO_THES, "memberList", "OrderedCollection", "rdf-syntax-ns#first", "rdf-syntax-ns#rest")
# (words of ISO-THES, too: the types of links between concepts)
ABOUT_TYPES = (f"{ISO_THES}broader", f"{ISO_THES}narrower")


def of_places(triples: list[Triple]) -> set[Triple]:
    """The triples that say where collections are, and their orders."""
    found = (it for it in triples if any(name in f"{it.predicate} {it.object}" for name in ABOUT_PLACES))
    return {it for it in found if not it.predicate.startswith(ABOUT_TYPES)}


def run(tool: str, *words: str | Path) -> str:
    """Runs a tool, and returns what it prints."""
    ran = subprocess.run(
        [sys.executable, ROOT / "tools" / tool, *words], capture_output=True, encoding="utf-8", check=False
    )
    assert ran.returncode == 0, ran.stderr
    return ran.stdout


@pytest.fixture
def export(site: Site, tmp_path: Path) -> Path:
    """The export of a desk with an array that has another one in it, and a group with a collection."""
    made = array(site.desk)
    done(site.desk, collection("by period"), place("$1", "within", [made]), link("link", "member", "$1", 10))
    done(site.desk, collection("Groups"), place(QUARTET, "within", ["$1"]))
    path = tmp_path / "museum.nt"
    path.write_text(site.client("anna").get("/export.nt").text, encoding="utf-8")
    return path


def test_an_export_has_what_the_journal_has(site: Site, export: Path, program: str, tmp_path: Path) -> None:
    triples = list(read_ntriples(export))
    wanted = of_places(triples)
    assert len(wanted) > 20
    site.desk.stop()
    made = tmp_path / "made.nt"
    words = ("--journal", site.desk.journal.path, "--format", "ntriples", "--program", program)
    made.write_text(run("to-rdf", "--db", site.desk.db, *words))
    assert of_places(list(read_ntriples(made))) == wanted
    made.write_text(run("to-rdf", "--db", site.desk.db, *words, "--below", str(BOWED)))
    assert of_places(list(read_ntriples(made))) == {it for it in wanted if "Group" not in f"{it.predicate} {it.object}"}


def test_what_is_read_of_an_export(site: Site, export: Path) -> None:
    triples = list(read_ntriples(export))
    places = number_places(places_of_triples(triples), BASE)
    mine = site.desk.arrays.now(site.desk.replica)
    assert (places.named, places.outer) == (mine.named, mine.outer) and {*places.orders} == {*mine.orders}
    replica = read_export(export)
    published = export_source(lambda: replica)
    own = [number for number, it in resources(replica).items() if it.kind != "outside"]
    again = [it for number in own for it in published.triples(number)]
    assert of_places(again) == of_places(triples)
    store = store_of_export("x", triples)
    members = {it.b for it in store.links if it.kind == "member"}
    assert members and all(store.resources[it].kind == "concept" for it in members if isinstance(it, int))


def test_a_site_shows_them(export: Path, tmp_path: Path) -> None:
    run("site", export, tmp_path / "site", "--langs", "en")
    label = LABEL.replace("<", "&lt;").replace(">", "&gt;")
    names = (label, "Double basses", "Cellos", "Violas", "Violins", "&lt;by period&gt;", "Guitars", "Bows", "Fiddles")
    for name, after in (("tree", "Bowed instruments"), (str(BOWED), "<h1>"), ("print-b", "Bowed instruments")):
        text = (tmp_path / "site" / "en" / f"{name}.html").read_text()
        start = text.index(after)
        found = [text.index(it, start) for it in names[:-2]]
        assert found == sorted(found), name
    assert f'href="{BASSES}.html"' in (tmp_path / "site/en/collections.html").read_text()


VOCABULARY = """@prefix skos: <http://www.w3.org/2004/02/skos/core#> .
@prefix iso-thes: <http://purl.org/iso25964/skos-thes#> .
@prefix dct: <http://purl.org/dc/terms/> .
@prefix owl: <http://www.w3.org/2002/07/owl#> .
@prefix : <https://old.example/> .
:s a skos:ConceptScheme ; skos:prefLabel "Old thesaurus"@en ; dct:title "Thesaurus of old"@en ;
  dct:license <https://cc.example/by/4> ; dct:publisher "Museum" .
:pianos a skos:Concept ; skos:inScheme :s ; skos:prefLabel "Pianos"@en ; iso-thes:subordinateArray :form .
:grand a skos:Concept ; skos:inScheme :s ; skos:prefLabel "Grand pianos"@en ; skos:broader :pianos .
:upright a skos:Concept ; skos:inScheme :s ; skos:prefLabel "Upright pianos"@en ; skos:broader :pianos .
:square a skos:Concept ; skos:inScheme :s ; skos:prefLabel "Square pianos"@en ; skos:broader :pianos .
:form a iso-thes:ThesaurusArray, skos:OrderedCollection ; skos:inScheme :s ; skos:prefLabel "pianos by form"@en ;
  iso-thes:superOrdinate :pianos ; skos:memberList ( :upright :grand :period ) .
:period a skos:Collection, iso-thes:ThesaurusArray ; skos:inScheme :s ; skos:prefLabel "by period"@en ;
  iso-thes:superOrdinate :pianos ; skos:member :square .
:organs a skos:Concept ; skos:inScheme :s ; skos:prefLabel "Organs"@en ; skos:narrower :place .
:place a skos:Collection ; skos:inScheme :s ; skos:prefLabel "organs by place"@en ; skos:member :church .
:church a skos:Concept ; skos:inScheme :s ; skos:prefLabel "Church organs"@en ; skos:broader :organs .
:all a iso-thes:ConceptGroup, skos:Collection ; skos:inScheme :s ; skos:prefLabel "Keyboards"@en ;
  iso-thes:subGroup :part ; skos:member :part .
:part a iso-thes:ConceptGroup, skos:Collection ; skos:inScheme :s ; skos:prefLabel "Strings"@en ;
  iso-thes:superGroup :all ; skos:member :pianos .
"""


def test_a_vocabulary_brings_them_in(desk: Desk) -> None:
    run_ = read_skos(desk, "old.ttl", VOCABULARY.encode(), SkosOptions("en"))
    assert (run_.report, run_.refused) == ([], [])
    assert perform_script(desk, "anna", run_).is_done

    def named(text: str) -> int:
        return max(it.number for it in desk.replica.named(text, ("concept", "collection")))

    places, form, period = desk.arrays.now(desk.replica), named("pianos by form"), named("by period")
    assert places.superordinate(form) == places.superordinate(period) == named("Pianos")
    assert places.outer[period] == form and places.superordinate(named("organs by place")) == named("Organs")
    order = [named("Upright pianos"), named("Grand pianos"), period]
    assert parts_of(desk.replica, places, form, ["en"]) == order
    assert places.outer[named("Strings")] == named("Keyboards")
    scheme = desk.replica.named("Old thesaurus", ("scheme",))[0].number
    held = {it.field: it.text for it in desk.values.select("owner = ?", scheme)}
    assert held == {"title": "Thesaurus of old", "license": "https://cc.example/by/4", "publisher": "Museum"}


def test_skosmos_lists_nest_and_keep_the_order(site: Site, export: Path) -> None:
    replica = read_export(export)
    app = Flask("publish")
    app.register_blueprint(interfaces_of(export_source(lambda: replica)))
    mine = site.desk.arrays.now(site.desk.replica)
    ((inner, outer),) = [(low, high) for low, high in mine.outer.items() if low != QUARTET]
    around = mine.outer[QUARTET]
    for client in (app.test_client(), site.client("rita")):
        groups = {it["uri"]: it for it in (client.get("/rest/v1/1/groups?lang=en").json or {})["groups"]}
        assert groups[f"{BASE}{outer}"]["childGroups"] == [f"{BASE}{inner}"]
        assert groups[f"{BASE}{around}"]["childGroups"] == [f"{BASE}{QUARTET}"] and len(groups) == 4
        assert groups[f"{BASE}{around}"]["hasMembers"] and "childGroups" not in groups[f"{BASE}{inner}"]
        members = (client.get(f"/rest/v1/1/groupMembers?uri={BASE}{outer}").json or {})["members"]
        assert [it["uri"] for it in members][:2] == [f"{BASE}{BASSES}", f"{BASE}{CELLOS}"]
        assert [it["uri"] for it in members if it.get("isSuper")] == [f"{BASE}{inner}"]


def test_an_export_comes_in_again(site: Site, export: Path) -> None:
    wanted = site.desk.arrays.now(site.desk.replica)
    run_ = read_skos(site.desk, "museum.nt", export.read_bytes(), SkosOptions("en"))
    assert not [it for it in run_.report if "rder" in str(it) or "rray" in str(it)], run_.report
    assert perform_script(site.desk, "anna", run_).is_done
    places = site.desk.arrays.now(site.desk.replica)
    assert len(places.named) == 2 * len(wanted.named) and len(places.outer) == 2 * len(wanted.outer)
    assert sorted(map(len, places.orders.values())) == [4, 5], "an export has all members in their order"


def test_what_a_place_cannot_be_is_reported(desk: Desk) -> None:
    wrong = VOCABULARY.replace(
        "iso-thes:superOrdinate :pianos ; skos:memberList", "iso-thes:superOrdinate :gone ; skos:memberList"
    )
    wrong = wrong.replace("iso-thes:subordinateArray :form", 'skos:altLabel "Klaviere"@de')
    run_ = read_skos(desk, "old.ttl", wrong.encode(), SkosOptions("en"))
    assert "superOrdinate" in str(run_.report)
    assert perform_script(desk, "anna", run_).is_done
    ring = VOCABULARY.replace(":part a", ":part skos:member :all . :part a")
    run_ = read_skos(desk, "ring.ttl", ring.encode(), SkosOptions("en"))
    assert "within" in str(run_.report) and perform_script(desk, "anna", run_).is_done


def test_a_print_shows_them(site: Site, export: Path) -> None:
    assert export.exists()
    site.desk.stop()
    words = ("--db", site.desk.db, "--scheme", "1", "--lang", "en", "--journal", site.desk.journal.path)
    text = run("to-print", *words)
    label = LABEL.replace("<", "&lt;").replace(">", "&gt;")
    assert f"<dd><b></b> {label}</dd>\n<dd><b>NTG</b> Double basses</dd>" in text
    tree = text[text.index('id="tree"') :]
    names = (f">{label}<", "Double basses", "Cellos", "Violas", "Violins", "&lt;by period&gt;", "Guitars", "Fiddles")
    found = [tree.index(it) for it in names]
    assert found == sorted(found)
