"""ISO 25964-1 in XML: each class of the data model that is written, read back and compared with what the desk has."""
from __future__ import annotations

import shutil
import subprocess
from collections import Counter
from collections.abc import Iterator
from pathlib import Path
from xml.etree import ElementTree
from xml.etree.ElementTree import Element

import pytest
from asking import done, label, link, view
from clients import Site
from processes import ROOT
from test_arrays import BASSES, BOWED, CELLOS, VIOLAS, VIOLINS, array, collection, place
from test_downloads import GLOSS, INNER, defined, patient, saved  # noqa: F401 (fixtures are used by their names)
from test_term_sources import rename, set_source
from thesaurus_desk.journal.values import member_of, set_request
from thesaurus_desk.store.release_export import make_release
from thesaurus_tools.iso25964 import NAMESPACE, ROLES
from thesaurus_tools.kinds import BROADER

BASE = "https://thesaurus.example/id/"
SPACE = {"": NAMESPACE}
LANG = "{http://www.w3.org/XML/1998/namespace}lang"
# What each class of the model may have, as the standard names it.
MODEL = {
    "Thesaurus": "identifier created modified creator description publisher rights language title VersionHistory"
    " ThesaurusConcept ThesaurusArray ConceptGroup HierarchicalRelationship AssociativeRelationship",
    "VersionHistory": "identifier date thisVersion",
    "ThesaurusConcept": "identifier created modified status notation topConcept ScopeNote Definition HistoryNote"
    " EditorialNote CustomNote CustomConceptAttribute PreferredTerm SimpleNonPreferredTerm",
    "ThesaurusArray": "identifier ordered notation NodeLabel hasSuperOrdinateConcept hasSuperOrdinateArray"
    " hasMemberConcept hasMemberArray",
    "ConceptGroup": "identifier conceptGroupType notation ConceptGroupLabel hasSuperGroup hasSubGroup hasAsMember",
    "PreferredTerm": "identifier lexicalValue created modified source",
    "SimpleNonPreferredTerm": "identifier lexicalValue created modified source hidden",
    "HierarchicalRelationship": "isHierRelConcept hasHierRelConcept role",
    "AssociativeRelationship": "isRelatedConcept hasRelatedConcept role",
    **dict.fromkeys(("ScopeNote", "NodeLabel", "ConceptGroupLabel"), "lexicalValue"),
    **dict.fromkeys(("Definition", "HistoryNote", "EditorialNote"), "lexicalValue source"),
    **dict.fromkeys(("CustomNote", "CustomConceptAttribute"), "lexicalValue source"),
}


def local(it: Element) -> str:
    """The name of an element, which is of the standard's namespace."""
    assert it.tag.startswith(f"{{{NAMESPACE}}}"), it.tag
    return it.tag.removeprefix(f"{{{NAMESPACE}}}")


def texts(it: Element, path: str) -> list[str]:
    """The texts at a path."""
    return [one.text or "" for one in it.findall(path, SPACE)]


def worded(it: Element, path: str) -> set[tuple[str, str]]:
    """The languages and texts of the lexical values at a path."""
    return {(one.get(LANG, ""), one.text or "") for one in it.findall(f"{path}/lexicalValue", SPACE)}


def one_of(root: Element, name: str, number: int) -> Element:
    """The element of a class for a resource."""
    (found,) = (it for it in root.iter(f"{{{NAMESPACE}}}{name}") if texts(it, "identifier") == [f"{BASE}{number}"])
    return found


def relationships(root: Element) -> Iterator[tuple[str, ...]]:
    """The relationships: a role and both ends."""
    for it in root.iter():
        if local(it).endswith("Relationship"):
            first, second, role = list(it)
            yield str(role.text), *(str(one.text).removeprefix(BASE) for one in (first, second))


@pytest.fixture
def filled(defined: Site) -> Site:  # noqa: F811
    """A desk with something of each class of the model."""
    desk = defined.desk
    done(desk, set_source(VIOLINS, "Violins", "MIMO 2011"), label("addLabel", VIOLINS, "hidden", "Vyolins"))
    done(desk, rename("Fine violins", keep=True))
    notes = (("historyNote", "Since 1900."), ("example", "The Messiah"), ("changeNote", "Nobody sees this"))
    done(desk, *(set_request(VIOLINS, name, "en", new=member_of(text, "Grove")) for name, text in notes))
    done(desk, set_request(VIOLINS, "notation", "MIMO", new="3573"), set_request(VIOLINS, "status", "", new="revise"))
    done(desk, set_request(1, "title", "en", new="The instruments"), set_request(1, "license", "", new="CC0"))
    return defined


def test_a_concept_with_its_terms_and_notes(filled: Site) -> None:
    root = ElementTree.fromstring(saved(filled.client("rita"), "iso25964").data)
    violins, its = one_of(root, "ThesaurusConcept", VIOLINS), view(filled.desk, VIOLINS)
    assert worded(violins, "PreferredTerm") == {*its.pref} and worded(violins, "ScopeNote") == {*its.scope}
    assert worded(violins, "SimpleNonPreferredTerm") == {*its.alt, *its.hidden}
    hidden = {one.text for it in violins.findall("SimpleNonPreferredTerm", SPACE)
              for one in it.findall("lexicalValue", SPACE) if texts(it, "hidden") == ["true"]}  # fmt: skip
    assert hidden == {"Vyolins"}
    old = next(it for it in violins.findall("SimpleNonPreferredTerm", SPACE) if ("en", "Violins") in worded(it, "."))
    assert texts(old, "source") == ["MIMO 2011"] and len(texts(old, "modified")) == 1 and not texts(old, "created")
    assert len({it for it in texts(violins, "*/identifier")}) == len(its.pref + its.alt + its.hidden)
    assert worded(violins, "Definition") == {("en", GLOSS)} and texts(violins, "HistoryNote/source") == ["Grove"]
    assert [it.get("noteType") for it in violins.findall("CustomNote", SPACE)] == ["example"]
    own = [(it.get("customAttributeType"), *texts(it, "*")) for it in violins.findall("CustomConceptAttribute", SPACE)]
    assert own == [("repertoire", "Balkan dances")]
    notations = {(it.get("notationType"), it.text) for it in violins.findall("notation", SPACE)}
    assert notations == {(None, "321.322-71"), ("MIMO", "3573")} and texts(violins, "modified") != []
    assert not texts(violins, "topConcept") and INNER.encode() not in ElementTree.tostring(root)
    assert b"Nobody sees this" not in ElementTree.tostring(root)


def test_a_thesaurus_and_its_relationships(filled: Site) -> None:
    desk = filled.desk
    make_release(desk, "anna", "2026.1", "2026-11-30", "")
    root = ElementTree.fromstring(saved(filled.client("rita"), "iso25964").data)
    (its,) = root.findall("Thesaurus", SPACE)
    assert texts(its, "title") == ["The instruments"] and texts(its, "rights") == ["CC0"]
    assert texts(its, "identifier") == [f"{BASE}1"] and {"en", "de"} <= {*texts(its, "language")}
    assert texts(its, "VersionHistory/identifier") == ["2026.1"]
    mirror = desk.public_view()
    living = [it for it in mirror.numbers("concept") if mirror.is_live(it)]
    assert Counter(texts(its, "ThesaurusConcept/identifier")) == Counter(f"{BASE}{it}" for it in living)
    assert f"{BASE}{CELLOS}" not in texts(its, "ThesaurusConcept/identifier"), "it is a candidate"
    tops = [it for it in its.findall("ThesaurusConcept", SPACE) if texts(it, "topConcept") == ["true"]]
    assert {*(texts(it, "identifier")[0] for it in tops)} == {f"{BASE}{it}" for it in mirror.tops(1)}
    wanted = set()
    for it in living:
        found = mirror.resource(it)
        for other, kinds in found.broader.items():
            typed = [kind for kind in kinds if kind != BROADER[0]] or kinds
            wanted |= {(ROLES[kind], str(it), str(other)) for kind in typed}
        wanted |= {("RT", str(it), str(other)) for other in found.related if it < other}
    assert {*relationships(root)} == wanted and {it[0] for it in wanted} > {"BTG", "RT"}


def test_arrays_and_groups(filled: Site) -> None:
    desk = filled.desk
    by_size = array(desk)
    group, within = (done(desk, collection(it)).made or 0 for it in ("Orchestra", "Strings of it"))
    done(desk, link("link", "member", within, VIOLINS), place(within, "within", [group]))
    done(desk, set_request(by_size, "notation", "", new="N1"), label("addLabel", by_size, "pref", "nach Größe", "de"))
    root = ElementTree.fromstring(saved(filled.client("rita"), "iso25964").data)
    its = one_of(root, "ThesaurusArray", by_size)
    assert worded(its, "NodeLabel") == {("en", "bowed instruments by size"), ("de", "nach Größe")}
    assert texts(its, "notation") == ["N1"]
    assert texts(its, "hasSuperOrdinateConcept") == [f"{BASE}{BOWED}"]
    # (in their order, without the candidate)
    assert texts(its, "hasMemberConcept") == [f"{BASE}{it}" for it in (BASSES, VIOLAS, VIOLINS)]
    assert texts(its, "ordered") == ["true"] and not texts(its, "hasSuperOrdinateArray")
    outer, inner = one_of(root, "ConceptGroup", group), one_of(root, "ConceptGroup", within)
    assert texts(outer, "hasSubGroup") == [f"{BASE}{within}"] and texts(inner, "hasSuperGroup") == [f"{BASE}{group}"]
    assert texts(inner, "hasAsMember") == [f"{BASE}{VIOLINS}"] and worded(outer, "ConceptGroupLabel") == {
        ("en", "Orchestra")
    }


def test_it_has_nothing_that_the_model_lacks(filled: Site, tmp_path: Path) -> None:
    array(filled.desk)
    data = saved(filled.client("rita"), "iso25964").data
    path = tmp_path / "museum.xml"
    path.write_bytes(data)
    words = ["xmllint", "--noout", str(path)]
    assert not shutil.which("xmllint") or subprocess.run(words, check=False).returncode == 0
    root = ElementTree.fromstring(data)
    assert local(root) == "ISO25964Interchange" and {local(it) for it in root} == {"Thesaurus"}
    for it in root.iter():
        if it is not root and len(it):
            assert {local(one) for one in it} <= {*MODEL[local(it)].split()}, local(it)
    identifiers = texts(root, ".//identifier")
    assert len(identifiers) == len({*identifiers})


def test_a_branch_has_what_is_below_it(filled: Site) -> None:
    client = filled.client("rita")
    by_size = array(filled.desk)
    root = ElementTree.fromstring(saved(client, "iso25964", part=BOWED).data)
    found = {*texts(root, ".//ThesaurusConcept/identifier")}
    assert f"{BASE}{VIOLINS}" in found and f"{BASE}2" not in found and not root.findall(".//ConceptGroup", SPACE)
    assert texts(root, ".//ThesaurusArray/identifier") == [f"{BASE}{by_size}"]
    assert all({f"{BASE}{it[1]}", f"{BASE}{it[2]}"} <= found for it in relationships(root))


def test_the_tool_writes_the_same_of_a_store_and_its_journal(filled: Site) -> None:
    mine = saved(filled.client("rita"), "iso25964").data
    filled.desk.stop()
    words = [ROOT / "tools/to-iso25964", "--db", filled.desk.db, "--journal", filled.desk.journal.path]
    ran = subprocess.run(words, capture_output=True, check=True)
    (ours, theirs) = (ElementTree.fromstring(it) for it in (mine, ran.stdout))
    assert {*relationships(ours)} == {*relationships(theirs)}
    for it in texts(ours, ".//ThesaurusConcept/identifier"):
        number = int(it.removeprefix(BASE))
        one, other = (one_of(root, "ThesaurusConcept", number) for root in (ours, theirs))
        for name in ("PreferredTerm", "SimpleNonPreferredTerm", "ScopeNote", "Definition", "CustomConceptAttribute"):
            assert worded(one, name) == worded(other, name), (number, name)
        for path in ("created", "modified", "notation", "*/source", "*/modified", "*/created"):
            assert texts(one, path) == texts(other, path), (number, path)
