"""Releases: frozen exports with a name, what has changed between them, and the description that each export carries."""
from __future__ import annotations

import csv
import io
import json
import subprocess
import threading
from collections.abc import Callable
from dataclasses import replace
from pathlib import Path

import pytest
from asking import assert_as_store, done, label, link, new, number, undo
from clients import Site
from flask import Flask
from rdflib import DCTERMS, OWL, SKOS, Graph, Literal, URIRef
from processes import ROOT
from reader import Reader
from test_arrays import BASSES, BOWED, CELLOS, FIDDLES, PLUCKED, VIOLAS, VIOLINS, array, is_as_replayed, place
from thesaurus_desk.interfaces import interfaces_of
from thesaurus_desk.journal.values import set_request
from thesaurus_desk.store.export_replica import export_source, read_export
from thesaurus_desk.store.plan_execution import Desk
from thesaurus_desk.store.release_export import make_release
from thesaurus_tools.fields import Field
from thesaurus_tools.rdf_writer import ISO_THES
from thesaurus_tools.release_changes import Change

SCHEME = URIRef("https://thesaurus.example/id/1")
GLOSS = "A small bowed instrument."


def make(desk: Desk, name: str, note: str = "") -> None:
    assert make_release(desk, "anna", name, "2026-11-30", note).is_done


def changes(desk: Desk, name: str) -> list[Change]:
    """What has changed in a release since the one before."""
    found = desk.releases.find(name)
    assert found is not None
    return desk.releases.changes(found) or []


def kinds(found: list[Change]) -> set[tuple[str, int, str]]:
    """The kinds of changes, with the numbers of resources and the names of properties."""
    return {(it.kind, int(it.subject.rpartition("/")[2]), it.property.rpartition("#")[2]) for it in found}


def change_much(desk: Desk) -> int:
    """Changes something of each kind, and returns the number of a new concept."""
    made = done(desk, new("Rebecs"), link("link", "broaderGeneric", "$1", BOWED)).made
    done(desk, {"do": "relabel", "owner": VIOLINS, "tag": "en", "text": "Fine violins", "keep": False})
    done(desk, label("addLabel", VIOLAS, "alt", "Alto violins"), set_request(VIOLAS, "definition", "en", new=GLOSS))
    done(desk, link("link", "broaderGeneric", CELLOS, PLUCKED), link("unlink", "broaderGeneric", CELLOS, BOWED))
    done(desk, {"do": "merge", "source": FIDDLES, "target": VIOLINS})
    done(desk, {"do": "deprecate", "concept": BASSES})
    assert made is not None
    return made


def test_what_has_changed_between_two(desk: Desk) -> None:
    make(desk, "1")
    ordered = array(desk)
    make(desk, "2")
    assert kinds(changes(desk, "2")) == {("new", ordered, "")}
    made = change_much(desk)
    done(desk, place(ordered, "order", [VIOLAS, VIOLINS], [BASSES, CELLOS, VIOLAS, VIOLINS]))
    make(desk, "3")
    wanted = {
        ("new", made, ""),
        ("renamed", VIOLINS, "prefLabel"),
        ("changed", VIOLINS, "altLabel"),
        ("changed", VIOLINS, "related"),
        ("changed", VIOLAS, "altLabel"),
        ("changed", VIOLAS, "definition"),
        ("moved", CELLOS, "broader"),
        ("merged", FIDDLES, ""),
        ("ended", BASSES, ""),
        ("changed", ordered, "member"),
        ("changed", ordered, "memberList"),
    }
    assert kinds(changes(desk, "3")) == wanted
    (moved,) = [it for it in changes(desk, "3") if it.kind == "moved"]
    assert [str(it[0]).rpartition("/")[2] for it in (moved.before, moved.after)] == [str(BOWED), str(PLUCKED)]
    (merged,) = [it for it in changes(desk, "3") if it.kind == "merged"]
    assert str(merged.after[0]).endswith(f"/{VIOLINS}")
    assert is_as_replayed(desk)
    assert_as_store(desk)


def test_a_release_stays_as_it_is(site: Site) -> None:
    desk, anna = site.desk, site.client("anna")
    done(
        desk,
        set_request(VIOLINS, "definition", "en", new=GLOSS),
        set_request(1, "license", "", new="https://cc.example/by/4"),
    )
    done(desk, set_request(1, "creator", "", new="Museum of Music"), set_request(1, "title", "fr", new="Instruments"))
    make(desk, "2026.1", "First.")
    graph = Graph().parse(data=anna.get("/releases/2026.1.nt").text, format="nt")
    assert {*graph[SCHEME : OWL.versionInfo]} == {Literal("2026.1")}
    assert str(graph.value(SCHEME, DCTERMS.issued)) == "2026-11-30"
    assert graph.value(SCHEME, DCTERMS.license) == URIRef("https://cc.example/by/4")
    assert graph.value(SCHEME, DCTERMS.creator) == Literal("Museum of Music")
    assert graph.value(SCHEME, DCTERMS.title) == Literal("Instruments", "fr")
    live = Graph().parse(data=anna.get("/export.nt").text, format="nt")
    assert {*live} - {*graph} == {(SCHEME, DCTERMS.modified, it) for it in live[SCHEME : DCTERMS.modified]} - {*graph}
    assert anna.get("/releases/last.nt").text == anna.get("/releases/2026.1.nt").text
    change_much(desk)
    again = Graph().parse(data=anna.get("/releases/2026.1.nt").text, format="nt")
    assert {*again} == {*graph}
    for ending, form in (("ttl", "turtle"), ("rdf", "xml"), ("jsonld", "json-ld")):
        answer = anna.get(f"/releases/2026.1.{ending}")
        assert {*Graph().parse(data=answer.text, format=form)} == {*graph}
        assert f"2026.1.{ending}" in answer.headers["Content-Disposition"]
    live = Graph().parse(data=anna.get("/export.ttl").text, format="turtle")
    assert {*live[SCHEME : OWL.versionInfo]} == {Literal("2026.1+")} and not {*live[SCHEME : DCTERMS.issued]}
    assert (URIRef(f"https://thesaurus.example/id/{VIOLINS}"), SKOS.definition, Literal(GLOSS, "en")) in graph


def test_a_release_is_published_whole(site: Site, tmp_path: Path) -> None:
    """What tools/publish answers from its file has all that the file says, the office's own fields among it."""
    desk, anna = site.desk, site.client("anna")
    for name, kind, tag in (("repertoire", "line", ""), ("tuning", "text", "language"), ("since", "date", "")):
        site.desk.values.write_field(
            Field(name, kind, tag=tag, property=f"https://museum.example/terms#{name}", is_own=True)
        )
    done(
        desk, *(set_request(VIOLINS, *it[:2], new=it[2]) for it in PUBLISHED), set_request(1, "title", "en", new="All")
    )
    array(desk)
    make(desk, "2026.1")
    text = anna.get("/releases/2026.1.nt").text
    path = tmp_path / "2026.1.nt"
    path.write_text(text, encoding="utf-8")
    published = read_export(path)
    app = Flask("publish")
    app.register_blueprint(interfaces_of(export_source(lambda: published)))
    client = app.test_client()
    assert {*Graph().parse(data=client.get("/export.nt").text)} == {*Graph().parse(data=text)}
    answer = client.get(f"/id/{VIOLINS}?format=nt")
    assert GLOSS in answer.text and answer.last_modified is not None
    found = (client.get("/rest/v1/search?query=violins&lang=en").json or {})["results"]
    assert [it["notation"] for it in found] == ["321.322-71"]
    names = ("definition", "repertoire", "tuning", "since")
    asked = json.dumps({"ids": [str(VIOLINS)], "properties": [{"id": it} for it in names]})
    row = (client.get("/reconcile", query_string={"extend": asked}).json or {})["rows"][str(VIOLINS)]
    assert [[it["str"] for it in row[name]] for name in names] == [[GLOSS], ["folk"], ["In fifths"], ["1550"]]
    changed = (client.get("/rest/v1/1/modified").json or {})["changeList"]
    assert str(VIOLINS) in {it["uri"].rpartition("/")[2] for it in changed}


PUBLISHED = (
    *(("definition", "en", GLOSS), ("notation", "", "321.322-71"), ("notation", "ddc", "787.2")),
    *(("repertoire", "", "folk"), ("tuning", "en", "In fifths"), ("since", "", "1550")),
    *(("source", "", "https://grove.example/violin"), ("status", "", "revise")),
)


def test_a_status_that_the_head_shows_is_in_all_rdf(site: Site, program: str, tmp_path: Path) -> None:
    desk, anna, copy = site.desk, site.client("anna"), tmp_path / "copy.db"
    done(desk, set_request(VIOLINS, "status", "", new="revise"))
    stated = (URIRef(f"https://thesaurus.example/id/{VIOLINS}"), URIRef(f"{ISO_THES}status"), Literal("revise"))

    def texts(release: str) -> list[str]:
        make(desk, release)
        desk.copies.copy_to(copy)
        words = ["--db", copy, "--journal", desk.journal.path, "--program", program]
        ran = subprocess.run([ROOT / "tools" / "to-rdf", *words], capture_output=True, text=True, check=True)
        return [ran.stdout, *(anna.get(f"/{it}.ttl").text for it in ("export", f"releases/{release}"))]

    assert not any(stated in Graph().parse(data=it) for it in texts("1"))
    desk.values.write_field(replace(desk.values.fields()["status"], is_public=True))
    assert all(stated in Graph().parse(data=it) for it in texts("2"))


def test_the_page(reader: Reader, desk: Desk) -> None:
    page = reader.get("/releases")
    assert "There is no release yet." in page.text
    wrong = reader.send(page.form("release"), name="no spaces", day="yesterday", note="x")
    assert wrong.status == 409 and wrong.form("release").invalid == {"name", "day"}
    assert wrong.form("release").value("note") == "x"
    page = reader.send(wrong.form("release"), name="2026.1", day="2026-11-30", note="Agreed.\r\nBy all.")
    assert (
        page.path == "/releases/2026.1"
        and "Agreed.\nBy all." in page.html
        and "This is the first release." in page.text
    )
    page = reader.get("/releases")
    assert "Nothing has changed since 2026.1." in page.text
    same = reader.send(page.form("release"), name="2026.2")
    assert same.status == 409 and "sure" in same.form("release").names
    change_much(desk)
    page = reader.get("/releases/present")
    text = "1 new · 1 merged · 1 deprecated · 1 renamed · 1 moved"
    assert text in page.text and "renamedFine violinspreferred termViolinsFine violins" in page.text
    assert "movedCellosbroader termBowed instrumentsPlucked instruments" in page.text
    rows = list(csv.reader(io.StringIO(reader.client.get("/releases/present?format=csv").get_data(as_text=True)[1:])))
    assert ["renamed", str(VIOLINS)] == rows[[it[0] for it in rows].index("renamed")][:2]
    taken = reader.send(reader.get("/releases").form("release"), name="2026.1")
    assert taken.status == 409 and "already" in taken.text
    page = reader.send(taken.form("release"), name="2026.2")
    assert page.path == "/releases/2026.2" and text in page.text
    assert reader.get("/releases/2026.9").status == 404 and "release 2026.2 added" in reader.get("/c/1").text


def test_it_is_undone_and_redone(reader: Reader, desk: Desk) -> None:
    make(desk, "1")
    plan = desk.journal.plan(desk.journal.last_plan())
    assert plan is not None and plan.action == "release"
    back = desk.take_back(plan)
    assert back.lowest_role.word == "head" and undo(desk, "anna", back).is_done
    assert desk.releases.all() == [] and reader.get("/releases/1").status == 404
    redone = desk.journal.plan(desk.journal.last_plan())
    assert redone is not None and undo(desk, "anna", desk.take_back(redone)).is_done
    assert [it.name for it in desk.releases.all()] == ["1"]


def test_only_a_head_releases(site: Site, desk: Desk) -> None:
    ben = site.client("ben")
    assert ben.post("/releases", {"form": "release", "name": "1", "day": "2026-11-30"}).status_code == 403
    sent = {"form": "x", "field": "release", "new": "1", "old": "", "tag": ""}
    assert ben.post("/c/1/values", sent).status_code == 400
    assert desk.releases.all() == [] and list(desk.values.each()) == []


def test_others_go_on_meanwhile(desk: Desk, monkeypatch: pytest.MonkeyPatch) -> None:
    """A plan that is performed while the export is made isn't in it, and counts as a change since."""
    from thesaurus_desk.store import release_export

    real, was_done = release_export.release_lines, threading.Event()

    def perform() -> None:
        done(desk, label("addLabel", VIOLINS, "alt", "Late"), set_request(VIOLINS, "definition", "en", new="Late"))
        was_done.set()

    def lines(source: object) -> list[str]:
        found = list(real(source))  # type: ignore[arg-type]
        threading.Thread(target=perform).start()
        assert was_done.wait(60)
        assert found == list(real(source))  # type: ignore[arg-type]
        return found

    monkeypatch.setattr(release_export, "release_lines", lines)
    make(desk, "1")
    found = desk.releases.find("1")
    assert found is not None and b"Late" not in desk.releases.text(found)
    assert not desk.releases.is_as_released(found) and VIOLINS in desk.releases.changed_since(found)


def test_it_is_there_after_a_restart_and_a_lost_plan_leaves_none(desk: Desk, open_desk: Callable[[Path], Desk]) -> None:
    make(desk, "1")
    (mine,) = desk.releases.all()
    # (a desk that is killed before the plan has written the export alone)
    desk.releases.keep(mine.__class__("2", mine.day, "", mine.at, "anna", mine.plan, "", 0), [b"x"], None)
    desk.stop()
    again = open_desk(desk.db)
    assert [it.name for it in again.releases.all()] == ["1"] and again.releases.text(mine) == desk_text(
        again, mine.name
    )
    make(again, "2")
    assert number(again, "Violins") == VIOLINS and [it.name for it in again.releases.all()] == ["2", "1"]


def desk_text(desk: Desk, name: str) -> bytes:
    found = desk.releases.find(name)
    assert found is not None
    return desk.releases.text(found)


def test_a_candidate_is_in_none(desk: Desk) -> None:
    done(desk, set_request(VIOLINS, "status", "", new="candidate"))
    make(desk, "1")
    found = desk.releases.find("1")
    assert found is not None and b"/id/5>" not in desk.releases.text(found)
    done(desk, set_request(VIOLINS, "status", "", old="candidate"))
    make(desk, "2")
    assert ("new", VIOLINS, "") in kinds(changes(desk, "2"))
