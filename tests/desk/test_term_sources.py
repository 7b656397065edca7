"""The sources of terms: they go with their terms by every change, are shown and changed beside them, and come in and go
out with tables and in RDF."""
from __future__ import annotations

import json
import random
import subprocess
from collections.abc import Callable
from dataclasses import replace
from pathlib import Path
from typing import Any

import pytest
from asking import assert_as_store, done, label, number
from clients import Client, Site, text_of
from rdflib import DCTERMS, RDF, SKOS, Graph, Literal, URIRef
from reader import Reader
from test_bring_in import perform, send
from test_downloads import patient, saved  # noqa: F401 (a fixture is used by its name)
from test_values import table, take_back
from thesaurus_desk.importing.vocabularies import SkosOptions, perform_script, read_skos
from thesaurus_desk.journal.consistency import check, replayed_values
from thesaurus_desk.journal.values import Request, member_of, set_request
from thesaurus_desk.store.plan_execution import Desk
from thesaurus_tools.fields import TERM_SOURCE
from thesaurus_tools.skos_xl import XL
from thesaurus_tools.values import FieldValue, as_in_cell, member_of_cell

VIOLINS, FIDDLES = 5, 31
BASE = "https://thesaurus.example/id/"


def set_source(owner: int, term: str, source: str, tag: str = "en") -> Request:
    """The request that gives a term a source."""
    return set_request(owner, TERM_SOURCE, tag, new=member_of(term, source))


def sources(desk: Desk, owner: int | None) -> dict[str, str]:
    """The sources of the terms of a resource."""
    return {it.text: it.source for it in desk.values.held(owner or 0, TERM_SOURCE)}


def rename(text: str, keep: bool = False, owner: int = VIOLINS) -> Request:
    return {"do": "relabel", "owner": owner, "tag": "en", "text": text, "keep": keep}


def assert_sound(desk: Desk) -> None:
    """The values are what the journal's steps come to."""
    found = [(it.owner, it.field, it.tag, it.text, it.source) for it in desk.values.each()]
    assert found == replayed_values(desk.journal)


def test_a_source_goes_with_its_term(desk: Desk) -> None:
    done(desk, set_source(VIOLINS, "Violins", "MIMO 2011"))
    plan = done(desk, rename("Violin")).plan
    assert sources(desk, VIOLINS) == {"Violin": "MIMO 2011"}
    done(desk, rename("Fine violins", keep=True))
    assert sources(desk, VIOLINS) == {"Violin": "MIMO 2011"}, "the term is kept, and so is its source"
    done(desk, label("addLabel", VIOLINS, "alt", "Fiolinos"), label("dropLabel", VIOLINS, "alt", "Violin"))
    assert sources(desk, VIOLINS) == {"Fiolinos": "MIMO 2011"}, "a term in the place of another one"
    gone = done(desk, label("dropLabel", VIOLINS, "alt", "Fiolinos")).plan
    assert sources(desk, VIOLINS) == {}
    assert take_back(desk, gone) == [] and sources(desk, VIOLINS) == {"Fiolinos": "MIMO 2011"}
    assert take_back(desk, plan) == ["value changed"], "it is at another term by now"
    assert_sound(desk)
    assert_as_store(desk)
    desk.stop()
    assert check(desk.db) == []


def test_a_source_of_a_term_that_isnt_there_is_refused(desk: Desk) -> None:
    def refusal(*requests: Request) -> str:
        outcome = desk.perform("anna", "test", list(requests))
        assert outcome.state == "refused" and outcome.answer is not None
        return str(outcome.answer["no"])

    assert refusal(set_source(VIOLINS, "Rebabs", "MIMO")) == "UnknownTerm"
    assert refusal(set_source(VIOLINS, "Violins", "MIMO", "de")) == "UnknownTerm"
    assert refusal(set_request(VIOLINS, TERM_SOURCE, "en", new="Violins")) == "BadValue", "it has no source"
    assert refusal(rename("Violin"), set_source(VIOLINS, "Violins", "MIMO")) == "UnknownTerm"
    done(desk, set_source(VIOLINS, "Violin", "MIMO"), rename("Violin"))
    assert sources(desk, VIOLINS) == {"Violin": "MIMO"}, "what the plan leaves counts"


def test_a_merge_and_a_split_take_sources_along(desk: Desk) -> None:
    done(desk, set_source(FIDDLES, "Fiddles", "New Grove"))
    merged = done(desk, {"do": "merge", "source": FIDDLES, "target": VIOLINS}).plan
    assert sources(desk, VIOLINS) == {"Fiddles": "New Grove"} == sources(desk, FIDDLES)
    assert "new number" in take_back(desk, merged)
    assert sources(desk, VIOLINS) == {} and sources(desk, number(desk, "Fiddles")) == {"Fiddles": "New Grove"}
    assert_sound(desk)
    done(desk, label("addLabel", VIOLINS, "alt", "Kit violins"), set_source(VIOLINS, "Kit violins", "Baines"))
    split = {"do": "split", "source": VIOLINS, "tag": "en", "text": "Kit violins", "postings": []}
    done(desk, label("dropLabel", VIOLINS, "alt", "Kit violins"), split)
    made = number(desk, "Kit violins")
    assert sources(desk, VIOLINS) == {}, "the term has gone before"
    done(desk, set_source(made, "Kit violins", "Baines"))
    ended = done(desk, {"do": "deprecate", "concept": made}).plan
    assert "new number" in take_back(desk, ended) and sources(desk, number(desk, "Kit violins")) == {
        "Kit violins": "Baines"
    }
    assert_sound(desk)


def test_the_page_of_a_merge_says_which_sources_go_along(desk: Desk, site: Site) -> None:
    """Those of terms that the target has without a source, too, and no others."""
    done(desk, *(label("addLabel", it, "alt", text) for it in (FIDDLES, VIOLINS) for text in ("Kits", "Rebecs")))
    done(desk, *(set_source(FIDDLES, it, f"New Grove, {it}") for it in ("Fiddles", "Kits", "Rebecs")))
    done(desk, set_source(VIOLINS, "Rebecs", "MIMO 2011"))
    text = text_of(site.client("anna").get(f"/c/{FIDDLES}/merge?other_number={VIOLINS}"))
    for term, goes in (("Fiddles", True), ("Kits", True), ("Rebecs", False)):
        assert (f"Its source goes along: New Grove, {term}" in text) is goes, term
    done(desk, {"do": "merge", "source": FIDDLES, "target": VIOLINS})
    held = {it: f"New Grove, {it}" for it in ("Fiddles", "Kits")} | {"Rebecs": "MIMO 2011"}
    assert sources(desk, VIOLINS) == held


def test_a_split_off_concept_has_the_source_of_its_term(desk: Desk) -> None:
    done(desk, label("addLabel", VIOLINS, "alt", "Kit violins"), set_source(VIOLINS, "Kit violins", "Baines"))
    done(desk, {"do": "split", "source": VIOLINS, "tag": "en", "text": "Kit violins", "postings": []})
    made, *_ = (it.number for it in desk.replica.named("Kit violins", live=True) if it.number != VIOLINS)
    assert sources(desk, made) == {"Kit violins": "Baines"} == sources(desk, VIOLINS)


@pytest.mark.parametrize("seed", range(3))
def test_no_plan_leaves_a_source_without_its_term(desk: Desk, seed: int) -> None:
    """Generated plans: each source is that of a term which the resource has, and taking all back leaves none."""
    dice, plans = random.Random(seed), []
    for place in range(25):
        owner = dice.choice([it for it in desk.replica.numbers("concept") if desk.replica.is_live(it)])
        its = desk.replica.resource(owner)
        terms = sorted(it for it in its.labels if it[0] != "scope" and it[1] == "en")
        kind, _, text = dice.choice(terms)
        held = sources(desk, owner)
        wanted: list[Request] = [
            rename(f"T{place}", dice.random() < 0.5, owner),
            label("addLabel", owner, "alt", f"A{place}"),
            {"do": "split", "source": owner, "tag": "en", "text": f"S{place}", "postings": []},
        ]
        wanted += [label("dropLabel", owner, kind, text)] if kind != "pref" else []
        others = [it for it in desk.replica.numbers("concept") if desk.replica.is_live(it) and it != owner]
        wanted += [{"do": "merge", "source": owner, "target": dice.choice(others)}]
        if text not in held:
            wanted = [set_source(owner, text, f"Source {place}")] if dice.random() < 0.6 else wanted
        outcome = desk.perform("anna", "test", [dice.choice(wanted)])
        plans += [outcome.plan] if outcome.is_done else []
        for one in desk.replica.numbers("concept"):
            if desk.replica.is_live(one):
                here = {it[2] for it in desk.replica.resource(one).labels if it[0] != "scope" and it[1] == "en"}
                assert {*sources(desk, one)} <= here
    assert len(plans) > 10 and any(it.field == TERM_SOURCE for it in desk.values.each())
    assert_sound(desk)


# --- the page ---


def term_form(reader: Reader, kind: str, tag: str = "en", place: int = 1) -> Any:
    return reader.get(f"/c/{VIOLINS}").form(f"change-{kind}-{tag}-{place}")


def test_it_is_shown_and_changed_beside_its_term(reader: Reader, desk: Desk) -> None:
    page = reader.send(term_form(reader, "pref"), source="  MIMO   2011 ")
    assert page.status == 200 and "(MIMO 2011)" in page.text
    assert sources(desk, VIOLINS) == {"Violins": "MIMO 2011"}
    assert "source of a term" in page.text, "the history says so"
    form = term_form(reader, "pref")
    assert form.value("source") == "MIMO 2011"
    page = reader.send(form, text="Violin", keep="1", source="Grove")
    assert sources(desk, VIOLINS) == {"Violins": "MIMO 2011", "Violin": "Grove"}
    page = reader.send(
        reader.get(f"/c/{VIOLINS}").form("add-term"), kind="alt", tag="de", text="Geigelein", source="DNB"
    )
    assert sources(desk, VIOLINS)["Geigelein"] == "DNB"
    visitor = reader.get("/search?q=MIMO").text
    assert "MIMO 2011" not in visitor, "a search finds terms and notes"
    page = reader.send(term_form(reader, "pref"), source="")
    assert sources(desk, VIOLINS) == {"Violins": "MIMO 2011", "Geigelein": "DNB"}
    assert "(Grove)" not in page.text.partition("Relationships")[0].partition("Terms")[2]


def test_a_new_concept_has_one(reader: Reader, desk: Desk) -> None:
    form = reader.get(f"/new?parent={VIOLINS}").form("new")
    again = reader.send(form, text="Kit violins", source="x" * 1001)
    assert again.status == 409 and again.form("new").invalid == {"source"} and "Kit violins" in again.html
    page = reader.send(again.form("new"), source="  Baines   1966 ")
    assert page.status == 200 and "(Baines 1966)" in page.text
    assert sources(desk, number(desk, "Kit violins")) == {"Kit violins": "Baines 1966"}


def test_a_source_whose_term_another_program_took_is_listed(
    desk: Desk, site: Site, open_desk: Callable[[Path], Desk], program: str
) -> None:
    done(desk, set_source(VIOLINS, "Violins", "MIMO"))
    desk.stop()
    line = json.dumps({**rename("Violin"), "keep": False}) + "\n"
    subprocess.run([program, "--db", desk.db, "script"], input=line, text=True, check=True, capture_output=True)
    reopened = open_desk(desk.db)
    assert sources(reopened, VIOLINS) == {"Violins": "MIMO"}
    anna = replace(site, desk=reopened).client("anna")
    page = text_of(anna.get("/lists/lost_sources"))
    assert "1 concept" in page and "Violin" in page
    assert "Source of a term that isn" in text_of(anna.get(f"/c/{VIOLINS}"))


# --- tables ---


def test_a_cell_has_terms_with_their_sources() -> None:
    for term, source in (("Violins", "MIMO"), ("a=b", "c = d"), ("x ==", "=y"), ("p | q", "r")):
        value = FieldValue(1, TERM_SOURCE, "en", term, source)
        assert member_of_cell(TERM_SOURCE, as_in_cell(value)) == member_of(term, source)


def test_tables_have_them_in_and_out(site: Site) -> None:
    desk, anna = site.desk, site.client("anna")
    page = table(anna, f"Number;Source of a term@en\n{VIOLINS};Violins = MIMO 2011\n")
    assert "1 row was done." in " ".join(text_of(perform(anna, page, "/bring-in/table/perform")).split())
    assert sources(desk, VIOLINS) == {"Violins": "MIMO 2011"}
    csv = anna.get(f"/c/{VIOLINS}/past").status_code
    assert csv == 200
    page = table(anna, f"Number;Term source (en)\n{VIOLINS};Violins = Grove | Fiolinos = Baines\n")
    assert "has no term" in text_of(page), "it is said in the preview"
    page = table(anna, f"Number;pref@en;termSource@en\n{VIOLINS};Violin;Violin = Grove\n")
    perform(anna, page, "/bring-in/table/perform")
    assert sources(desk, VIOLINS) == {"Violin": "Grove"}


@pytest.mark.usefixtures("patient")
def test_a_table_that_was_saved_says_it_all(site: Site) -> None:
    desk, anna = site.desk, site.client("anna")
    done(desk, label("addLabel", VIOLINS, "alt", "Fiolinos"))
    done(desk, set_source(VIOLINS, "Violins", "MIMO"), set_source(VIOLINS, "Fiolinos", "a = b"))
    text = saved(anna, "csv").data.decode("utf-8-sig")
    assert "termSource@en" in text and "Violins = MIMO | Fiolinos = a = b" in text
    page = send(anna, "/bring-in/table", text.encode(), "all.csv", kind="", tag="en")
    assert "row was done" not in text_of(page) and sources(desk, VIOLINS) == {"Violins": "MIMO", "Fiolinos": "a = b"}


# --- RDF ---


def violin_labels(graph: Graph) -> dict[str, URIRef]:
    """The labels of SKOS-XL of violins by their texts."""
    found = {}
    for kind in ("prefLabel", "altLabel"):
        for node in graph.objects(URIRef(f"{BASE}{VIOLINS}"), URIRef(XL + kind)):
            found[str(graph.value(node, URIRef(f"{XL}literalForm")))] = node
    return found


def said_sources(graph: Graph) -> set[tuple[Any, ...]]:
    """What statements say of the sources of terms."""
    about = (RDF.subject, RDF.predicate, RDF.object, DCTERMS.source)
    return {tuple(graph.value(it, name) for name in about) for it in graph.subjects(RDF.type, RDF.Statement)}


@pytest.mark.usefixtures("patient")
def test_skos_and_skos_xl_have_them(site: Site) -> None:
    desk, anna = site.desk, site.client("anna")
    done(desk, set_source(VIOLINS, "Violins", "https://mimo.example/1"))
    graph = Graph().parse(data=anna.get("/export.ttl").text, format="turtle")
    its = (URIRef(f"{BASE}{VIOLINS}"), SKOS.prefLabel, Literal("Violins", "en"), URIRef("https://mimo.example/1"))
    assert said_sources(graph) == {its}
    done(desk, rename("Fine violins", keep=True))
    day = desk.journal.one("SELECT at FROM ended ORDER BY plan DESC LIMIT 1")
    assert day is not None
    xl = Graph().parse(data=saved(anna, "skosxl").data, format="turtle")
    labels = violin_labels(xl)
    assert {*xl.objects(labels["Violins"], DCTERMS.source)} == {URIRef("https://mimo.example/1")}
    assert not {*xl.subjects(RDF.type, RDF.Statement)}, "the labels themselves have them"
    assert str(xl.value(labels["Fine violins"], DCTERMS.created))[:10] == day["at"][:10]
    assert xl.value(labels["Violins"], DCTERMS.modified) is not None, "it is another kind of term now"
    assert xl.value(labels["Violins"], DCTERMS.created) is None, "it is older than the journal"


XL_FILE = f"""@prefix skos: <http://www.w3.org/2004/02/skos/core#> .
@prefix xl: <{XL}> .
@prefix dct: <http://purl.org/dc/terms/> .
@prefix : <https://old.example/> .
:s a skos:ConceptScheme ; skos:prefLabel "Old thesaurus"@en .
:lutes a skos:Concept ; skos:inScheme :s ; xl:prefLabel :l1 ; xl:altLabel :l2 .
:l1 a xl:Label ; xl:literalForm "Rebabs"@en ; dct:source "Spencer 1976" .
:l2 a xl:Label ; xl:literalForm "Rababs"@en .
"""


def bring(client: Client, text: str) -> int:
    """Brings a vocabulary in, and returns the number of its scheme."""
    run = read_skos(client.site.desk, "old.ttl", text.encode(), SkosOptions("en"))
    assert run.report == []
    assert perform_script(client.site.desk, "anna", run).is_done
    return run.scheme or 0


@pytest.mark.usefixtures("patient")
def test_labels_of_skos_xl_bring_theirs_and_take_them_out_again(site: Site) -> None:
    anna = site.client("anna")
    scheme = bring(anna, XL_FILE)
    assert sources(site.desk, number(site.desk, "Rebabs")) == {"Rebabs": "Spencer 1976"}
    exported = anna.get(f"/export.ttl?scheme={scheme}").text
    again = read_skos(site.desk, "again.ttl", exported.encode(), SkosOptions("en"))
    wanted = member_of("Rebabs", "Spencer 1976")
    assert again.report == [] and wanted in [it["new"] for it in again.requests if it["do"] == "set"]


def test_they_come_back_from_an_export(site: Site) -> None:
    desk, anna = site.desk, site.client("anna")
    done(desk, set_source(VIOLINS, "Violins", "MIMO"))
    export = anna.get("/export.ttl").text.encode()
    done(desk, set_request(VIOLINS, TERM_SOURCE, "en", old=member_of("Violins", "MIMO")))
    page = send(anna, "/bring-in/skos", export, "museum.ttl", values="1")
    perform(anna, page, "/bring-in/table/perform")
    assert sources(desk, VIOLINS) == {"Violins": "MIMO"}
