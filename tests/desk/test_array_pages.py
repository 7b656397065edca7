"""Arrays on pages: made below a concept, put into an order and elsewhere, shown in the tree and in displays, in RDF."""
from __future__ import annotations

import re

from asking import done, link
from clients import Site
from rdflib import RDF, SKOS, Graph, Namespace, URIRef
from rdflib.collection import Collection
from reader import Page, Reader
from test_arrays import BASSES, BOWED, CELLOS, FIDDLES, PLUCKED, QUARTET, VIOLAS, VIOLINS, array, collection, parts
from test_arrays import place, places
from thesaurus_desk.store.plan_execution import Desk

ISO_THES = Namespace("http://purl.org/iso25964/skos-thes#")
BASE = "https://thesaurus.example/id/"
LABEL = "<bowed instruments by size>"


def order_of(page: Page, *texts: str) -> list[str]:
    """Some texts in the order in which a page has them."""
    return sorted(texts, key=page.text.index)


def test_a_new_array_below_a_concept(reader: Reader, desk: Desk) -> None:
    assert f"/new/array?concept={BOWED}" in reader.get(f"/c/{BOWED}").links()
    form = reader.get(f"/new/array?concept={BOWED}").form("new")
    page = reader.send(form, text="bowed instruments by size", tag="en", member=[str(VIOLINS), str(CELLOS)])
    (made,) = places(desk).directly_below(BOWED)
    assert page.path == f"/c/{made}" and parts(desk, made) == [CELLOS, VIOLINS]
    assert len({it.id for it in desk.history.recent(number=made)}) == 1
    assert f"/c/{made}" in reader.get(f"/c/{BOWED}").links() and LABEL in reader.get(f"/c/{VIOLINS}").text
    form = reader.get(f"/new/array?concept={BOWED}").form("new")
    again = reader.send(form, text="bowed instruments by size", tag="en", within=str(made))
    assert again.status == 409 and "already" in again.text
    reader.send(again.form("new"), sure="1")
    assert len(places(desk).inner[made]) == 1 and places(desk).directly_below(BOWED) == [made]
    assert reader.get("/new/array?concept=1").status == 404


def test_the_order_is_changed_by_buttons_and_numbers(reader: Reader, desk: Desk) -> None:
    made = array(desk)
    page = reader.get(f"/c/{made}/order")
    page = reader.send(page.form("order"), ("up", str(VIOLINS)))
    assert parts(desk, made) == [BASSES, CELLOS, VIOLINS, VIOLAS]
    page = reader.send(page.form("order"), ("down", str(BASSES)))
    assert parts(desk, made) == [CELLOS, BASSES, VIOLINS, VIOLAS]
    page = reader.send(page.form("order"), ("save", "1"), **{f"place-{VIOLAS}": "1", f"place-{CELLOS}": "x"})
    assert parts(desk, made) == [VIOLAS, CELLOS, BASSES, VIOLINS]
    old = page.form("order")
    page = reader.send(page.form("order"), ("alphabetical", "1"))
    assert parts(desk, made) == [CELLOS, BASSES, VIOLAS, VIOLINS] and desk.values.held(made, "order") == []
    page = reader.send(old, ("up", str(CELLOS)))
    assert page.status == 409 and "order of the members" in page.text, "who saw another order is asked"
    members = [it.strip() for it in re.findall(r'<li><a href="/c/(\d+)" dir', reader.get(f"/c/{made}").html)]
    assert [int(it) for it in members if int(it) in (CELLOS, VIOLAS)][-2:] == [CELLOS, VIOLAS]


def test_a_place_is_chosen_changed_and_removed(reader: Reader, desk: Desk) -> None:
    page = reader.send(reader.get(f"/c/{QUARTET}").form("superordinate"), other="Bowed instruments")
    assert page.status == 200 and places(desk).superordinate(QUARTET) == BOWED
    page = reader.send(page.form("superordinate"), other="Plucked instruments", other_number=str(PLUCKED))
    assert places(desk).superordinate(QUARTET) == PLUCKED
    assert "superordinate concept changed from Bowed instruments to Plucked instruments" in page.text
    page = reader.send(page.form("superordinate"), other="", other_number="")
    assert places(desk).superordinate(QUARTET) is None
    page = reader.send(page.form("superordinate"), other="Nonsense")
    assert page.status == 409 and "other" in page.form("superordinate").invalid
    outer = done(desk, collection("Ensembles")).made
    assert outer is not None
    reader.send(reader.get(f"/c/{QUARTET}").form("within"), other="Ensembles")
    page = reader.send(reader.get(f"/c/{outer}").form("within"), other="Instruments of the string quartet")
    assert page.status == 409 and "would be within itself" in page.form("within").text
    assert f"/c/{QUARTET}" in reader.get(f"/c/{outer}").links()


def test_members_that_are_not_narrower_are_offered(reader: Reader, desk: Desk) -> None:
    made = array(desk)
    done(desk, link("link", "member", made, 10), link("link", "member", made, 11))
    page = reader.get(f"/c/{made}")
    assert "2 members aren’t narrower than Bowed instruments" in page.text
    page = reader.send(page.form("narrower"), member=["11"], kind="broaderGeneric")
    assert BOWED in desk.replica.resource(11).broader and BOWED not in desk.replica.resource(10).broader
    assert "1 member isn’t narrower" in page.text
    page = reader.send(page.form("narrower"), member=[])
    assert page.status == 409 and "Nothing is ticked" in page.text


def test_the_tree_and_displays_show_it(reader: Reader, desk: Desk) -> None:
    made = array(desk)
    inner = done(desk, collection("by period"), place("$1", "within", [made]), link("link", "member", "$1", 10)).made
    for path in (f"/tree?at={BOWED}", f"/tree/{BOWED}", "/print/1", f"/print/{BOWED}", f"/c/{BOWED}"):
        page = reader.get(path)
        start = page.text.index(LABEL)
        names = ("Double basses", "Cellos", "Violas", "Violins", "<by period>", "Guitars")
        found = [page.text.index(it, start) for it in names]
        assert found == sorted(found), path
        assert page.text.index("Fiddles", start) > found[0], path
    assert f"/c/{inner}" in reader.get(f"/tree?at={BOWED}").links()
    text = reader.get(f"/print/{BOWED}?form=alphabetical").text
    assert "Bows NT Fiddles" in text and f"{LABEL} NT Double basses NT Cellos NT Violas NT Violins" in text
    lines = reader.client.get("/tree?scheme=1&format=csv").get_data(as_text=True).splitlines()
    assert not any("by size" in it for it in lines) and len(lines) == len({*lines})


def test_a_ring_through_the_tree_ends(reader: Reader, desk: Desk) -> None:
    made = array(desk)
    done(desk, link("link", "member", made, 2), link("link", "member", made, BOWED))
    for path in ("/tree?at=4", "/print/1", "/print/4?form=alphabetical", "/tree?scheme=1&format=csv"):
        assert reader.get(path).status == 200


def test_a_deprecated_superordinate_concept_is_said(reader: Reader, desk: Desk) -> None:
    made = array(desk)
    done(desk, {"do": "deprecate", "concept": BOWED})
    page = reader.get(f"/c/{made}")
    assert "is deprecated, so the array is in no tree" in page.text
    reader.send(page.form("superordinate"), other="Plucked instruments")
    assert places(desk).superordinate(made) == PLUCKED


def test_rdf(site: Site) -> None:
    desk = site.desk
    made = array(desk)
    done(desk, link("link", "member", made, FIDDLES))
    inner = done(desk, collection("by period"), place("$1", "within", [made])).made
    done(desk, collection("Groups"), place(QUARTET, "within", ["$1"]))
    client = site.client("anna")
    text = client.get("/export.nt").text
    graph = Graph().parse(data=text, format="nt")
    its, concept, second = URIRef(f"{BASE}{made}"), URIRef(f"{BASE}{BOWED}"), URIRef(f"{BASE}{inner}")
    assert {*graph[its : RDF.type]} == {SKOS.Collection, SKOS.OrderedCollection, ISO_THES.ThesaurusArray}
    assert (
        {*graph[concept : ISO_THES.subordinateArray]} == {its, second} == {*graph[: ISO_THES.superOrdinate : concept]}
    )
    (first,) = graph[its : SKOS.memberList]
    order = [BASSES, CELLOS, VIOLAS, VIOLINS, inner, FIDDLES]
    assert [*Collection(graph, first)] == [URIRef(f"{BASE}{it}") for it in order]
    assert {*graph[its : SKOS.member]} == {URIRef(f"{BASE}{it}") for it in order}
    (group,) = graph.subjects(ISO_THES.subGroup)
    assert [*graph[group : ISO_THES.subGroup]] == [URIRef(f"{BASE}{QUARTET}")]
    assert {*Graph().parse(data=client.get("/export.ttl").text, format="turtle")} == {*graph}
    one = Graph().parse(data=client.get(f"/id/{made}?format=rdf").text, format="xml")
    assert {*one} <= {*graph} and len(one) > 2 * len(order)
