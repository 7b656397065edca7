"""Each form that changes links: what it does, and each refusal beside its field."""
from __future__ import annotations

import pytest
from asking import view
from reader import Page, Reader
from thesaurus_desk.store.plan_execution import Desk

# Concepts of the sample.
BOWED, VIOLINS, CELLOS, BOWS, HARPS = 4, 5, 7, 29, 11
STRINGS = 3


def link(reader: Reader, number: int, form: str, other: str, **fields: str) -> Page:
    return reader.send(reader.get(f"/c/{number}").form(form), other=other, **fields)


@pytest.mark.parametrize(
    ("form", "kind", "number", "other", "held"),
    [
        ("add-broader", "broaderPartitive", HARPS, "Bowed instruments", ("broaderPartitive", BOWED)),
        ("add-narrower", "narrowerInstantial", HARPS, "Bows", ("narrowerInstantial", BOWS)),
        ("add-broader", "broader", HARPS, "bowed INSTRUMENTS", ("broader", BOWED)),
        ("add-broader", "broaderGeneric", HARPS, f"#{BOWED}", ("broaderGeneric", BOWED)),
        ("add-broader", "broaderGeneric", HARPS, f"https://thesaurus.example/id/{BOWED}", ("broaderGeneric", BOWED)),
    ],
)
def test_hierarchical_links_are_added(
    reader: Reader, desk: Desk, form: str, kind: str, number: int, other: str, held: tuple[str, int]
) -> None:
    assert link(reader, number, form, other, kind=kind).status == 200
    it = view(desk, number)
    assert held in (*it.typed, *it.untyped)


def test_related_concepts_matches_and_collections_are_added(reader: Reader, desk: Desk) -> None:
    link(reader, HARPS, "add-related", "Cellos")
    link(reader, HARPS, "add-match", "http://www.wikidata.org/entity/Q47369", kind="close")
    link(reader, HARPS, "add-match", "http://www.wikidata.org/entity/Q8355", kind="relMatch")
    link(reader, HARPS, "add-member", "Instruments of the string quartet")
    it = view(desk, HARPS)
    assert it.related == (CELLOS,)
    matches = {kind: desk.replica.iri(other) for kind, other in it.mappings}
    assert matches["close"].endswith("Q47369") and matches["relMatch"].endswith("Q8355")
    assert it.collections == tuple(desk.replica.numbers("collection")[:1])


def test_members_of_a_collection(reader: Reader, desk: Desk) -> None:
    collection = desk.replica.numbers("collection")[0]
    link(reader, collection, "add-member", "Harps")
    assert HARPS in view(desk, collection).members
    reader.send(reader.get(f"/c/{collection}").form("remove-link", b=str(HARPS)))
    assert HARPS not in view(desk, collection).members


@pytest.mark.parametrize(
    ("number", "form", "other", "part", "linked"),
    [
        (STRINGS, "add-broader", "Violins", "because it is already below it", [VIOLINS, BOWED, STRINGS]),
        (VIOLINS, "add-related", "String instruments", "is already broader than", [VIOLINS, BOWED, STRINGS]),
        (VIOLINS, "add-related", "Violins", "can’t be linked with itself", [VIOLINS]),
        (VIOLINS, "add-broader", "Bowed instruments", "is already linked with", [VIOLINS, BOWED]),
        (VIOLINS, "add-related", "Trombones", "No concept has the term “Trombones”", []),
        (VIOLINS, "add-related", "Cello", "Did you mean one of these?", []),
        (VIOLINS, "add-related", "", "The field is empty", []),
        (VIOLINS, "add-match", "Cellos", "both belong to the thesaurus", [VIOLINS, CELLOS, 1]),
        (VIOLINS, "add-match", "https:x y", "a URI begins with https:// or http://", []),
        (VIOLINS, "add-match", "www.wikidata.org/entity/Q8355", "a URI begins with https:// or http://", []),
        (VIOLINS, "add-match", "Cello", "Did you mean one of these?", []),
    ],
)
def test_a_refused_link_is_explained_beside_its_field(
    reader: Reader, desk: Desk, number: int, form: str, other: str, part: str, linked: list[int]
) -> None:
    before = view(desk, number)
    page = link(reader, number, form, other)
    shown = page.form(form)
    assert page.status == 409 and part in shown.text
    assert shown.invalid == {"other"} and shown.value("other") == other
    for it in linked:
        assert f'href="/c/{it}"' in page.html.split(f'id="{form}-other-why"')[1].split("</span>")[0]
    assert view(desk, number) == before


def test_a_choice_among_concepts(reader: Reader, desk: Desk) -> None:
    page = link(reader, HARPS, "add-related", "Cello")
    form = page.form("add-related")
    assert str(CELLOS) in form.values("chosen") or "Cellos" in form.text
    # (a text that is corrected goes before the choice among what the first one may have meant)
    reader.send(form, other="Bows")
    assert view(desk, HARPS).related == (BOWS,)
    reader.send(link(reader, HARPS, "add-related", "Cello").form("add-related"), chosen=str(CELLOS))
    assert view(desk, HARPS).related == (CELLOS, BOWS)


def test_a_link_gets_another_type(reader: Reader, desk: Desk) -> None:
    page = reader.get(f"/c/{VIOLINS}")
    (name,) = (it for it in page.opened_by_links() if it.startswith("retype-broaderGeneric"))
    reader.send(page.form(name), kind="broaderPartitive")
    assert ("broaderPartitive", BOWED) in view(desk, VIOLINS).typed
    assert ("broaderGeneric", BOWED) not in view(desk, VIOLINS).typed


def test_an_untyped_link_beside_a_typed_one_is_shown_and_removed(reader: Reader, desk: Desk) -> None:
    link(reader, VIOLINS, "add-broader", "Bowed instruments", kind="broader")
    page = reader.get(f"/c/{VIOLINS}")
    assert desk.replica.link_types(VIOLINS, BOWED) == ("broader", "broaderGeneric") and "no type" in page.text
    reader.send(page.form("remove-link", kind="broader", a=str(VIOLINS), b=str(BOWED)))
    assert desk.replica.link_types(VIOLINS, BOWED) == ("broaderGeneric",)


@pytest.mark.parametrize("kind", ["broaderGeneric", "related", "exact", "member", "broaderInstantial"])
def test_links_are_removed(reader: Reader, desk: Desk, kind: str) -> None:
    before = reader.get(f"/c/{VIOLINS}")
    form = before.form("remove-link", kind=kind)
    page = reader.send(form)
    assert page.status == 200 and not [
        it for it in page.forms if it.name == "remove-link" and it.fields[3:] == form.fields[3:]
    ]
