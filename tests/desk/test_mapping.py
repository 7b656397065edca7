"""The mapping bench: which candidates there are and in which order, what is decided of each, all that have the same
label, and targets that have changed in a newer dump."""
from __future__ import annotations

from collections.abc import Iterator
from pathlib import Path

import pytest
from asking import done, label, link, new, number, view
from clients import Site
from other_vocabulary import alt, broader, deprecated, iri, load, pref
from reader import Page, Reader, come_in
from thesaurus_desk.mapping.candidates import Candidate, Finder, is_near
from thesaurus_desk.mapping.vocabularies import Vocabulary
from thesaurus_desk.store.plan_execution import Desk
from thesaurus_desk.words import Words
from thesaurus_tools.vocabulary_tables import vocabularies_of

SAY = Words("en")
# Concepts of the sample.
STRINGS, BOWED, VIOLINS, HARPS, LUTES = 3, 4, 5, 11, 12
DUMP = (
    pref("strings", "Chordophones")
    + alt("strings", "String instruments")
    + pref("bowed", "Bowed instruments")
    + broader("bowed", "strings")
    + pref("violin", "violin")
    + pref("violin", "Geige", "de")
    + broader("violin", "bowed")
    + pref("octet", "violin")
    + broader("octet", "band")
    + pref("band", "Ensembles")
    + pref("harp", "HARPS")
    + broader("harp", "strings")
    + pref("lutist", "Lutess")
)


@pytest.fixture
def dump(store: Path) -> Path:
    """A store with a vocabulary beside it."""
    load(store, DUMP)
    return store


@pytest.fixture
def vocabulary(dump: Path, desk: Desk) -> Vocabulary:
    """The vocabulary."""
    (found,) = desk.vocabularies.each()
    return found


def found(desk: Desk, concept: int, *rejected: str) -> list[Candidate]:
    """The candidates for a concept."""
    with desk.replica.reading(), desk.vocabularies.reading():
        return Finder(desk.replica, desk.vocabularies, 1).find(concept, rejected)


def names(desk: Desk, concept: int, *rejected: str) -> list[str]:
    return [it.iri.removeprefix(iri("")) for it in found(desk, concept, *rejected)]


def mapped(desk: Desk, concept: int) -> list[tuple[str, str]]:
    """The mappings of a concept to the vocabulary: kind and name. (The sample has others.)"""
    its = [(kind, desk.replica.iri(there)) for kind, there in view(desk, concept).mappings]
    return [(kind, there.removeprefix(iri(""))) for kind, there in its if there.startswith(iri(""))]


# --- candidates ---


@pytest.mark.parametrize(
    ("text", "rule"),
    [
        ("Nyckelharpa", "same"),
        ("nyckelHARPA", "folded"),
        ("Nyckelharpás", "stemmed"),
        ("Nykelharpa", "mistyped"),
        ("Nyckellharpa", "mistyped"),
        ("Nycklearpha", ""),
        ("Nyckelhrapa", "mistyped"),
        ("Mickelharpa", ""),
    ],
)
def test_how_a_label_agrees(desk: Desk, store: Path, text: str, rule: str) -> None:
    load(store, pref("key", "Nyckelharpa"))
    made = done(desk, new(text)).made or 0
    assert [it.best.rule for it in found(desk, made)] == ([rule] if rule else [])


@pytest.mark.parametrize(
    ("one", "other", "is_one"),
    [("harp", "harps", True), ("harp", "hapr", True), ("harp", "carp", True), ("harp", "harp", False)]
    + [("harp", "hrpa", False), ("harp", "harpst", False), ("", "a", True), ("ab", "ba", True), ("abc", "cba", False)],
)
def test_one_typing_error(one: str, other: str, is_one: bool) -> None:
    assert is_near(one, other) == is_one == is_near(other, one)


def test_words_in_another_order_and_synonyms_and_other_languages(desk: Desk, store: Path) -> None:
    load(
        store,
        pref("electric", "electric guitar")
        + alt("bass", "Drehleier")
        + pref("hurdy", "vielle à roue", "fr")
        + pref("other", "hurdy", "fr"),
    )
    guitar = done(desk, new("Guitars, electric")).made or 0
    assert names(desk, guitar) == ["electric"]
    vielle = done(desk, new("Hurdy"), label("addLabel", "$1", "alt", "Vielle à roue", "fr")).made or 0
    assert names(desk, vielle) == ["hurdy", "other"], "a synonym in its language before a name in another one"
    hidden = done(desk, new("Leier"), label("addLabel", "$1", "hidden", "Drehleier")).made or 0
    assert names(desk, hidden) == ["bass"]


def test_what_is_around_both_decides_among_homonyms(desk: Desk, vocabulary: Vocabulary) -> None:
    assert names(desk, VIOLINS) == ["violin", "octet"]
    first, second = found(desk, VIOLINS)
    assert first.above[0] == "Bowed instruments" and second.above == [] and first.score > second.score
    assert names(desk, VIOLINS, iri("violin")) == ["octet"]


def test_what_is_deprecated_is_no_candidate(desk: Desk, store: Path) -> None:
    load(store, pref("harp", "Harps") + deprecated("harp"))
    assert names(desk, HARPS) == []


# --- one by one ---


@pytest.fixture
def ben(site: Site, vocabulary: Vocabulary) -> Reader:
    """An editor."""
    return Reader(site.app, site.client("ben").http)


def bench(ben: Reader, concept: int, query: str = "") -> Page:
    return ben.get(f"/mapping/1/c/{concept}{query}")


def act(page: Page, ben: Reader, do: str, **fields: str) -> Page:
    """Sends the form of a concept by one of its buttons."""
    return ben.send(page.form("map"), button=("do", do), **fields)


def test_both_sides_beside_each_other(ben: Reader) -> None:
    page = bench(ben, VIOLINS)
    for text in ("Bowed instruments", "Geige", SAY("mapping.rule.stemmed"), iri("violin"), iri("octet"), "Ensembles"):
        assert text in page.text, text
    assert SAY("mapping.above", term="Bowed instruments") in page.text
    assert page.form("map").value("iri") == iri("violin"), "the best one is chosen"
    assert {value for name, value in page.form("map").buttons if name == "do"} == {
        *("exact", "close", "broad", "narrow", "relMatch"),
        *("rejected", "none", "later"),
    }


@pytest.mark.parametrize("kind", ["exact", "close", "broad", "narrow", "relMatch"])
def test_a_mapping_is_one_plan_and_leads_to_the_next(ben: Reader, desk: Desk, kind: str) -> None:
    page = act(bench(ben, VIOLINS), ben, kind)
    assert mapped(desk, VIOLINS) == [(kind, "violin")]
    assert page.path == "/mapping/1/c/6"
    plan = desk.journal.plan(desk.journal.last_plan())
    assert plan is not None and [it.request["do"] for it in plan.steps] == ["outside", "link"]
    assert desk.decisions.accepted_names(iri("violin")) == [("de", "Geige"), ("en", "violin")]


def test_a_target_that_is_known_is_linked(ben: Reader, desk: Desk) -> None:
    act(bench(ben, VIOLINS), ben, "exact")
    act(bench(ben, HARPS), ben, "broad", iri=iri("violin"))
    assert mapped(desk, HARPS) == [("broad", "violin")]
    assert len([it for it in desk.replica.numbers("outside") if desk.replica.iri(it) == iri("violin")]) == 1


def test_a_mapping_that_breaks_a_rule_is_refused_beside_its_form(ben: Reader, desk: Desk) -> None:
    act(bench(ben, VIOLINS), ben, "exact")
    page = act(bench(ben, VIOLINS), ben, "broad")
    assert page.status == 409 and page.alerts
    assert mapped(desk, VIOLINS) == [("exact", "violin")]


def test_what_a_colleague_has_mapped_meanwhile_is_shown(ben: Reader, desk: Desk) -> None:
    page = bench(ben, VIOLINS)
    done(desk, {"do": "outside", "iri": iri("octet")}, link("link", "close", VIOLINS, "$1"))
    assert act(page, ben, "exact").status == 409
    assert mapped(desk, VIOLINS) == [("close", "octet")]


def test_what_is_rejected_stays_so_also_when_the_vocabulary_is_loaded_anew(ben: Reader, desk: Desk, dump: Path) -> None:
    page = act(bench(ben, VIOLINS), ben, "rejected")
    assert page.path == f"/mapping/1/c/{VIOLINS}" and iri("violin") not in page.text and iri("octet") in page.text
    vocabularies_of(dump).unlink()
    load(dump, DUMP)
    assert iri("violin") not in bench(ben, VIOLINS).text
    assert iri("violin") in act(bench(ben, VIOLINS), ben, "again").text


def test_what_was_rejected_of_a_concept_that_was_merged_is_rejected(ben: Reader, desk: Desk) -> None:
    made = done(desk, new("Violin (Stradivari)")).made or 0
    act(bench(ben, made), ben, "rejected", iri=iri("violin"))
    done(desk, {"do": "merge", "source": made, "target": VIOLINS})
    assert iri("violin") not in bench(ben, VIOLINS).text


@pytest.mark.parametrize("decision", ["none", "later"])
def test_a_concept_without_counterpart_and_one_for_later(ben: Reader, desk: Desk, decision: str) -> None:
    page = act(bench(ben, VIOLINS), ben, decision)
    assert page.path == "/mapping/1/c/6"
    listed = ben.get(f"/mapping/1?state={decision}")
    assert SAY(f"mapping.state.{decision}", n=1) in listed.text and f'href="/mapping/1/c/{VIOLINS}?' in listed.html
    assert f'href="/mapping/1/c/{VIOLINS}?' not in ben.get("/mapping/1").html
    assert SAY(f"mapping.decided.{decision}", name="VOC") in bench(ben, VIOLINS).text
    act(bench(ben, VIOLINS), ben, "again")
    assert f'href="/mapping/1/c/{VIOLINS}?' in ben.get("/mapping/1").html
    act(bench(ben, VIOLINS), ben, decision)
    act(bench(ben, VIOLINS), ben, "exact")
    assert SAY("mapping.state.mapped", n=1) in ben.get("/mapping/1?state=mapped").text, "a mapping counts more"


def test_an_entry_is_searched_for_there(ben: Reader, desk: Desk) -> None:
    assert bench(ben, LUTES).form("map").value("iri") == iri("lutist"), "one with a typing error"
    page = bench(ben, LUTES, "?q=instr+chor")
    assert SAY("mapping.rule.searched") not in page.text
    page = bench(ben, LUTES, "?q=ensem")
    assert SAY("mapping.rule.searched") in page.text and page.form("map").value("iri") == iri("band")
    act(page, ben, "relMatch")
    assert mapped(desk, LUTES) == [("relMatch", "band")]
    for signs in ('"', "a_b", "* OR", "-", "%"):
        assert bench(ben, LUTES, f"?q={signs}").status == 200


def test_nothing_is_chosen_without_a_candidate(ben: Reader, desk: Desk) -> None:
    made = done(desk, new("Theremin")).made or 0
    page = bench(ben, made)
    assert SAY("mapping.nothing") in page.text
    answer = ben.client.post(
        f"/mapping/1/c/{made}", data={"token": page.form("map").value("token"), "do": "exact", "form": "map"}
    )
    assert answer.status_code == 409 and SAY("mapping.choose") in answer.get_data(as_text=True)


# --- vocabularies ---


def test_progress_is_by_vocabulary_and_thesaurus(ben: Reader, desk: Desk) -> None:
    every = desk.replica.count_concepts(1)
    act(bench(ben, VIOLINS), ben, "exact")
    act(bench(ben, HARPS), ben, "none")
    page = ben.get("/mapping")
    counts = {"left": every - 2, "mapped": 1, "none": 1, "later": 0}
    for state, count in counts.items():
        assert SAY(f"mapping.state.{state}", n=count) in page.text
    assert f'<progress value="2" max="{every}"' in page.html
    assert SAY("mapping.room", n=20_000 - desk.replica.counts()["resources"]) in page.text


def send_dump(anna: Reader, name: str, file: str, text: str) -> Page:
    """Sends a dump by the form of the page."""
    from io import BytesIO

    form = anna.get("/mapping").form("load")
    data = {**dict(form.fields), "name": name, "file": (BytesIO(text.encode()), file)}
    return anna.read(anna.client.post("/mapping/load", data=data, content_type="multipart/form-data"))


def wait_for(desk: Desk, anna: Reader) -> Page:
    """Waits for the end of a load."""
    import time

    for _ in range(300):
        page = anna.get("/mapping")
        if SAY("mapping.look_again") not in page.text:
            return page
        time.sleep(0.1)
    raise AssertionError("the load doesn't end")


def test_a_dump_is_sent_to_the_desk(desk: Desk, reader: Reader) -> None:
    done(desk, {"do": "outside", "iri": iri("violin")}, link("link", "exact", VIOLINS, "$1"))
    send_dump(reader, "VOC", "voc.nt", f"{DUMP}what is this\n")
    page = wait_for(desk, reader)
    assert SAY("mapping.loaded", file="voc.nt", name="VOC") in page.text
    assert SAY("mapping.bad", n=1) in page.text and "what is this" in page.text
    assert desk.decisions.accepted_names(iri("violin")) == [("de", "Geige"), ("en", "violin")], "named as it is loaded"
    assert SAY("mapping.state.mapped", n=1) in page.text


def test_a_vocabulary_is_removed_and_what_was_decided_stays(desk: Desk, reader: Reader) -> None:
    """By an administrator who is sure; and holds again of a dump by the same name."""
    send_dump(reader, "VOC", "voc.nt", DUMP)
    wait_for(desk, reader)
    done(desk, {"do": "outside", "iri": iri("violin")}, link("link", "exact", VIOLINS, "$1"))
    desk.decisions.decide("ben", "VOC", HARPS, "rejected", iri("octet"))
    page = reader.get("/mapping")
    assert page.text.count("Remove “VOC”") == 2 and SAY("mapping.remove") not in page.text
    form = page.form("remove-1")
    fields = {name: value for name, value in form.fields if name != "sure"}
    assert reader.read(reader.client.post("/mapping/1/remove", data=fields)).status == 409
    assert [it.name for it in desk.vocabularies.each()] == ["VOC"]
    reader.client.post("/mapping/1/remove", data={**fields, "sure": "1"})
    page = wait_for(desk, reader)
    assert SAY("mapping.removal.loaded", name="VOC") in page.text and desk.vocabularies.each() == []
    assert reader.get("/mapping/1").status == 404
    assert "Geige" in reader.get(f"/c/{VIOLINS}").text or "violin" in reader.get(f"/c/{VIOLINS}").text
    assert desk.decisions.accepted_names(iri("violin")) == [("de", "Geige"), ("en", "violin")]
    send_dump(reader, "VOC", "voc.nt", DUMP)
    wait_for(desk, reader)
    assert desk.decisions.rejected("VOC") == {HARPS: {iri("octet")}} and mapped(desk, VIOLINS) == [("exact", "violin")]


def test_a_dump_that_is_none_is_said_to_be_none(desk: Desk, reader: Reader) -> None:
    page = send_dump(reader, "VOC", "voc.txt", DUMP)
    assert page.status == 409 and page.form("load").invalid == {"file"} or "file" in page.html
    assert send_dump(reader, " ", "voc.nt", DUMP).status == 409
    send_dump(reader, "VOC", "voc.csv", "address;term\n")
    page = wait_for(desk, reader)
    assert SAY("mapping.not_loaded", file="voc.csv", name="VOC") in page.text
    assert "names no columns iri and label" in page.text
    assert desk.vocabularies.each() == []


# --- all with the same label ---

MANY = "".join(pref(f"n{it}", f"Term {it}") + broader(f"n{it}", "top") for it in range(30)) + pref("top", "Things")


@pytest.fixture
def many(desk: Desk, store: Path) -> Iterator[Reader]:
    """Someone at a desk with thirty concepts that a vocabulary has, too."""
    load(store, MANY + pref("twin", "Term 7") + broader("twin", "top") + pref("far", "Harps"))
    made = done(desk, new("Things")).made or 0
    for it in range(30):
        done(desk, new(f"Term {it}"), link("link", "broader", "$1", made))
    yield come_in(desk)


def test_all_that_have_the_same_label_are_mapped_after_a_look_at_twenty(many: Reader, desk: Desk) -> None:
    page = many.get("/mapping/1/same")
    assert SAY("mapping.same_note", n=29, name="VOC") in page.text
    assert len(set(page.links()) & {f"/mapping/1/c/{number(desk, f'Term {it}')}?scheme=" for it in range(30)}) == 20
    assert many.send(page.form("same")).status == 409, "without a look"
    preview = many.send(many.get("/mapping/1/same").form("same"), sure="1")
    assert SAY("bring_in.rows_change", n=29) in preview.text and f"Term 3 {iri('n3')}" in preview.text
    before = desk.journal.last_plan()
    form = next(it for it in preview.forms if it.action == "/bring-in/table/perform")
    assert SAY("bring_in.rows_changed", n=29) in many.send(form).text
    assert desk.journal.last_plan() == before + 29, "a plan for each"
    assert mapped(desk, number(desk, "Term 3")) == [("exact", "n3")]
    assert mapped(desk, number(desk, "Term 7")) == [], "two there have its label"
    assert mapped(desk, HARPS) == [], "nothing above both is the same"
    assert SAY("mapping.same_note", n=0, name="VOC") in many.get("/mapping/1/same").text


def test_what_was_rejected_is_none_of_them(many: Reader, desk: Desk) -> None:
    desk.decisions.decide("anna", "VOC", number(desk, "Term 3"), "rejected", iri("n3"))
    assert SAY("mapping.same_note", n=28, name="VOC") in many.get("/mapping/1/same").text


def test_a_label_that_two_here_have_is_none_of_them(many: Reader, desk: Desk) -> None:
    made = done(desk, new("TERM 4")).made or 0
    done(desk, link("link", "broader", made, number(desk, "Things")))
    assert SAY("mapping.same_note", n=28, name="VOC") in many.get("/mapping/1/same").text


# --- a newer dump ---

NEWER = (
    pref("violin", "violin (instrument)")
    + pref("violin", "Geige", "de")
    + pref("harp", "HARPS")
    + deprecated("harp", "harps")
    + pref("harps", "Harps of today")
    + pref("bowed", "Bowed instruments")
)


def test_targets_that_have_changed_are_listed_and_mended(ben: Reader, desk: Desk, dump: Path) -> None:
    for concept, there in ((VIOLINS, "violin"), (HARPS, "harp"), (BOWED, "bowed"), (STRINGS, "strings")):
        act(bench(ben, concept, f"?q={there}"), ben, "close", iri=iri(there))
    assert SAY("mapping.none_changed") in ben.get("/mapping/1/changed").text
    load(dump, NEWER)
    assert SAY("mapping.changed_count", n=3) in ben.get("/mapping").text
    page = ben.get("/mapping/1/changed")
    assert f"{SAY('mapping.what.renamed')} violin (instrument)" in page.text
    assert f"{SAY('mapping.what.replaced')} Harps of today" in page.text
    assert (
        f"Chordophones {iri('strings')} {SAY('mapping.what.gone')}" in page.text
    ), "called as on the day of the mapping"
    assert iri("bowed") not in page.text
    page = ben.send(page.form("rename"), button=("do", "rename"))
    assert (
        iri("violin") not in page.text and desk.decisions.accepted_names(iri("violin"))[1][1] == "violin (instrument)"
    )
    page = ben.send(page.form("follow"), button=("do", "follow"))
    assert mapped(desk, HARPS) == [("close", "harps")]
    page = ben.send(page.form("remove"), button=("do", "remove"))
    assert mapped(desk, STRINGS) == [] and SAY("mapping.none_changed") in page.text


def test_a_target_is_known_to_be_gone_also_where_its_first_dump_is_lost(ben: Reader, desk: Desk, dump: Path) -> None:
    act(bench(ben, VIOLINS), ben, "exact")
    vocabularies_of(dump).unlink()
    load(dump, pref("bowed", "Bowed instruments"))
    assert f"violin {iri('violin')} {SAY('mapping.what.gone')}" in ben.get("/mapping/1/changed").text


def test_a_vocabulary_that_is_gone_is_no_page(ben: Reader, dump: Path) -> None:
    vocabularies_of(dump).unlink()
    for path in ("/mapping/1", f"/mapping/1/c/{VIOLINS}", "/mapping/1/same", "/mapping/1/changed"):
        assert ben.get(path).status == 404
    assert SAY("mapping.no_vocabulary") in ben.get("/mapping").text
    load(dump, DUMP)
    assert bench(ben, VIOLINS).status == 200
    assert bench(ben, 1).status == 404, "a thesaurus is no concept"
