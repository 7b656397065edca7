"""Each form that changes terms and notes: what it does, and each refusal beside its field."""
from __future__ import annotations

import pytest
from asking import view
from clients import Site
from reader import Page, Reader, opened_by_links, read_page
from thesaurus_desk.store.plan_execution import Desk

# Concepts of the sample.
BOWED, VIOLINS, VIOLAS, MESSIAH, FIDDLES, HARPS = 4, 5, 6, 30, 31, 11


def add(page: Page, reader: Reader, kind: str, tag: str, text: str) -> Page:
    return reader.send(page.form("add-term"), kind=kind, tag=tag, text=text)


# --- terms and notes ---


def test_terms_and_notes_are_added(reader: Reader, desk: Desk) -> None:
    for kind, tag, text in [("alt", "en", "Fine violins"), ("pref", "it", "Violini"), ("hidden", "DE", "Gaigen")]:
        assert add(reader.get(f"/c/{VIOLINS}"), reader, kind, tag, text).status == 200
    add(reader.get(f"/c/{VIOLINS}"), reader, "scope", "en", "With four strings.\r\nBowed.")
    it = view(desk, VIOLINS)
    assert ("en", "Fine violins") in it.alt and ("it", "Violini") in it.pref and ("de", "Gaigen") in it.hidden
    assert ("en", "With four strings. Bowed.") in it.scope


@pytest.mark.parametrize(
    ("kind", "tag", "text", "field", "part"),
    [
        ("alt", "en", "Violins", "text", "already the preferred term of Violins"),
        ("pref", "en", "Fine violins", "text", "already has the preferred term “Violins” (en)"),
        ("pref", "it", "", "text", "The field is empty"),
        ("alt", "x1y2z3w4q5", "Fine violins", "tag", "isn’t a language tag"),
        ("alt", "english", "Fine violins", "tag", "“english” isn’t a language tag"),
        ("alt", "de", "Violinen", "text", "already has “Violinen” (de) as non-preferred term"),
        ("alt", "en", "x" * 257, "text", "is one character too long"),
    ],
)
def test_a_refused_term_is_shown_again(reader: Reader, kind: str, tag: str, text: str, field: str, part: str) -> None:
    page = add(reader.get(f"/c/{VIOLINS}"), reader, kind, tag, text)
    form = page.form("add-term")
    assert page.status == 409 and part in form.text
    assert form.invalid == {field}
    assert (form.value("kind"), form.value("tag"), form.value("text")) == (kind, tag, text)
    assert '<details class="act worded" id="at-add-term" open>' in page.html
    assert "Nothing was changed." in page.alerts


def test_a_language_with_a_long_tag_that_is_in_use(reader: Reader, desk: Desk) -> None:
    label = {"do": "addLabel", "owner": HARPS, "kind": "alt", "tag": "english", "text": "Harp"}
    assert desk.perform("anna", "try", [label]).is_done
    assert add(reader.get(f"/c/{VIOLINS}"), reader, "alt", "english", "Violin").status == 200


@pytest.mark.parametrize(
    ("number", "form", "fields", "is_said"),
    [
        (FIDDLES, "change-pref-de-1", {"text": "Violinen"}, True),
        (FIDDLES, "change-pref-de-1", {"text": "Fideln"}, False),
        (FIDDLES, "add-term", {"kind": "alt", "tag": "de", "text": "VIOLINEN"}, True),
        (FIDDLES, "add-term", {"kind": "alt", "tag": "nl", "text": "Violinen"}, False),
        (FIDDLES, "add-term", {"kind": "hidden", "tag": "de", "text": "Violinen"}, False),
    ],
)
def test_a_term_of_another_concept_is_said(
    reader: Reader, number: int, form: str, fields: dict[str, str], is_said: bool
) -> None:
    page = reader.send(reader.get(f"/c/{number}").form(form), **fields)
    assert page.status == 200 and (" is also a term of Violins." in page.text) is is_said


def test_a_term_that_another_concept_has(reader: Reader) -> None:
    reader.send(reader.get(f"/c/{VIOLAS}").form("change-pref-en-1"), text="Violins")
    page = reader.send(reader.get(f"/c/{VIOLAS}").form("change-pref-en-1"), text="Violins")
    form = page.form("change-pref-en-1")
    assert page.status == 409 and "Violins has the preferred term “Violins” (en)" in form.text
    assert form.invalid == {"text"} and form.value("text") == "Violins" and f"/c/{VIOLINS}" in page.links()


def test_a_preferred_term_is_renamed(reader: Reader, desk: Desk) -> None:
    form = reader.get(f"/c/{VIOLINS}").form("change-pref-en-1")
    assert form.value("keep") == "1"
    page = reader.send(form, text="Fine violins")
    assert ("en", "Fine violins") in view(desk, VIOLINS).pref and ("en", "Violins") in view(desk, VIOLINS).alt
    kept = "“Violins” (en) renamed to “Fine violins” (en), and the old term kept as a non-preferred one"
    assert kept in page.text and kept in reader.get("/changes").text
    reader.send(page.form("change-pref-en-1"), text="Concert violins", keep=None)
    assert "Concert violins: “Fine violins” (en) renamed to “Concert violins” (en)" in reader.get("/changes").text
    assert ("en", "Concert violins") in view(desk, VIOLINS).pref and ("en", "Fine violins") not in view(
        desk, VIOLINS
    ).alt


def test_another_term_is_changed(reader: Reader, desk: Desk) -> None:
    reader.send(reader.get(f"/c/{VIOLINS}").form("change-alt-de-2"), text="Violine")
    assert view(desk, VIOLINS).alt == (("de", "Violine"),)
    assert len(desk.history.recent(number=VIOLINS)[0].steps) == 2


def test_an_unchanged_term_sends_nothing(reader: Reader, desk: Desk) -> None:
    before = desk.journal.last_plan()
    reader.send(reader.get(f"/c/{VIOLINS}").form("change-alt-de-2"))
    assert desk.journal.last_plan() == before


def test_a_note_is_changed(reader: Reader, desk: Desk) -> None:
    page = reader.get(f"/c/{FIDDLES}")
    (name,) = (it for it in page.opened_by_links() if it.startswith("change-scope-en"))
    reader.send(page.form(name), text="Of folk music.")
    assert view(desk, FIDDLES).scope == (("en", "Of folk music."),)


def test_an_alternative_term_becomes_the_preferred_one(reader: Reader, desk: Desk) -> None:
    reader.send(reader.get(f"/c/{VIOLINS}").form("prefer", text="Violinen"))
    it = view(desk, VIOLINS)
    assert ("de", "Violinen") in it.pref and it.alt == (("de", "Geigen"),)


def test_an_alternative_term_becomes_the_first_preferred_one(reader: Reader, desk: Desk) -> None:
    add(reader.get(f"/c/{VIOLINS}"), reader, "alt", "it", "Violini")
    reader.send(reader.get(f"/c/{VIOLINS}").form("prefer", text="Violini"))
    assert ("it", "Violini") in view(desk, VIOLINS).pref and ("it", "Violini") not in view(desk, VIOLINS).alt


def test_a_term_that_another_concept_prefers_isnt_preferred(reader: Reader, desk: Desk) -> None:
    add(reader.get(f"/c/{VIOLINS}"), reader, "alt", "en", "Fiddles")
    before = view(desk, VIOLINS)
    page = reader.send(reader.get(f"/c/{VIOLINS}").form("prefer", text="Fiddles"))
    assert page.status == 409 and "Fiddles has the preferred term “Fiddles” (en)" in page.alerts
    assert view(desk, VIOLINS) == before


def test_a_term_is_removed(reader: Reader, desk: Desk) -> None:
    reader.send(reader.get(f"/c/{VIOLINS}").form("remove-term", text="Violinen"))
    assert view(desk, VIOLINS).alt == ()


def test_the_last_preferred_term_stays(reader: Reader, desk: Desk) -> None:
    reader.send(reader.get("/new/collection").form("new"), tag="en", text="Room 12")
    made = desk.replica.numbers("collection")[-1]
    page = reader.send(reader.get(f"/c/{made}").form("remove-term"))
    assert page.status == 409 and "the only preferred term" in page.alerts


def test_names_of_schemes_and_collections(reader: Reader, desk: Desk) -> None:
    collection = desk.replica.numbers("collection")[0]
    for number in (1, collection):
        add(reader.get(f"/c/{number}"), reader, "alt", "en", "Another name")
        assert ("en", "Another name") in view(desk, number).alt


# --- taking out of use ---


def test_a_concept_is_taken_out_of_use(reader: Reader, desk: Desk) -> None:
    page = reader.send(reader.get(f"/c/{MESSIAH}").form("deprecate"))
    assert "deprecated" in page.text and not view(desk, MESSIAH).is_live
    assert not page.has_form("add-term") and not page.has_form("deprecate")


def test_a_concept_with_records_stays(reader: Reader, desk: Desk) -> None:
    reader.send(reader.get(f"/c/{VIOLINS}").form("post"), record="Violin 1668")
    page = reader.send(reader.get(f"/c/{VIOLINS}").form("deprecate"))
    assert page.status == 409 and "1 record is indexed with Violins" in page.form("deprecate").text
    assert {f"/c/{VIOLINS}/merge", f"/c/{VIOLINS}/split", f"/c/{VIOLINS}/records"} <= set(page.links())
    assert view(desk, VIOLINS).is_live


# --- two editors ---


@pytest.mark.parametrize(
    ("user", "said"), [("ben", "Somebody changed Violins after you opened"), ("anna", "You changed Violins yourself")]
)
def test_a_conflict_shows_both_changes_and_asks_again(reader: Reader, desk: Desk, user: str, said: str) -> None:
    mine = reader.get(f"/c/{VIOLINS}").form("add-term")
    label = {"do": "addLabel", "owner": VIOLINS, "kind": "alt", "tag": "en", "text": "Fiddles too"}
    assert desk.perform(user, "add_term", [label]).is_done
    page = reader.send(mine, kind="alt", tag="en", text="Fine violins")
    assert page.status == 409 and said in page.text and "hasn’t been made yet" in page.text
    assert "non-preferred term “Fiddles too” (en)" in page.text and user in page.text
    assert "Your change Violins: non-preferred term “Fine violins” (en) added" in " ".join(page.text.split())
    assert ("en", "Fine violins") not in view(desk, VIOLINS).alt
    assert " autofocus" not in page.html and page.html.index(">Cancel</a>") < page.html.index(">Make my change")
    assert reader.send(page.form("add-term")).status == 200
    assert ("en", "Fine violins") in view(desk, VIOLINS).alt


def test_labels_and_links_dont_disturb_each_other(reader: Reader, desk: Desk) -> None:
    mine = reader.get(f"/c/{VIOLINS}").form("add-related")
    add(reader.get(f"/c/{VIOLINS}"), reader, "alt", "en", "Fine violins")
    assert reader.send(mine, other="Harps").status == 200
    assert HARPS in view(desk, VIOLINS).related


def test_the_next_page_says_what_was_done(reader: Reader, desk: Desk) -> None:
    page = add(reader.get(f"/c/{VIOLINS}"), reader, "alt", "en", "<b>Fine</b>")
    said = 'class="said" role="status"'
    assert said in page.html and "Violins: non-preferred term “<b>Fine</b>” (en) added" in page.text
    assert said not in reader.get(f"/c/{VIOLINS}").html
    assert said not in reader.get(f"/c/{VIOLINS}?done=99999").html


@pytest.mark.parametrize(
    ("name", "forms"),
    [
        ("rita", set()),
        ("ina", {"post", "withdraw"}),
        ("ben", {"post", "withdraw", "add-term", "remove-term", "add-broader", "remove-link", "retype-broader"}),
        ("anna", {"post", "withdraw", "add-term", "remove-term", "add-broader", "remove-link", "deprecate"}),
    ],
)
def test_a_page_has_the_forms_of_the_readers_role(site: Site, name: str, forms: set[str]) -> None:
    post = {"do": "post", "key": "k", "record": "Violin 1668", "concept": VIOLINS}
    assert site.desk.perform("anna", "post", [post]).is_done
    html = site.client(name).get(f"/c/{VIOLINS}").get_data(as_text=True)
    names = {it.name for it in read_page(html).forms if it.name} | opened_by_links(html)
    found = {it.removesuffix(f"Generic-{BOWED}-broaderGeneric") for it in names}
    assert forms <= found and (found <= forms if name in ("rita", "ina") else True)
    assert ("deprecate" in found) == (name == "anna")


def test_a_scheme_and_an_outside_concept_have_pages(reader: Reader, desk: Desk) -> None:
    page = reader.get("/c/1")
    collection = desk.replica.numbers("collection")[0]
    assert {f"/c/{collection}", "/print/1", "/tree?scheme=1"} <= set(page.links())
    outside = desk.replica.by_iri("http://www.wikidata.org/entity/Q8355")
    assert outside
    page = reader.get(f"/c/{outside}")
    assert desk.replica.iri(outside) in page.links() and f"/c/{VIOLINS}" in page.links()
    assert not page.has_form("add-term")
