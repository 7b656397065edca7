"""Tests that a table that comes back says exactly what it means: what a cell lacks goes, what it doesn't show stays,
and a row whose concept has changed since is refused with both versions."""
from __future__ import annotations

import csv
import io
from typing import Any

import pytest
from clients import Client, Site, text_of
from test_bring_in import anna, perform, send  # noqa: F401 (anna is a fixture)
from test_changes import number
from test_changes import perform as perform_requests
from thesaurus_desk.store.model import View
from thesaurus_tools.values import set_request

TERMS = {"Harps": 11, "Violins": 5, "Violas": 6, "Bowed instruments": 4, "Plucked instruments": 9}


def rows_of(client: Client, path: str = "/tree?format=csv") -> dict[int, dict[str, str]]:
    """Returns the rows of a list by their numbers."""
    rows = csv.DictReader(io.StringIO(client.get(path).text.removeprefix("\ufeff")))
    return {int(it["identifier"]): it for it in rows}


def mark_of(client: Client, concept: int) -> str:
    """Returns what a list says that a concept was."""
    return rows_of(client)[concept]["as seen"]


def table(*rows: dict[str, Any]) -> bytes:
    """Returns rows as a table."""
    out = io.StringIO()
    writer = csv.DictWriter(out, list(rows[0]))
    writer.writeheader()
    writer.writerows(rows)
    return out.getvalue().encode()


def row(client: Client, concept: int, **cells: str) -> dict[str, str]:
    """Returns a row of a concept as it is seen now, with other cells."""
    return {"number": str(concept), "as seen": mark_of(client, concept), **cells}


def view(site: Site, concept: int) -> View:
    """Returns what a concept has."""
    found = site.desk.replica.view(concept)
    assert found
    return found


def bring(client: Client, *rows: dict[str, Any], done: int = 1, **values: str) -> str:
    """Brings a table in, of which some rows are done and no other is refused, and returns its preview."""
    page = send(client, "/bring-in/table", table(*rows), tag="en", **values)
    text = text_of(page)
    assert "0 rows were refused." in text, text.partition("Show again")[2]
    after = perform(client, page, "/bring-in/table/perform")
    assert f"{done} row{'s were' if done > 1 else ' was'} done." in text_of(after), text_of(after)
    return text


@pytest.fixture
def numbers(site: Site) -> dict[str, int]:
    """The numbers of concepts by their terms."""
    assert {it: number(site, it) for it in TERMS} == TERMS
    return TERMS


def test_terms_are_exactly_those_of_a_cell(site: Site, anna: Client, numbers: dict[str, int]) -> None:  # noqa: F811
    """What a cell lacks goes, what is new comes, and the order doesn't count; what no cell can show stays."""
    harps = numbers["Harps"]
    texts = ("Lap harps", "Big harps\u00a0", "Harps | others")
    perform_requests(site, *({**label(harps, "alt", "en", it)} for it in texts))
    perform_requests(site, label(harps, "hidden", "en", "Harsp"), label(harps, "alt", "fr", "Grandes harpes"))
    same = row(anna, harps, **{"alt@en": "Lap harps|Big harps", "hidden@en": "Harsp", "alt@fr": "Grandes harpes"})
    assert "/bring-in/table/perform" not in send(anna, "/bring-in/table", table(same), tag="en").text
    bring(anna, {**same, "alt@en": "Small harps|Lap harps", "hidden@en": ""})
    assert view(site, harps).alt == (
        ("en", "Harps | others"),
        ("en", "Lap harps"),
        ("en", "Small harps"),
        ("fr", "Grandes harpes"),
    )
    assert not view(site, harps).hidden


def label(owner: int, kind: str, tag: str, text: str) -> dict[str, Any]:
    """Returns the request that adds a term or a note."""
    return {"do": "addLabel", "owner": owner, "kind": kind, "tag": tag, "text": text}


def link(kind: str, a: int, b: int) -> dict[str, Any]:
    """Returns the request that adds a link."""
    return {"do": "link", "kind": kind, "a": a, "b": b}


def test_a_second_note_stays(site: Site, anna: Client, numbers: dict[str, int]) -> None:  # noqa: F811
    harps = numbers["Harps"]
    perform_requests(site, label(harps, "scope", "en", "A | first."), label(harps, "scope", "en", "Second."))
    bring(anna, row(anna, harps, **{"scope@en": ""}))
    assert view(site, harps).scope == (("en", "Second."),)
    bring(anna, row(anna, harps, **{"scope@en": "Other | one."}))
    assert view(site, harps).scope == (("en", "Other | one."),)


@pytest.mark.parametrize(
    ("more", "values", "after"),
    [
        ({"alt@en": ""}, {}, ()),
        ({"alt@en": "Harps"}, {}, (("en", "Harps"),)),
        ({}, {}, (("en", "Harps"),)),
        ({}, {"forget": "1"}, ()),
    ],
    ids=["its cell is empty", "its cell has it", "no column says it", "forgotten"],
)
def test_an_old_preferred_term(
    site: Site, anna: Client, numbers: dict[str, int], more: dict, values: dict, after: tuple  # noqa: F811
) -> None:
    """If there is a column of alternative terms, it says whether the old term is one; otherwise the form does."""
    harps = numbers["Harps"]
    own = row(anna, harps, **{"pref@en": "Angular harps", **more})
    bring(anna, own, **values)
    assert ("en", "Angular harps") in view(site, harps).pref and view(site, harps).alt == after
    again = send(anna, "/bring-in/table", table(own), tag="en", **values)
    assert "0 rows were refused." in text_of(again) and "/bring-in/table/perform" not in again.text


def test_a_preferred_term_of_a_language_goes(site: Site, anna: Client, numbers: dict[str, int]) -> None:  # noqa: F811
    harps = numbers["Harps"]
    bring(anna, row(anna, harps, **{"pref@de": "", "alt@en": "Harfen"}))
    assert [tag for tag, _ in view(site, harps).pref] == ["en", "fr"] and view(site, harps).alt == (("en", "Harfen"),)


def test_links_are_exactly_those_of_a_cell(site: Site, anna: Client, numbers: dict[str, int]) -> None:  # noqa: F811
    """A place is another one, with the type of the old one; and a related concept becomes the broader one."""
    harps, bowed, violins = numbers["Harps"], numbers["Bowed instruments"], numbers["Violins"]
    (kind,) = site.desk.replica.link_types(harps, numbers["Plucked instruments"])
    perform_requests(site, link("related", harps, bowed), link("related", harps, violins))
    bring(anna, row(anna, harps, broader="Bowed instruments", related="Violins"))
    assert view(site, harps).broader == (bowed,) and view(site, harps).related == (violins,)
    assert site.desk.replica.link_types(harps, bowed) == (kind,)
    bring(anna, row(anna, harps, broader="", related="", exact="http://example.org/1|http://example.org/2"))
    assert not view(site, harps).broader and not view(site, harps).related
    bring(anna, row(anna, harps, exact="http://example.org/2", member=""))
    assert [site.desk.replica.iri(it) for _, it in view(site, harps).mappings] == ["http://example.org/2"]
    bring(anna, row(anna, harps, exact=""))
    assert not view(site, harps).mappings


def test_the_type_of_a_place_is_another_one(site: Site, anna: Client, numbers: dict[str, int]) -> None:  # noqa: F811
    harps, plucked = numbers["Harps"], numbers["Plucked instruments"]
    (kind,) = site.desk.replica.link_types(harps, plucked)
    cells = {kind: "", "broaderPartitive": "Plucked instruments", "broader": "Plucked instruments"}
    bring(anna, row(anna, harps, **cells))
    assert site.desk.replica.link_types(harps, plucked) == ("broaderPartitive",)
    two = row(anna, harps, **{**cells, "broader": ""})
    assert "is in one column of this row, and no longer in another" in text_of(
        send(anna, "/bring-in/table", table(two))
    )


def test_a_row_doesnt_undo_one_before(site: Site, anna: Client, numbers: dict[str, int]) -> None:  # noqa: F811
    """What a row doesn't change stays, though another row of the table changes it: a relation, or a term's owner."""
    harps, violas = numbers["Harps"], numbers["Violas"]
    rows = [row(anna, harps, related="Violas"), row(anna, violas, related="")]
    bring(anna, *rows)
    assert view(site, harps).related == (violas,)


def test_terms_are_exchanged(site: Site, anna: Client, numbers: dict[str, int]) -> None:  # noqa: F811
    """And what is broader is still what had the term before."""
    harps, violas, third = numbers["Harps"], numbers["Violas"], number(site, "Lutes")
    perform_requests(site, link("related", third, harps))
    rows = [
        row(anna, harps, **{"pref@en": "Violas", "alt@en": "", "related": "Lutes"}),
        row(anna, violas, **{"pref@en": "Harps", "alt@en": "", "related": ""}),
        row(anna, third, **{"pref@en": "Lutes", "alt@en": "", "related": "Harps"}),
    ]
    bring(anna, *rows, done=2)
    assert ("en", "Violas") in view(site, harps).pref and ("en", "Harps") in view(site, violas).pref
    alternative = [tag for it in (harps, violas) for tag, _ in view(site, it).alt]
    assert "en" not in alternative and view(site, third).related == (harps,)


def test_values_are_exactly_those_of_a_cell(site: Site, anna: Client, numbers: dict[str, int]) -> None:  # noqa: F811
    harps = numbers["Harps"]
    old = {"text": "Old one.", "source": "Grove"}
    values = [set_request(harps, "definition", "en", new=it) for it in (old, "Stays.")]
    perform_requests(site, *values, set_request(harps, "status", "", new="revise"))
    bring(anna, row(anna, harps, **{"definition@en": "Stays.\n|\nNew.", "status": ""}))
    held = site.desk.values.of(harps)
    assert [(it.text, it.source) for it in held["definition"]] == [("New.", "Grove"), ("Stays.", "")]
    assert "status" not in held
    bring(anna, row(anna, harps, **{"definition@en": ""}))
    assert not site.desk.values.of(harps)


def test_a_changed_concept_is_refused_with_both_versions(
    site: Site, anna: Client, numbers: dict[str, int]  # noqa: F811
) -> None:
    """What the concept has now is as good as done."""
    harps = numbers["Harps"]
    own = row(anna, harps, **{"alt@en": "Small harps", "broader": "Plucked instruments"})
    perform_requests(site, label(harps, "alt", "en", "Celtic harps"))
    page = send(anna, "/bring-in/table", table(own), tag="en")
    text = text_of(page)
    assert (
        "Harps has changed since this table was made. Here: alt@en “Small harps”. Now: alt@en “Celtic harps”." in text
    )
    assert "/bring-in/table/perform" not in page.text
    same = send(anna, "/bring-in/table", table({**own, "alt@en": "Celtic harps"}), tag="en")
    assert "0 rows were refused." in text_of(same) and "/bring-in/table/perform" not in same.text


def test_a_change_after_the_preview_is_told_with_both_versions(
    site: Site, anna: Client, numbers: dict[str, int]  # noqa: F811
) -> None:
    harps = numbers["Harps"]
    page = send(anna, "/bring-in/table", table(row(anna, harps, **{"alt@en": "Small harps"})), tag="en")
    perform_requests(site, label(harps, "alt", "en", "Celtic harps"))
    done = text_of(perform(anna, page, "/bring-in/table/perform"))
    assert "1 row was refused." in done and "Now: alt@en “Celtic harps”." in done


def test_a_table_isnt_old_with_each_record(site: Site, anna: Client, numbers: dict[str, int]) -> None:  # noqa: F811
    """Nor with a new concept below."""
    harps = numbers["Harps"]
    own = row(anna, harps, **{"alt@en": "Small harps"})
    below = {"do": "concept", "scheme": 1, "tag": "en", "text": "Pedal harps"}
    posting = {"do": "post", "key": "k1", "record": "A harp", "concept": harps}
    perform_requests(site, posting, below, {"do": "link", "kind": "broader", "a": "$2", "b": harps})
    bring(anna, own)
    assert view(site, harps).alt == (("en", "Small harps"),) and len(view(site, harps).narrower) == 1


def test_a_term_that_another_concept_has_got(site: Site, anna: Client, numbers: dict[str, int]) -> None:  # noqa: F811
    """What a cell names is no longer what it named: nothing is moved there."""
    harps, plucked = numbers["Harps"], numbers["Plucked instruments"]
    own = row(anna, harps, broader="Plucked instruments")
    renamed = {"do": "relabel", "owner": plucked, "tag": "en", "text": "Plucked ones", "keep": False}
    perform_requests(site, renamed, {"do": "concept", "scheme": 1, "tag": "en", "text": "Plucked instruments"})
    page = send(anna, "/bring-in/table", table(own), tag="en")
    assert "Here: broader “Plucked instruments”. Now: broader “Plucked ones”." in text_of(page)


@pytest.mark.parametrize(
    ("cells", "has_mark", "after"),
    [("", True, ()), ("add", True, (("en", "A harp"),)), ("", False, (("en", "A harp"),)), ("exact", False, ())],
)
def test_the_choice(
    site: Site, anna: Client, numbers: dict[str, int], cells: str, has_mark: bool, after: tuple  # noqa: F811
) -> None:
    """A row with a mark is exact, and any other only adds, unless its sender says something else."""
    harps = numbers["Harps"]
    perform_requests(site, label(harps, "alt", "en", "A harp"))
    own = row(anna, harps, **{"alt@en": "", "alt@fr": "Harpe à pédales"})
    if not has_mark:
        del own["as seen"]
    bring(anna, own, cells=cells)
    assert view(site, harps).alt == (*after, ("fr", "Harpe à pédales"))


def test_a_mark_of_another_row(anna: Client, numbers: dict[str, int]) -> None:  # noqa: F811
    own = {**row(anna, numbers["Harps"], **{"alt@en": "Small harps"}), "as seen": mark_of(anna, numbers["Violins"])}
    assert "the columns of this row were shifted" in text_of(send(anna, "/bring-in/table", table(own), tag="en"))


def test_a_visitor_gets_no_marks(site: Site) -> None:
    page = site.client("rita").get("/tree?format=csv").text
    assert "as seen" in page.splitlines()[0] and "as seen" not in site.client().get("/tree?format=csv").text
