"""Tests that each list that the desk writes comes back unharmed and understood, in three languages; and columns that
aren't understood."""
from __future__ import annotations

import csv
import io
import re
from typing import Any

import pytest
from clients import Client, Site, last_upload, text_of
from test_bring_in import anna, perform, send  # noqa: F401 (anna is a fixture)
from test_changes import number
from thesaurus_desk.importing.tables import TableRun
from thesaurus_desk.words import LANGUAGES
from thesaurus_tools.fields import Field
from thesaurus_tools.formulas import remove_guard
from thesaurus_tools.headings import UNKNOWN, find_columns
from thesaurus_tools.values import set_request

# Lists of resources by their addresses, and what else is there: a term with a sign, a homonym, and what has ended.
LISTS = (
    *("/search?q=instruments&all=1&format=csv", "/az?letter=v&format=csv", "/tree?format=csv", "/schemes?format=csv"),
    *("/collections?format=csv", "/print/4?format=csv", "/c/32/members.csv", "/changed-since?since=2026&format=csv"),
    *(f"/lists/{it}?in=de&format=csv" for it in ("orphans", "alike", "busiest", "unused")),
    "/lists/field/definition?format=csv",
)
# Lists with columns of their own: of work, of what a language lacks, and of what has changed since a release.
OTHERS = (
    "/lists/untranslated?in=de&format=csv",
    *(f"/lists/work/{it}?format=csv" for it in ("mine", "due", "candidates", "revise")),
    "/releases/present?format=csv",
)
# All columns that may be chosen, with a language that nothing has a term in.
CHOSEN = (
    *("kind", "term", "replaced", "records", "broader", "broaderGeneric", "broaderPartitive", "broaderInstantial"),
    *("narrower", "related", "member", "members", "exact", "close", "broad", "narrow", "relMatch", "definition@gsw"),
    *("notation@https://codes.example/a,b", "changeNote@en", "definition@en", "source", "person", "due"),
    *(f"{kind}@{tag}" for kind in ("pref", "alt", "hidden", "scope") for tag in ("en", "de", "fr", "gsw", "zxx")),
    *("notation", "notation@MIMO", "status", "task", "address", "de", "made"),
)
ALL = f"/tree?{'&'.join(f'column={it}' for it in CHOSEN)}&language=it&format="
POSTINGS = "/c/5/records.csv"
WORK = {"status": "revise", "person": "anna", "due": "2026-01-02", "task": "=Look | at it"}
# Fields with names of other columns, and values with the signs that part values, and that begin formulas.
FIELDS = (
    Field("de", "line", names={"en": "Term", "de": "Nummer", "fr": "Synonyme (de)"}, is_own=True),
    Field("made", "date", names={"en": "made in"}, is_own=True),
)
VALUES = (
    *(("definition", "en", it) for it in ("=A | B\n|\nof; =two\n||", "Another:\n\n-one", "'x'")),
    *(("definition", "gsw", "Es Zupfinschtrumänt"), ("changeNote", "en", "@ 2001"), ("source", "", "a|b || c |")),
    *(("notation", "", "-1"), ("notation", "MIMO", "1|2"), ("notation", "https://codes.example/a,b", "=3")),
    *(("de", "", "|x"), ("de", "", "y"), ("made", "", "1860-02")),
)


@pytest.fixture
def lists(site: Site) -> Site:
    """A desk whose lists have all that is hard to bring back."""
    harps, violins = number(site, "Harps"), number(site, "Violins")
    more = [
        {"do": "concept", "scheme": 1, "tag": "en", "text": "Harps | two"},
        {"do": "link", "kind": "broader", "a": "$1", "b": harps},
        {"do": "concept", "scheme": 1, "tag": "en", "text": "Pedal harps"},
        {"do": "link", "kind": "broader", "a": "$3", "b": "$1"},
        {"do": "concept", "scheme": 1, "tag": "en", "text": "Old lyres"},
        {"do": "concept", "scheme": 1, "tag": "en", "text": "Lone harps"},
        {"do": "addLabel", "owner": "$6", "kind": "alt", "tag": "en", "text": "HARPS"},
        {"do": "post", "key": "v1", "record": "Violin; =1", "concept": violins},
        {"do": "addLabel", "owner": harps, "kind": "alt", "tag": "de", "text": "Harfen, große"},
        {"do": "addLabel", "owner": harps, "kind": "alt", "tag": "gsw", "text": "=Harpfe"},
        {"do": "addLabel", "owner": violins, "kind": "alt", "tag": "en", "text": "=1+1"},
        {"do": "addLabel", "owner": violins, "kind": "alt", "tag": "en", "text": "a;=2 | b"},
        {"do": "addLabel", "owner": violins, "kind": "alt", "tag": "en", "text": "a;=2"},
        *(set_request(harps, name, tag, new=text) for name, tag, text in VALUES),
    ]
    for it in FIELDS:
        site.desk.values.write_field(it)
    assert (
        site.client("anna").post("/releases", {"form": "release", "name": "1", "day": "2026-11-30"}).status_code == 303
    )
    outcome = site.desk.perform("anna", "try", more)
    assert outcome.is_done
    ended = [{"do": "deprecate", "concept": outcome.number(5)}]
    assert site.desk.perform("anna", "try", ended).is_done
    assert site.desk.perform("anna", "try", linked(harps, violins, outcome.number(3) or 0)).is_done
    return site


def linked(harps: int, violins: int, pedal_harps: int) -> list[dict[str, Any]]:
    """Returns the requests for notes, codes, links of each kind, and what is to be done with concepts."""
    labels = (
        ("scope", "en", "Of | all"),
        ("scope", "en", "=Two."),
        ("hidden", "zxx", "H-1"),
        ("hidden", "gsw", "Harpf"),
    )
    outside = {"do": "outside", "iri": "http://example.org/harp,1"}
    return [
        outside,
        *({"do": "addLabel", "owner": harps, "kind": kind, "tag": tag, "text": text} for kind, tag, text in labels),
        *({"do": "link", "kind": kind, "a": harps, "b": "$1"} for kind in ("close", "relMatch")),
        {"do": "link", "kind": "broaderPartitive", "a": pedal_harps, "b": violins},
        {"do": "link", "kind": "broaderGeneric", "a": pedal_harps, "b": violins},
        {"do": "link", "kind": "related", "a": harps, "b": violins},
        *(set_request(harps, name, "", new=text) for name, text in WORK.items()),
        set_request(violins, "status", "", new="candidate"),
    ]


def table_of(client: Client, path: str, language: str) -> bytes:
    """Returns a list as a user has it in a language."""
    client.http.set_cookie("localhost", "pages", language)
    answer = client.get(path)
    assert answer.status_code == 200, path
    return answer.data


@pytest.mark.parametrize("language", LANGUAGES)
def test_each_column_is_understood(lists: Site, anna: Client, language: str) -> None:  # noqa: F811
    for path in (*LISTS, *OTHERS, f"{ALL}csv", POSTINGS):
        rows = list(csv.reader(io.StringIO(table_of(anna, path, language).decode("utf-8-sig"))))
        columns = find_columns(rows[0], "", {}, lists.desk.values.fields())
        roles = {str(it) for it in columns}
        assert len(rows) > 1 and UNKNOWN not in roles, path
        its = {"field:definition@gsw", "field:notation@MIMO", "field:notation@https://codes.example/a,b", "field:de"}
        if path == POSTINGS or path in OTHERS:
            assert roles >= ({"record", "key", "concept"} if path == POSTINGS else {"concept", "pref"}), path
            continue
        assert its <= roles and roles >= {"concept", "broader", "alt@de", "seen"}, path


@pytest.mark.parametrize("language", LANGUAGES)
@pytest.mark.parametrize("kind", ["", "translations", "renames", "moves"])
def test_each_list_comes_back_unharmed(lists: Site, anna: Client, kind: str, language: str) -> None:  # noqa: F811
    """Each row changes nothing, and none is refused, whatever it is said to be."""
    for path in (*LISTS, *OTHERS, f"{ALL}csv", *(() if kind else (POSTINGS,))):
        data = table_of(anna, path, language)
        run = unharmed(lists, anna, data, "list.csv", kind=kind, tag=language)
        assert len(run.plans) == len(list(csv.reader(io.StringIO(data.decode("utf-8-sig"))))) - 1, path


def unharmed(site: Site, client: Client, data: bytes, name: str, **values: str) -> TableRun:
    """Brings a list in, of which each row changes nothing, and none is refused."""
    page = send(client, "/bring-in/table", data, name, **values)
    run = last_upload(site, TableRun)
    assert not [(it.cells, it.changes, it.reason) for it in run.plans if it.changes or it.reason], run.heading
    assert page.status_code == 200 and run.plans and "/bring-in/table/perform" not in page.text
    return run


@pytest.mark.needs("odf", "openpyxl")
@pytest.mark.parametrize("language", LANGUAGES)
def test_each_form_comes_back_unharmed(lists: Site, anna: Client, language: str) -> None:  # noqa: F811
    """With all columns that may be chosen; exactly, as additions, and by its marks."""
    rows = [[*it] for it in csv.reader(io.StringIO(table_of(anna, f"{ALL}csv", language).decode("utf-8-sig")))]
    for form in ("ods", "xlsx"):
        data = table_of(anna, f"{ALL}{form}", language)
        run = unharmed(lists, anna, data, f"list.{form}", tag=language)
        assert [run.heading, *(it.cells for it in run.rows)] == [[remove_guard(it) for it in row] for row in rows]
    for cells in ("exact", "add"):
        unharmed(lists, anna, data, "list.xlsx", tag=language, cells=cells)


def test_columns_are_chosen(lists: Site, anna: Client) -> None:  # noqa: F811
    """On a page that each list leads to; a further language has an empty column, which is filled in."""
    page = anna.get("/tree").text
    (path,) = set(re.findall(r'href="(/as-table\?of=[^"]+)"', page))
    form = anna.get(path)
    assert form.status_code == 200 and 'action="/tree"' in form.text and 'name="scheme" value="1"' in form.text
    offered = re.findall(r'name="column" value="([^"]+)"', form.text)
    assert {"pref@de", "scope@fr", "broaderGeneric", "related", "exact", "member", "records"} <= {*offered}
    assert "definition@gsw" in offered and len(offered) == len({*offered})
    rows = list(csv.DictReader(io.StringIO(anna.get("/tree?scheme=1&format=csv&column=pref@en&language=it").text[1:])))
    assert [*rows[0]] == ["identifier", "preferred term (en)", "preferred term (it)", "as seen"]
    rows[4]["preferred term (it)"] = "Arpe"
    out = io.StringIO()
    csv.DictWriter(out, list(rows[0])).writerows([dict(zip(rows[0], rows[0])), *rows])
    done = perform(anna, send(anna, "/bring-in/table", out.getvalue().encode()), "/bring-in/table/perform")
    assert "1 row was done." in done.text
    after = lists.desk.replica.view(int(rows[4]["identifier"]))
    assert after and ("it", "Arpe") in after.pref


def test_a_large_table_is_csv(lists: Site, anna: Client, monkeypatch: pytest.MonkeyPatch) -> None:  # noqa: F811
    monkeypatch.setattr("thesaurus_desk.web.spreadsheets.MOST_CELLS", 20)
    refused = anna.get("/tree?format=xlsx")
    assert refused.status_code == 409 and "Choose fewer columns, or CSV." in refused.text
    assert anna.get("/tree?format=csv").status_code == 200


@pytest.mark.parametrize("kind", ["", "translations", "renames", "moves", "merges", "postings"])
def test_the_journal_as_a_table_changes_nothing(lists: Site, anna: Client, kind: str) -> None:  # noqa: F811
    """It is no list of concepts, and says what was done: nothing of that is done again."""
    page = send(anna, "/bring-in/table", anna.get("/changes.csv").data, "changes.csv", kind=kind, tag="en")
    run = last_upload(lists, TableRun)
    assert page.status_code == 200 and run.plans and not [it for it in run.plans if it.changes]


def test_collections_have_their_members(lists: Site, anna: Client) -> None:  # noqa: F811
    rows = list(csv.DictReader(io.StringIO(anna.get("/collections?format=csv").text[1:])))
    view = lists.desk.replica.view(int(rows[0]["identifier"]))
    assert view and len(rows[0]["members"].split(" | ")) == len(view.members) > 0
    rows[0]["members"] += " | Pedal harps"
    out = io.StringIO()
    csv.DictWriter(out, list(rows[0])).writerows([dict(zip(rows[0], rows[0])), rows[0]])
    page = send(anna, "/bring-in/table", out.getvalue().encode())
    assert "1 row was done." in perform(anna, page, "/bring-in/table/perform").text
    after = lists.desk.replica.view(view.number)
    assert after and {*after.members} - {*view.members} == {number(lists, "Pedal harps")}


def test_a_row_of_what_has_ended_changes_nothing(lists: Site, anna: Client) -> None:  # noqa: F811
    (hit,) = lists.desk.replica.named("Old lyres", live=False)
    page = send(anna, "/bring-in/table", f"number,term,pref@de\n{hit.number},Old lyres,Leiern\n".encode())
    assert "is deprecated" in text_of(page)


DEFINED = "Term;Provenance;Old code;Broader term\nKotos;A zither.;K1;Harps\n"


@pytest.mark.parametrize(
    ("language", "said"),
    [("en", "One column wasn’t understood"), ("de", "Eine Spalte wurde nicht verstanden"), ("fr", "Une colonne")],
)
def test_a_column_that_isnt_understood_is_named(anna: Client, language: str, said: str) -> None:  # noqa: F811
    """Openly, with a choice of what it holds; the others are in a fold."""
    anna.http.set_cookie("localhost", "pages", language)
    page = send(anna, "/bring-in/table", DEFINED.encode(), kind="new", tag="en").text
    before, _, fold = page.partition("<details")
    assert (
        said in before and "<bdi>Provenance</bdi>" in before and 'name="column-1"' in before and "A zither." in before
    )
    assert "<bdi>Old code</bdi>" not in before and 'name="column-2"' in fold


def test_a_column_is_chosen(site: Site, anna: Client) -> None:  # noqa: F811
    """An old code is kept as a hidden term; what isn't understood is what its reader says."""
    page = send(anna, "/bring-in/table", DEFINED.encode(), kind="new", tag="en")
    assert "scope note" not in text_of(page).partition("What it does")[2]
    name = re.search(r'name="name" value="([^"]+)"', page.text)
    assert name
    chosen = {"name": name[1], "column-1": "scope@en", "column-2": "code", "column-0": "nonsense@@"}
    again = anna.post("/bring-in/table/columns", chosen)
    assert again.status_code == 200 and "wasn’t understood" not in again.text
    done = perform(anna, again, "/bring-in/table/perform")
    assert "1 row was done." in done.text, text_of(done)
    view = site.desk.replica.view(number(site, "Kotos"))
    assert view and view.scope == (("en", "A zither."),) and view.hidden == (("zxx", "K1"),)


def test_a_column_left_out_by_choice_is_not_asked_for(anna: Client) -> None:  # noqa: F811
    page = send(anna, "/bring-in/table", DEFINED.encode(), kind="new", tag="en")
    name = re.search(r'name="name" value="([^"]+)"', page.text)
    assert name
    again = anna.post("/bring-in/table/columns", {"name": name[1], "column-1": "-"})
    assert again.status_code == 200 and "wasn’t understood" not in again.text
    assert anna.post("/bring-in/table/columns", {"name": "other", "column-1": "-"}).status_code == 409
