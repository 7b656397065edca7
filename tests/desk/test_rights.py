"""Who may do what, as the head settles it: by forms, tables, proposals and what takes changes back."""
from __future__ import annotations

import pytest
from asking import done, link, new, post, view
from clients import Client, Site, text_of
from reader import Reader
from thesaurus_desk.auth.roles import Role
from thesaurus_desk.journal.rights import ACTS, Rights, write_rights
from thesaurus_desk.store.plan_execution import Desk

VIOLINS, BOWED, HARPS = 5, 4, 11


@pytest.fixture
def ben(site: Site) -> Client:
    """The browser of an editor."""
    return site.client("ben")


def settle(desk: Desk, **acts: Role) -> None:
    """Settles the lowest roles of acts."""
    write_rights(desk.journal, Rights(lowest={**ACTS, **acts}))


def reader_of(site: Site, name: str) -> Reader:
    """Someone with a name at a desk."""
    site.app.testing = True
    return Reader(site.app, site.client(name).http)


# --- merge and split where no record moves ---


def test_an_editor_merges_a_concept_without_records(site: Site, desk: Desk, ben: Client) -> None:
    empty, full = (done(desk, new(it)).made or 0 for it in ("Rebecs", "Crwths"))
    done(desk, post("k1", full))
    assert f"/c/{empty}/merge" in ben.get(f"/c/{empty}").text and f"/c/{full}/merge" not in ben.get(f"/c/{full}").text
    assert ben.get(f"/c/{full}/merge").status_code == 403
    sent = {"form": "merge", "sure": "1"}
    assert ben.post(f"/c/{full}/merge", {**sent, "other_number": empty}).status_code == 403
    assert view(desk, full).is_live
    answer = ben.post(f"/c/{empty}/merge", {**sent, "other_number": full})
    assert answer.status_code == 303 and desk.replica.final(empty) == full
    plan = desk.journal.last_plan()
    assert ben.post(f"/changes/{plan}/back").status_code == 303, "and takes it back, though the other one has records"


def test_an_editor_merges_without_records_by_a_table(site: Site, desk: Desk) -> None:
    done(desk, new("Rebecs"))
    done(desk, new("Crwths"), post("k1", "$1"))
    ben = reader_of(site, "ben")
    page = ben.send(ben.get("/bring-in").form("table"), kind="", typed="concept,into\nRebecs,Crwths\nCrwths,Violins\n")
    assert "Your role may not do this here" in page.text
    ben.send(next(it for it in page.forms if it.action == "/bring-in/table/perform"))
    assert desk.replica.named("Rebecs")[0].number and not desk.replica.is_live(desk.replica.named("Rebecs")[0].number)
    assert desk.replica.is_live(desk.replica.named("Crwths", live=True)[0].number)


def test_an_editor_splits_a_concept_without_records(desk: Desk, ben: Client) -> None:
    empty = done(desk, new("Rebecs")).made or 0
    sent = {"form": "split", "tag": "en", "place": "none"}
    assert ben.get(f"/c/{empty}/split").status_code == 200
    assert ben.post(f"/c/{empty}/split", {**sent, "text": "Small rebecs"}).status_code == 303
    done(desk, post("k1", empty))
    assert ben.get(f"/c/{empty}/split").status_code == 403
    number = desk.replica.postings.numbers_at(empty)[0]
    fields = {**sent, "text": "Large rebecs", "posting": number, "ticked": number, "shown": number}
    answer = ben.post(f"/c/{empty}/split", fields)
    assert answer.status_code in (303, 403)
    assert desk.replica.postings.numbers_at(empty) == [number], "no record has moved"


def test_the_head_may_leave_all_merges_to_heads(desk: Desk, ben: Client) -> None:
    write_rights(desk.journal, Rights(without_records=False))
    empty = done(desk, new("Rebecs")).made or 0
    assert f"/c/{empty}/merge" not in ben.get(f"/c/{empty}").text
    for path in (f"/c/{empty}/merge", f"/c/{empty}/split"):
        assert ben.get(path).status_code == 403
    assert ben.post(f"/c/{empty}/merge", {"form": "merge", "sure": "1", "other_number": HARPS}).status_code == 403
    assert view(desk, empty).is_live


# --- acts ---


@pytest.mark.parametrize(
    ("act", "path"),
    [("merge", f"/c/{VIOLINS}/merge"), ("split", f"/c/{VIOLINS}/split"), ("fields", "/fields")],
)
def test_an_act_that_editors_do(desk: Desk, ben: Client, act: str, path: str) -> None:
    done(desk, post("k1", VIOLINS))
    assert ben.get(path).status_code == 403
    settle(desk, **{act: Role.EDITOR})
    assert ben.get(path).status_code == 200
    assert ben.site.client("ina").get(path).status_code == 403
    assert ('href="/fields"' in ben.get("/").text) == (act == "fields")


def test_editors_deprecate_where_the_head_says_so(desk: Desk, ben: Client) -> None:
    made = done(desk, new("Rebecs")).made or 0
    assert ben.post(f"/c/{made}/deprecate", {"form": "deprecate"}).status_code == 403
    assert "deprecate" not in ben.get(f"/c/{made}").text
    settle(desk, deprecate=Role.EDITOR)
    assert f'href="/c/{made}?open=deprecate#at-deprecate"' in ben.get(f"/c/{made}").text
    assert f'action="/c/{made}/deprecate"' in ben.get(f"/c/{made}?open=deprecate").text
    assert ben.post(f"/c/{made}/deprecate", {"form": "deprecate"}).status_code == 303
    assert not view(desk, made).is_live


def test_editors_import_vocabularies_where_the_head_says_so(desk: Desk, ben: Client) -> None:
    assert 'action="/bring-in/skos"' not in ben.get("/bring-in").text
    assert ben.post("/bring-in/skos", {"form": "skos", "tag": "en"}).status_code == 403
    settle(desk, **{"import": Role.EDITOR})
    assert 'action="/bring-in/skos"' in ben.get("/bring-in").text
    assert ben.post("/bring-in/skos", {"form": "skos", "tag": "en"}).status_code == 409, "there is no file"


# --- by thesaurus ---


def test_a_thesaurus_that_some_editors_change(site: Site, desk: Desk, ben: Client) -> None:
    other = done(desk, {"do": "scheme", "tag": "en", "text": "Places"}).made or 0
    absam = done(desk, {"do": "concept", "scheme": other, "tag": "en", "text": "Absam"}).made or 0
    acts = {**dict.fromkeys(ACTS, "head"), "records": "1", "approver": "editor"}
    anna = site.client("anna")
    assert "Who may change which thesaurus" in anna.get("/rights").text
    assert anna.post("/rights", {**acts, f"some-{other}": "1"}).status_code == 303
    assert desk.rights().people == {other: frozenset()}
    term = {"form": "add-term", "kind": "alt", "tag": "en"}
    refused = ben.post(f"/c/{absam}/terms/add", {**term, "text": "Absom"})
    assert refused.status_code == 403 and "an administrator sets" in text_of(refused)
    new_one = ben.post("/new", {"form": "new", "scheme": other, "tag": "en", "text": "Hall", "kind": "broaderGeneric"})
    assert new_one.status_code == 403 and not desk.replica.named("Hall")
    assert ben.post(f"/c/{VIOLINS}/terms/add", {**term, "text": "Old violins"}).status_code == 303
    match = {"do": "link", "kind": "close", "a": VIOLINS, "b": absam}
    assert desk.rights("ben").lowest_role([match]) == Role.EDITOR, "a mapping is its maker's"
    assert ben.post("/record/add", {"record": "r", "other_number": absam, "other": "Absam"}).status_code in (303, 409)
    plan = desk.perform(
        "anna", "term", [{"do": "addLabel", "owner": absam, "kind": "alt", "tag": "de", "text": "A"}]
    ).plan
    assert ben.post(f"/changes/{plan}/back").status_code == 403, "nor by taking back"
    assert anna.post("/rights", {**acts, f"some-{other}": "1", f"people-{other}": ["ben", "nobody"]}).status_code == 303
    assert desk.rights().people == {other: frozenset({"ben"})}
    assert ben.post(f"/changes/{plan}/back").status_code == 303
    assert ben.post(f"/c/{absam}/terms/add", {**term, "text": "Absom"}).status_code == 303


def test_a_proposal_for_a_thesaurus_of_others(site: Site, desk: Desk) -> None:
    rita = reader_of(site, "rita")
    form = rita.get(f"/propose?concept={VIOLINS}&kind=alt").form("propose")
    rita.send(form, kind="alt", text="Small viols", reason="We say so.")
    write_rights(desk.journal, Rights(people={1: frozenset()}))
    ben = reader_of(site, "ben")
    page = ben.send(ben.get("/proposals/1").form("accept"))
    assert page.status == 409 and "an administrator sets" in page.text
    anna = reader_of(site, "anna")
    assert anna.send(anna.get("/proposals/1").form("accept")).status == 200
    assert ("en", "Small viols") in view(desk, VIOLINS).alt


def test_what_was_settled_is_read_again(desk: Desk) -> None:
    settled = Rights(Role.HEAD, True, {**ACTS, "merge": Role.EDITOR}, False, {1: frozenset({"ben"})})
    write_rights(desk.journal, settled)
    assert desk.rights() == settled
    write_rights(desk.journal, Rights())
    assert desk.rights() == Rights()


def test_a_link_between_concepts_of_a_thesaurus_of_others(desk: Desk) -> None:
    write_rights(desk.journal, Rights(people={1: frozenset({"ben"})}))
    for name, lowest in (("ben", Role.EDITOR), ("bea", Role.HEAD)):
        assert desk.rights(name).lowest_role([link("link", "broader", HARPS, BOWED)]) == lowest
        assert desk.rights(name).lowest_role([post("k", HARPS)]) == Role.INDEXER


def test_an_indexer_imports_posting_files(desk: Desk) -> None:
    assert desk.rights("ina").lowest_role([{"do": "import", "name": "x.csv"}]) == Role.INDEXER


def test_what_moved_records_stays_of_heads(site: Site, desk: Desk, ben: Client) -> None:
    """By now the source has no records: those that the merge has moved decide."""
    source = done(desk, new("Rebecs"), post("k1", "$1")).made or 0
    plan = done(desk, {"do": "merge", "source": source, "target": VIOLINS}).plan
    assert f"/changes/{plan}/back" not in ben.get("/changes").text
    assert ben.post(f"/changes/{plan}/back").status_code == 403
    assert site.client("anna").post(f"/changes/{plan}/back").status_code == 303
