"""Records: indexed, re-indexed and withdrawn, at a concept, at the record, and many at once."""
from __future__ import annotations

import re

import pytest
from clients import Site, text_of
from reader import Reader, read_page
from thesaurus_desk.store.model import Posting
from thesaurus_desk.store.plan_execution import Desk

BOWED, VIOLINS, VIOLAS, FIDDLES = 4, 5, 6, 31
STAINER = "Violin, Jacob Stainer, Absam 1668"


def post_many(desk: Desk, count: int, concept: int = VIOLINS) -> None:
    requests = [{"do": "post", "key": f"k-{n}", "record": f"Violin {n:04}", "concept": concept} for n in range(count)]
    assert desk.perform("anna", "post", requests, may_cut=True).is_done


def standing(desk: Desk, record: str) -> list[Posting]:
    return [it for it in desk.replica.postings.of_record(record) if not it.is_withdrawn]


def test_a_record_is_indexed_at_a_concept(reader: Reader, desk: Desk) -> None:
    form = reader.get(f"/c/{VIOLINS}").form("post")
    assert "not the inventory number" in form.text
    page = reader.send(form, record=STAINER)
    assert STAINER in page.text and "1 record" in page.text
    assert "Indexing 1" in page.text and form.value("key") not in page.text
    assert reader.get(f"/search?q={form.value('key')}").path == "/posting/1"
    assert standing(desk, STAINER)[0].key == form.value("key")
    page = reader.send(reader.get(f"/c/{VIOLINS}").form("post"), record=STAINER)
    assert page.status == 409 and "is already indexed with Violins" in page.form("post").text
    assert page.form("post").invalid == {"record"}


@pytest.mark.parametrize(
    ("fields", "field", "part"),
    [
        ({"record": ""}, "record", "Write the name of the record"),
        ({"record": "x" * 129}, "record", "is one character too long"),
        ({"record": "Other", "key": "a b"}, "key", "“a b” can’t be a key"),
        ({"record": "Other", "key": "k-0"}, "key", "belongs to the record Violin 0000, indexed with Violas"),
    ],
)
def test_a_record_that_is_refused(reader: Reader, desk: Desk, fields: dict[str, str], field: str, part: str) -> None:
    post_many(desk, 1, VIOLAS)
    page = reader.send(reader.get(f"/c/{VIOLINS}").form("post"), **fields)
    form = page.form("post")
    assert page.status == 409 and part in form.text and form.invalid == {field}
    assert form.value("record") == fields["record"] and desk.replica.postings.count_at(VIOLINS) == 0


def test_a_key_that_no_field_shows(reader: Reader, desk: Desk) -> None:
    """What is wrong with it is said of the form."""
    post_many(desk, 1, VIOLAS)
    page = reader.send(reader.get(f"/record?name={STAINER}").form("add"), other="Violins")
    for form in ("add", "reindex-2"):
        refused = reader.send(page.form(form), other="Harps", key="k-0")
        assert refused.status == 409 and "belongs to the record Violin 0000" in refused.alerts
        assert refused.form(form).invalid == set() and refused.form(form).value("other") == "Harps"


def test_a_record_is_withdrawn_at_a_concept(reader: Reader, desk: Desk) -> None:
    post_many(desk, 2)
    page = reader.send(reader.get(f"/c/{VIOLINS}").form("withdraw", posting="1"))
    assert "Violin 0001" in page.text and desk.replica.postings.count_at(VIOLINS) == 1
    stale = reader.get(f"/c/{VIOLINS}").form("withdraw", posting="2")
    reader.send(page.form("withdraw", posting="2"))
    page = reader.send(stale)
    assert page.status == 409 and "has been withdrawn" in page.alerts


def test_a_record_that_is_listed_twice_is_counted_once(reader: Reader, desk: Desk) -> None:
    post_many(desk, 3)
    posts = [{"do": "post", "key": f"f-{n}", "record": f"Violin {n:04}", "concept": FIDDLES} for n in (1, 1, 7)]
    for n, it in enumerate(posts):
        assert desk.perform("anna", "post", [{**it, "key": f"f-{n}"}]).is_done
    page = reader.get(f"/c/{FIDDLES}")
    assert "2 records" in page.text and "1 record is listed more than once." in page.text
    page = reader.get(f"/c/{FIDDLES}/merge?other_number={VIOLINS}")
    assert "2 records move to Violins. 1 of them already has Violins" in page.text
    page = reader.send(page.form("merge"), sure="1")
    assert "Fiddles: merged into Violins, and 2 records moved" in page.text
    assert "4 records" in page.text and "1 record is listed more than once." in page.text
    assert [line.count("again") for line in page.html.split('<ul class="postings">')[1].split("<li>")[1:7]] == [
        *(0, 0, 0),
        *(1, 1, 0),
    ]
    assert "4 with narrower concepts" in reader.get(f"/c/{BOWED}").text
    for number in ("4", "5"):
        page = reader.send(page.form("withdraw", posting=number))
    assert "4 records" in page.text and "more than once" not in page.text and ">again<" not in page.html


def test_records_in_pages_with_those_below(reader: Reader, desk: Desk) -> None:
    post_many(desk, 250)
    page = reader.get(f"/c/{VIOLINS}?page=2")
    assert "Violin 0200" in page.text and "Violin 0199" not in page.text
    assert f"/c/{VIOLINS}?page=1#records" in page.links()
    page = reader.get(f"/c/{BOWED}")
    assert "0 records" in page.text and "250 with narrower concepts" in page.text and "Violin 0001" not in page.text
    page = reader.get(f"/c/{BOWED}?with=below&page=1")
    assert "Violin 0100" in page.text and "Violin 0099" not in page.text and f"/c/{VIOLINS}" in page.links()
    assert f"/c/{BOWED}?with=below&amp;page=2#records" in page.links()
    for path, count in ((f"/c/{VIOLINS}/records.csv", 250), (f"/c/{BOWED}/records.csv?with=below", 250)):
        heading, *rows = reader.get(path).html.splitlines()
        assert heading == "\ufeffKey,record,identifier,term" and len(rows) == count
        assert rows[0] == f"k-0,Violin 0000,{VIOLINS},Violins"
    assert reader.get("/c/1/records.csv").status == 404


def test_a_record_has_its_page(reader: Reader, desk: Desk) -> None:
    page = reader.get(f"/record?name={STAINER}")
    assert "It isn’t indexed yet." in page.text
    page = reader.send(page.form("add"), other="violins")
    page = reader.send(page.form("add"), other="Violas")
    assert {it.place for it in standing(desk, STAINER)} == {VIOLINS, VIOLAS}
    form = page.form("reindex-1")
    page = reader.send(form, other="Fiddles")
    assert {it.place for it in standing(desk, STAINER)} == {FIDDLES, VIOLAS} and "Withdrawn" in page.text
    assert len(desk.history.recent()[0].steps) == 2
    page = reader.send(page.form("withdraw", posting="2"))
    assert {it.place for it in standing(desk, STAINER)} == {FIDDLES}
    page = reader.send(page.form("withdraw", posting="3"))
    assert "It isn’t indexed now." in page.text and "yet" not in page.text


@pytest.mark.parametrize(
    ("form", "other", "part"),
    [
        ("add", "Violins", "is already indexed with Violins"),
        ("add", "Trombones", "No concept has the term"),
        ("reindex-1", "Violins", "is already indexed with Violins"),
        ("reindex-1", "", "The field is empty"),
    ],
)
def test_what_is_refused_at_a_record(reader: Reader, desk: Desk, form: str, other: str, part: str) -> None:
    page = reader.get(f"/record?name={STAINER}")
    page = reader.send(page.form("add"), other="Violins")
    page = reader.send(page.form(form), other=other)
    assert page.status == 409 and part in page.form(form).text and page.form(form).invalid == {"other"}
    assert [it.place for it in standing(desk, STAINER)] == [VIOLINS]


def test_records_are_found_by_a_part_of_their_names(reader: Reader, desk: Desk) -> None:
    post_many(desk, 60)
    assert "Type the name of a record to see or index it." in reader.get("/record").text
    page = reader.get("/record?like=violin")
    assert "Type the name" not in page.text
    assert "Violin 0000" in page.text and "and more" in page.text
    page = reader.get("/record?like=0042")
    assert "Violin 0042" in page.text and "Violin 0041" not in page.text
    assert "No record has “tuba” in its name or title." in reader.get("/record?like=tuba").text


def test_a_posting_shows_its_moves(reader: Reader, desk: Desk) -> None:
    post_many(desk, 1, FIDDLES)
    assert desk.perform("anna", "merge", [{"do": "merge", "source": FIDDLES, "target": VIOLINS}]).is_done
    page = reader.get("/posting/1")
    assert "Violin 0000" in page.text and "k-0" in page.text and "move 1" in page.text
    assert reader.get("/posting/2").status == 404


def test_ticked_records_are_re_indexed_as_one(reader: Reader, desk: Desk) -> None:
    post_many(desk, 150)
    assert "Move records to another concept…" in reader.get(f"/c/{VIOLINS}").text
    page = reader.send(reader.get(f"/c/{VIOLINS}/records").form("reindex"), ("go", "1"), posting=["5"])
    page = reader.send(page.form("reindex"), ("do", "ticked"), posting=["120"], other="Violas")
    assert desk.replica.postings.count_at(VIOLINS) == 148 and desk.replica.postings.count_at(VIOLAS) == 2
    assert [it.place for it in standing(desk, "Violin 0004")] == [VIOLAS]
    assert len(desk.history.recent()[0].steps) == 4 and page.path == f"/c/{VIOLINS}/records"


def test_all_records_are_re_indexed(reader: Reader, desk: Desk) -> None:
    post_many(desk, 150)
    reader.send(reader.get("/record?name=Violin 0007").form("add"), other="Violas")
    page = reader.send(reader.get(f"/c/{VIOLINS}/records").form("reindex"), ("do", "all"), other="Violas")
    assert page.path == f"/c/{VIOLINS}" and desk.replica.postings.count_at(VIOLINS) == 0
    assert desk.replica.postings.count_at(VIOLAS) == 150 and len(standing(desk, "Violin 0007")) == 1


def test_ticked_records_are_withdrawn(reader: Reader, desk: Desk) -> None:
    post_many(desk, 3)
    reader.send(reader.get(f"/c/{VIOLINS}/records").form("reindex"), ("do", "withdraw"), posting=["1", "3"])
    assert desk.replica.postings.numbers_at(VIOLINS) == [2]


@pytest.mark.parametrize(
    ("fields", "do", "part"),
    [
        ({"other": "Violas"}, "ticked", "No record is ticked"),
        ({"other": "Trombones", "posting": ["1"]}, "ticked", "No concept has the term"),
        ({"other": "Violins", "posting": ["1"]}, "ticked", "indexed with this concept already"),
        ({}, "withdraw", "No record is ticked"),
    ],
)
def test_what_is_refused_for_many(
    reader: Reader, desk: Desk, fields: dict[str, str | list[str]], do: str, part: str
) -> None:
    post_many(desk, 2)
    page = reader.send(reader.get(f"/c/{VIOLINS}/records").form("reindex"), ("do", do), **fields)
    form = page.form("reindex")
    assert page.status == 409 and part in form.text and desk.replica.postings.count_at(VIOLINS) == 2
    assert form.values("posting") == fields.get("posting", [])


def test_an_unknown_term_is_proposed(site: Site) -> None:
    """An indexer who types one sees those that are spelled alike, and proposes it with the record as the reason."""
    ina = site.client("ina")
    answer = ina.post("/record/add", {"form": "add", "record": "Harp 7", "other": "Violnis", "key": "k-1"})
    page = text_of(answer)
    assert answer.status_code == 409 and "Did you mean one of these" in page
    assert re.search(r'name="chosen" value="5"', answer.text) and "If none fits, propose" in page
    (path,) = re.findall(r'href="(/propose\?[^"]*)"', answer.text)
    (form,) = [it for it in read_page(ina.get(path.replace("&amp;", "&")).text).forms if it.name == "propose"]
    assert [form.value(it) for it in ("kind", "text")] == ["concept", "Violnis"]
    assert form.value("reason") == "for the record Harp 7"
    assert ina.post("/propose", dict(form.fields), token=None).status_code == 303
    assert [it.user for it in site.desk.proposals.find(state="open")] == ["ina"]
    known = ina.post("/record/add", {"form": "add", "record": "Harp 7", "other": "", "key": "k-1"})
    assert known.status_code == 409 and "/propose?" not in known.text


def test_the_members_of_a_collection_are_removed_at_once(site: Site) -> None:
    """The collection itself stays, and its page says so."""
    desk, ben = site.desk, site.client("ben")
    (collection,) = desk.replica.numbers("collection")
    members = desk.replica.view(collection).members  # type: ignore[union-attr]
    page = ben.get(f"/c/{collection}")
    assert len(members) > 1 and "nothing removes it" in text_of(page)
    (form,) = [it for it in read_page(page.text).forms if it.name == "remove-members"]
    answer = ben.post(form.action, dict(form.fields))
    assert answer.status_code == 303 and not desk.replica.view(collection).members  # type: ignore[union-attr]
    plan = desk.journal.last_plan()
    assert ben.post(f"/changes/{plan}/back", {}).status_code == 303
    assert desk.replica.view(collection).members == members  # type: ignore[union-attr]
    assert "remove-members" not in site.client("ina").get(f"/c/{collection}").text
