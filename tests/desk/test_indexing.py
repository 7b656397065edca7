"""A record is indexed with all its concepts at once: what is ticked is posted, what isn't any more is withdrawn."""
from __future__ import annotations

import re
from typing import Any

import pytest
from clients import Client, Site, text_of
from reader import Form, Page, Reader, read_page
from thesaurus_desk.store.plan_execution import Desk

BOWED, VIOLINS, VIOLAS, HARPS, FIDDLES = 4, 5, 6, 11, 31
STAINER = "Violin, Jacob Stainer, Absam 1668"
SAVE, LOOK = ("do", "save"), ("do", "look")


def open_record(reader: Reader, record: str = STAINER) -> Page:
    return reader.send(next(it for it in reader.get("/index").forms if it.action == "/index"), record=record)


def form_of(client: Client, record: str = STAINER) -> Form:
    page = client.get(f"/index?record={record}")
    assert page.status_code == 200
    return next(it for it in read_page(page.text).forms if it.name == "index")


def sent(form: Form, *concepts: int, **fields: str) -> dict[str, Any]:
    """Returns what a browser sends of a form in which some concepts are ticked."""
    kept = {name: value for name, value in form.fields if name not in ("concept", "token")}
    return {**kept, "do": "save", "concept": [str(it) for it in concepts], **fields}


def index(desk: Desk, *concepts: int, record: str = STAINER) -> None:
    posts = [{"do": "post", "key": f"k-{it}", "record": record, "concept": it} for it in concepts]
    assert desk.perform("ina", "post", posts).is_done


def concepts_of(desk: Desk, record: str = STAINER) -> list[int]:
    """Returns the concepts of the standing postings of a record."""
    return sorted(it.place for it in desk.replica.postings.of_record(record) if not it.is_withdrawn)


def test_a_record_is_indexed_as_one_plan(reader: Reader, desk: Desk) -> None:
    index(desk, FIDDLES, VIOLAS)
    page = open_record(reader)
    assert page.form("index").values("concept") == [str(VIOLAS), str(FIDDLES)]
    page = reader.send(page.form("index"), LOOK, other="Violins")
    page = reader.send(page.form("index"), LOOK, other="Harps")
    assert set(page.form("index").values("concept")) == {"5", "6", "11", "31"} and concepts_of(desk) == [
        VIOLAS,
        FIDDLES,
    ]
    plans = desk.journal.last_plan()
    page = reader.send(page.form("index"), SAVE, concept=["5", "11", "31"])
    assert page.path == "/index" and concepts_of(desk) == [VIOLINS, HARPS, FIDDLES]
    assert desk.journal.last_plan() == plans + 1
    plan = desk.journal.plan(plans + 1)
    assert plan and [it.request["do"] for it in plan.steps] == ["post", "post", "withdraw"]


def test_what_was_withdrawn_is_indexed_anew(reader: Reader, desk: Desk) -> None:
    """Each posting has a key that none has had."""
    wanted: list[list[str]] = [["5"], [], ["5"], [], ["5"]]
    for concepts in wanted:
        form = reader.send(open_record(reader).form("index"), LOOK, other="Violins").form("index")
        reader.send(form, SAVE, concept=concepts)
        assert concepts_of(desk) == [int(it) for it in concepts]
    keys = [it.key for it in desk.replica.postings.of_record(STAINER)]
    assert len(keys) == 3 == len(set(keys))


def test_a_form_that_is_sent_twice_posts_once(site: Site) -> None:
    ina, desk = site.client("ina"), site.desk
    fields = sent(form_of(ina), VIOLINS)
    for _ in range(2):
        assert ina.post("/index", fields).status_code == 303
    assert len(desk.replica.postings.of_record(STAINER)) == 1
    # (also one without the key of its page, as it was made before)
    answer = ina.post("/index", {**fields, "once": ""})
    assert answer.status_code == 409 and len(desk.replica.postings.of_record(STAINER)) == 1


def test_who_opens_a_record_second_is_told(site: Site) -> None:
    ina, ben = site.client("ina"), site.client("ben")
    assert "opened by" not in text_of(ina.get(f"/index?record={STAINER}"))
    assert "Also opened by ina." in text_of(ben.get(f"/index?record={STAINER}"))
    assert "opened by" not in text_of(ben.get("/index?record=Harp 7"))
    assert ina.post("/index", sent(form_of(ina), VIOLINS)).status_code == 303
    assert "opened by" not in text_of(ben.get(f"/index?record={STAINER}"))


def test_what_a_colleague_has_changed_meanwhile(site: Site) -> None:
    """Nothing is saved; the page says what has changed, and keeps what is ticked. Sent again, it holds for both."""
    ina, ben, desk = site.client("ina"), site.client("ben"), site.desk
    index(desk, VIOLAS, FIDDLES)
    mine, others = form_of(ina), form_of(ben)
    assert ben.post("/index", sent(others, FIDDLES, HARPS)).status_code == 303
    answer = ina.post("/index", sent(mine, VIOLAS, FIDDLES, VIOLINS))
    assert answer.status_code == 409 and concepts_of(desk) == [HARPS, FIDDLES]
    alert = next(it for it in re.findall(r'class="why".*?</div>', answer.text, re.S) if "colleague" in it)
    assert [int(it) for it in re.findall(r'href="/c/([0-9]+)"', alert)] == [HARPS, VIOLAS]
    assert re.search(r"\+ <a[^>]*>Harps</a>, − <a[^>]*>Violas</a>", alert)
    again = next(it for it in read_page(answer.text).forms if it.name == "index")
    assert set(again.values("concept")) == {str(it) for it in (VIOLINS, HARPS, FIDDLES)}
    assert ina.post("/index", sent(again, *map(int, again.values("concept")))).status_code == 303
    assert concepts_of(desk) == [VIOLINS, HARPS, FIDDLES]


def test_a_merge_meanwhile_changes_nothing_for_a_form(site: Site) -> None:
    ina, desk = site.client("ina"), site.desk
    index(desk, FIDDLES)
    form = form_of(ina)
    assert desk.perform("anna", "merge", [{"do": "merge", "source": FIDDLES, "target": VIOLINS}]).is_done
    assert ina.post("/index", sent(form, FIDDLES, HARPS)).status_code == 303
    assert concepts_of(desk) == [VIOLINS, HARPS]


@pytest.mark.parametrize("path", ["/index", "/record/reindex", "/c/31/records"])
def test_an_unknown_term_is_proposed_wherever_a_record_is_indexed(site: Site, path: str) -> None:
    ina, desk = site.client("ina"), site.desk
    index(desk, FIDDLES, record="Harp 7")
    form = "reindex-151" if path == "/record/reindex" else path.removeprefix("/") if path == "/index" else "reindex"
    number = str(desk.replica.postings.of_record("Harp 7")[0].number)
    fields = {"form": form.replace("151", number), "record": "Harp 7", "posting": number, "other": "Violnis"}
    answer = ina.post(path, {**fields, "do": "save" if path == "/index" else "ticked", "key": ""})
    assert answer.status_code == 409 and "Did you mean one of these" in text_of(answer)
    (proposal,) = re.findall(r'href="(/propose\?[^"]*)"', answer.text)
    asked = next(it for it in read_page(ina.get(proposal.replace("&amp;", "&")).text).forms if it.name == "propose")
    assert asked.value("text") == "Violnis"
    assert asked.value("reason") == ("for records of Fiddles" if form == "reindex" else "for the record Harp 7")


def test_a_record_whose_key_is_too_long(site: Site) -> None:
    ina = site.client("ina")
    answer = ina.post("/index", sent(form_of(ina, "x" * 129), VIOLINS))
    assert answer.status_code == 409 and "one character too long" in text_of(answer)
    assert ina.get(f"/index?record={STAINER}").status_code == 200
    assert site.client("rita").get("/index").status_code == 403
