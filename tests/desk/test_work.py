"""The status of a concept, who is in charge of it, and who may approve it: on pages, in lists, in tables, in
proposals, and when it is taken back."""
from __future__ import annotations

import re
from pathlib import Path

import pytest
from asking import done, link, new, number, undo
from clients import Site, site_of, text_of
from reader import Page, Reader
from test_public_view import status
from thesaurus_desk.auth.roles import Role
from thesaurus_desk.journal.rights import ACTS, Rights, as_candidates, write_rights
from thesaurus_desk.journal.values import set_request
from thesaurus_desk.store.plan_execution import Desk

VIOLINS, BOWED = 5, "Bowed instruments"


def reader_of(site: Site, name: str) -> Reader:
    """Someone with a name at a desk."""
    site.app.testing = True
    return Reader(site.app, site.client(name).http)


def open_form(reader: Reader, number: int) -> Page:
    """The page of a concept with the form of its status open."""
    return reader.get(f"/c/{number}?change=work")


def send(reader: Reader, number: int, **fields: str) -> Page:
    """Sends the form of a status."""
    return reader.send(open_form(reader, number).form("work"), **fields)


def heads_approve(desk: Desk) -> None:
    """Has only heads approve."""
    write_rights(desk.journal, Rights(Role.HEAD))


# --- the page of a concept ---


def test_status_person_day_and_task_are_set_on_the_page(site: Site, desk: Desk) -> None:
    reader = reader_of(site, "ben")
    page = send(reader, VIOLINS, status="candidate", person="ben", due="2020-02-03", task="Compare\r\nthe sizes")
    assert page.status == 200
    for it in ("candidate", "ben is in charge", "due 2020-02-03", "overdue", "The public doesn’t see it"):
        assert it in page.text, it
    assert desk.replica.statuses() == {VIOLINS: "candidate"}
    assert reader.get(f"/c/{VIOLINS}").text.count("candidate") > 2, "it is in the tree, the head and the history"
    page = send(reader, VIOLINS, status="approved", due="")
    assert desk.replica.statuses() == {} and "overdue" not in page.text and "Compare" in page.text
    assert "Violins: approved" in page.text.replace(" : ", ": ")
    plans = desk.history.recent(number=VIOLINS)
    assert [it.action for it in plans[:2]] == ["work", "work"]


def test_the_mark_is_wherever_the_concept_is_named(site: Site, desk: Desk) -> None:
    bowed = number(desk, BOWED)
    done(desk, status(desk, VIOLINS, "candidate"))
    client = site.client("rita")
    for path in (f"/tree?at={VIOLINS}", f"/tree/{bowed}", "/search?q=violin&all=1", f"/c/{bowed}", "/az?letter=v"):
        assert 'class="status">candidate<' in client.get(path).text, path
    assert any("candidate" in it["note"] for it in client.get("/suggest?q=violins").json)
    ben = site.client("ben")
    for path in (f"/new/array?concept={bowed}", "/c/6/move"):
        assert re.search('value="5"[^>]*>.{0,80}class="status">candidate<', ben.get(path).text), path
    asked = ben.post("/c/11/links/add", {"form": "add-related", "kind": "related", "other": "viol"}).text
    assert re.search('name="chosen" value="5"[^>]*>.{0,80}class="status">candidate<', asked), "a choice of concepts"
    assert 'class="status"' not in client.get(f"/print/{bowed}").text
    assert 'class="status">candidate<' in client.get(f"/print/{bowed}?candidates=1").text


def test_someone_who_is_no_user(site: Site) -> None:
    page = send(reader_of(site, "ben"), VIOLINS, person="nobody else")
    form = page.form("work")
    assert page.status == 409 and form.invalid == {"person"} and "no user with this name" in form.text


def test_who_saw_another_status_is_shown_both(site: Site, desk: Desk) -> None:
    reader = reader_of(site, "ben")
    form = open_form(reader, VIOLINS).form("work")
    done(desk, status(desk, VIOLINS, "revise"))
    page = reader.send(form, status="candidate")
    assert page.status == 409 and "to be revised" in page.text and "candidate" in page.text
    again = next(it for it in page.forms if it.action == f"/c/{VIOLINS}/work")
    assert reader.send(again).status == 200 and desk.replica.statuses() == {VIOLINS: "candidate"}


def test_approving_below_a_candidate_says_why_it_is_refused(site: Site, desk: Desk) -> None:
    done(desk, status(desk, number(desk, BOWED), "candidate"), status(desk, VIOLINS, "candidate"))
    page = send(reader_of(site, "anna"), VIOLINS, status="approved")
    assert page.status == 409 and page.form("work").invalid == {"status"}
    assert f"is below the candidate {BOWED}" in page.form("work").text


def test_a_new_concept_as_a_candidate(site: Site, desk: Desk) -> None:
    reader = reader_of(site, "ben")
    page = reader.send(reader.get("/new").form("new"), text="Rebecs", candidate="1")
    assert page.status == 200 and desk.replica.statuses() == {number(desk, "Rebecs"): "candidate"}
    below = reader.get(f"/new?parent={number(desk, 'Rebecs')}").form("new")
    assert below.values("candidate") == ["1"], "what is below a candidate is first one"


# --- who may approve ---


def test_who_may_not_approve(site: Site, desk: Desk) -> None:
    heads_approve(desk)
    reader = reader_of(site, "ben")
    page = reader.get("/new")
    assert "It becomes a candidate until an administrator approves it" in page.text
    reader.send(page.form("new"), text="Rebecs")
    made = number(desk, "Rebecs")
    assert desk.replica.statuses() == {made: "candidate"}
    form = open_form(reader, made)
    assert "approved" not in form.form("work").text and "under review" in form.form("work").text
    assert send(reader, made, status="review").status == 200
    token = {"status": "approved", "form": "work", "person": "", "due": "", "task": ""}
    answer = site.client("ben").post(f"/c/{made}/work", token)
    assert answer.status_code == 403 and "Only administrators approve" in answer.text
    assert send(reader_of(site, "anna"), made, status="approved").status == 200
    assert site.client("ben").post(f"/c/{made}/work", {**token, "status": "candidate"}).status_code == 403
    assert desk.replica.statuses() == {}


def test_the_head_settles_who_approves(site: Site, desk: Desk) -> None:
    anna = site.client("anna")
    acts = {**dict.fromkeys(ACTS, "head"), "records": "1"}
    assert "Who approves concepts" in anna.get("/rights").text
    anna.post("/rights", {**acts, "approver": "head", "proposed": "1"})
    assert desk.rights() == Rights(Role.HEAD, True)
    anna.post("/rights", {**acts, "approver": "editor"})
    assert desk.rights() == Rights()
    assert anna.post("/rights", {**acts, "approver": "visitor"}).status_code == 400


@pytest.mark.parametrize("is_settled", [False, True])
def test_an_accepted_proposal_of_a_new_concept(site: Site, desk: Desk, is_settled: bool) -> None:
    rita, bowed = reader_of(site, "rita"), number(desk, BOWED)
    form = rita.get(f"/propose?concept={bowed}").form("propose")
    rita.send(form, kind="concept", text="Rebecs", reason="We have one.")
    write_rights(desk.journal, Rights(proposed_are_candidates=True) if is_settled else Rights(Role.HEAD))
    ben = reader_of(site, "ben")
    assert ben.send(ben.get("/proposals/1").form("accept")).status == 200
    assert desk.replica.statuses() == {number(desk, "Rebecs"): "candidate"}


def test_a_table_of_who_may_not_approve(site: Site, desk: Desk) -> None:
    heads_approve(desk)
    ben = reader_of(site, "ben")
    page = ben.send(ben.get("/bring-in").form("table"), kind="", typed="Term\nRebecs\n")
    assert "candidate" in page.text, "the preview says it"
    ben.send(next(it for it in page.forms if it.action == "/bring-in/table/perform"))
    assert desk.replica.statuses() == {number(desk, "Rebecs"): "candidate"}


def test_taking_back_needs_the_role_of_what_it_does(site: Site, desk: Desk) -> None:
    heads_approve(desk)
    done(desk, status(desk, VIOLINS, "candidate"))
    approved = done(desk, status(desk, VIOLINS, None)).plan
    assert site.client("ben").post(f"/changes/{approved}/back").status_code == 403
    assert site.client("anna").post(f"/changes/{approved}/back").status_code == 303
    assert desk.replica.statuses() == {VIOLINS: "candidate"}


def test_a_candidate_that_was_a_slip_is_taken_back_by_its_editor(site: Site, desk: Desk) -> None:
    heads_approve(desk)
    done(desk, status(desk, number(desk, BOWED), "candidate"))
    requests = as_candidates([new("Rebecs"), link("link", "broader", "$1", number(desk, BOWED))])
    made = desk.perform("ben", "new", requests)
    assert site.client("ben").post(f"/changes/{made.plan}/back").status_code == 303
    it = desk.replica.get(made.made or 0)
    assert it is not None and not it.is_live and desk.public.get(it.number) is None, "the public never saw it"


def test_a_deprecated_candidate_comes_back_as_one(desk: Desk) -> None:
    made = done(desk, *as_candidates([new("Rebecs")])).made
    ended = desk.journal.plan(done(desk, {"do": "deprecate", "concept": made}).plan or 0)
    assert ended is not None and undo(desk, "anna", desk.take_back(ended)).is_done
    assert desk.replica.statuses()[number(desk, "Rebecs")] == "candidate"


# --- merge and split ---


def test_merging_says_what_the_public_will_see(site: Site, desk: Desk) -> None:
    made = done(desk, *as_candidates([new("Rebecs")])).made
    anna = site.client("anna")
    assert "after the merge, the public sees its terms" in text_of(anna.get(f"/c/{made}/merge?other_number={VIOLINS}"))
    assert "the public doesn’t see by what" in text_of(anna.get(f"/c/{VIOLINS}/merge?other_number={made}"))
    done(desk, {"do": "merge", "source": VIOLINS, "target": made})
    assert desk.public.final(VIOLINS) is None and desk.public.resource(VIOLINS).replaced is None
    assert desk.replica.final(VIOLINS) == made


def test_a_part_of_a_candidate_is_one(site: Site, desk: Desk) -> None:
    done(desk, status(desk, VIOLINS, "review"), set_request(VIOLINS, "task", "", new="Split it"))
    anna = reader_of(site, "anna")
    page = anna.get(f"/c/{VIOLINS}/split")
    assert "Split it" not in page.text, "a task isn't copied"
    anna.send(page.form("split"), text="Baroque violins")
    assert desk.replica.statuses()[number(desk, "Baroque violins")] == "candidate"


# --- lists ---


def test_lists(site: Site, desk: Desk, users: Path) -> None:
    violas, drums = number(desk, "Violas"), number(desk, "Drums")
    done(desk, status(desk, VIOLINS, "candidate"), set_request(VIOLINS, "person", "", new="ben"))
    done(desk, set_request(violas, "due", "", new="2020-01-02"), set_request(drums, "due", "", new="2999"))
    ben, anna = site.client("ben"), site.client("anna")
    assert "1 concept in your charge 1 concept is due 1 candidate" in " ".join(text_of(ben.get("/")).split())
    assert "in your charge" not in text_of(anna.get("/"))
    for which, term in (("mine", "Violins"), ("due", "Violas"), ("candidates", "Violins")):
        text = text_of(ben.get(f"/lists/work/{which}"))
        assert term in text and "Drums" not in text, which
        rows = ben.get(f"/lists/work/{which}?format=csv").text.splitlines()
        assert len(rows) == 2 and term in rows[1], which
    assert "Violins" not in text_of(anna.get("/lists/work/mine"))
    assert "Status and tasks" in text_of(ben.get("/lists"))
    assert site.client("ben").get("/lists/work/other").status_code == 404
    done(desk, {"do": "deprecate", "concept": violas})
    assert "Violas" not in text_of(ben.get("/lists/work/due"))
    visitor = site_of(desk, users, is_public=True).client()
    assert visitor.get("/lists/work/candidates").status_code == 303 and "candidate" not in text_of(visitor.get("/"))


# --- tables ---


def send_table(reader: Reader, rows: str) -> Page:
    """Has a table performed, and returns the page that says what came of it."""
    page = reader.send(reader.get("/bring-in").form("table"), kind="", typed=rows)
    return reader.send(next(it for it in page.forms if it.action == "/bring-in/table/perform"))


def test_a_table_has_statuses(site: Site, desk: Desk) -> None:
    anna, violas = reader_of(site, "anna"), number(desk, "Violas")
    done(desk, status(desk, violas, "review"))
    send_table(anna, f"Number,Status,Task\n{VIOLINS},Kandidat,Compare\n{violas},approved,\n")
    assert desk.replica.statuses() == {VIOLINS: "candidate"}
    sheet = site.client("anna").get("/search?q=violins&format=csv").text
    assert "candidate" in sheet and "Compare" in sheet
    send_table(anna, f"Number,Status\n{VIOLINS},to be revised\n")
    assert desk.replica.statuses() == {VIOLINS: "revise"}
    page = anna.send(anna.get("/bring-in").form("table"), kind="", typed="Term,Statut\nRebecs,candidat\nX,unsaid\n")
    assert "1 row was refused" in page.text
    anna.send(next(it for it in page.forms if it.action == "/bring-in/table/perform"))
    assert desk.replica.statuses()[number(desk, "Rebecs")] == "candidate"


def test_a_list_with_statuses_comes_back_unharmed(site: Site, desk: Desk) -> None:
    done(desk, status(desk, VIOLINS, "review"), set_request(VIOLINS, "due", "", new="2999-01-02"))
    for language in ("en", "de", "fr"):
        client = site.client("anna")
        client.http.set_cookie("localhost", "pages", language)
        rows = client.get("/tree?format=csv").text.removeprefix("\ufeff")
        page = client.post("/bring-in/table", {"form": "table", "tag": "en", "typed": rows})
        assert page.status_code == 200 and "/bring-in/table/perform" not in page.text, (language, text_of(page)[:3000])


def test_a_table_by_which_an_editor_would_approve(site: Site, desk: Desk) -> None:
    heads_approve(desk)
    done(desk, status(desk, VIOLINS, "candidate"))
    ben = reader_of(site, "ben")
    page = ben.send(ben.get("/bring-in").form("table"), kind="", typed=f"Number,Status\n{VIOLINS},approved\n")
    assert "1 row was refused" in page.text and desk.replica.statuses() == {VIOLINS: "candidate"}
