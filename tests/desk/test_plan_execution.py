"""Plans: performed as one, journalled, and not at all over what their author didn't see."""
from __future__ import annotations

import threading
from collections.abc import Callable, Sequence
from pathlib import Path
from typing import Any

import pytest
from asking import assert_as_store, done, label, link, new, number, post, undo, view
from thesaurus_desk.store.changes import Change
from thesaurus_desk.store.plan_execution import Desk, LONGEST_PLAN
from whole import postings, resources

IRI = "http://www.wikidata.org/entity/Q1467960"


def test_references(desk: Desk) -> None:
    parent = number(desk, "Bowed instruments")
    made = done(
        desk,
        new("Nyckelharpas"),
        link("link", "broaderGeneric", "$1", parent),
        label("addLabel", "$1", "pref", "Nyckelharpen", "de"),
        post("nh-1", "$1"),
        {"do": "withdraw", "posting": "$4"},
    )
    it = view(desk, made.made)
    assert (it.pref, it.typed) == ((("de", "Nyckelharpen"), ("en", "Nyckelharpas")), (("broaderGeneric", parent),))
    assert made.number(4) == len(postings(desk.replica)) and it.postings == 0
    plan = desk.journal.plan(made.plan or 0)
    assert plan is not None and plan.steps[1].request["a"] == made.made
    assert_as_store(desk)


def test_refusal_leaves_nothing(desk: Desk) -> None:
    violins, bowed = number(desk, "Violins"), number(desk, "Bowed instruments")
    before = resources(desk.replica)[violins], desk.replica.counts(), view(desk, violins)
    requests = [label("addLabel", violins, "alt", "Fiddles of old"), link("link", "broader", bowed, violins)]
    outcome = desk.perform("anna", "move", requests)
    assert (outcome.state, outcome.at, outcome.answer) == ("refused", 2, {"no": "Cycle"})
    assert outcome.failed is not None and outcome.failed.request == requests[1]
    assert (resources(desk.replica)[violins], desk.replica.counts(), view(desk, violins)) == before
    plan = desk.journal.plan(outcome.plan or 0)
    assert plan is not None and plan.state == "refused" and plan.steps[1].answer == {"no": "Cycle"}
    assert_as_store(desk)


def test_malformed_request_is_a_refusal(desk: Desk) -> None:
    outcome = desk.perform("anna", "test", [label("addLabel", 5, "alt", "x"), label("addLabel", 5, "alt", " x")])
    assert (outcome.state, outcome.at, outcome.answer) == ("refused", 2, {"bad": "BadText"})
    assert_as_store(desk)


def test_known_outside_concept_is_used(desk: Desk) -> None:
    violins, cellos = number(desk, "Violins"), number(desk, "Cellos")
    first = done(desk, {"do": "outside", "iri": IRI}, link("link", "close", violins, "$1"))
    second = done(desk, new("Baroque cellos"), {"do": "outside", "iri": IRI}, link("link", "close", cellos, "$2"))
    assert second.number(2) == first.made and ("close", first.made) in view(desk, cellos).mappings
    alone = done(desk, {"do": "outside", "iri": IRI})
    assert alone.made == first.made
    assert_as_store(desk)


def test_terms_are_swapped(desk: Desk) -> None:
    """An alternative term becomes the preferred one: relabel alone would be refused (S13)."""
    violins = number(desk, "Violins")
    done(desk, label("addLabel", violins, "alt", "Fiddles of old"))
    outcome = done(
        desk,
        label("dropLabel", violins, "alt", "Fiddles of old"),
        {"do": "relabel", "owner": violins, "tag": "en", "text": "Fiddles of old", "keep": True},
    )
    assert ("en", "Fiddles of old") in view(desk, violins).pref and ("en", "Violins") in view(desk, violins).alt
    plan = desk.journal.plan(outcome.plan or 0)
    assert plan is not None
    back = desk.take_back(plan)
    assert undo(desk, "ben", back).is_done
    assert ("en", "Violins") in view(desk, violins).pref and ("en", "Fiddles of old") in view(desk, violins).alt
    assert_as_store(desk)


def test_long_plans(desk: Desk) -> None:
    """More than the program takes at a time is performed in parts, if that is allowed."""
    violins = number(desk, "Violins")
    requests = [post(f"long-{it}", violins, f"Record {it}") for it in range(2 * LONGEST_PLAN + 3)]
    with pytest.raises(ValueError):
        desk.perform("anna", "post", requests)
    with pytest.raises(ValueError):
        desk.perform("anna", "post", [])
    before = view(desk, violins).postings
    outcome = desk.perform("anna", "post", requests, may_cut=True)
    assert outcome.is_done and view(desk, violins).postings == before + len(requests)
    plans = desk.history.recent(most=3)
    assert [it.first for it in plans] == [outcome.plan, outcome.plan, None]
    back = desk.take_back(plans[0])
    assert back.plan.id == outcome.plan and len(back.requests) == len(requests) and not back.later
    assert undo(desk, "ben", back).is_done and view(desk, violins).postings == before
    assert all(it.taken_back_by for it in desk.journal.parts(plans[0]))
    requests[LONGEST_PLAN + 4] = post("long-0", violins, "Another record")
    requests[:LONGEST_PLAN] = [post(f"longer-{it}", violins) for it in range(LONGEST_PLAN)]
    outcome = desk.perform("anna", "post", requests, may_cut=True)
    assert (outcome.state, outcome.at) == ("refused", LONGEST_PLAN + 5)
    assert_as_store(desk)


@pytest.mark.parametrize(
    "part,change,is_conflict",
    [
        ("labels", lambda n: label("addLabel", n, "alt", "Fiddles of old"), True),
        ("labels", lambda n: label("addLabel", n, "scope", "Bowed."), False),
        ("notes", lambda n: label("addLabel", n, "scope", "Bowed."), True),
        ("labels", lambda n: link("link", "related", n, 11), False),
        ("links", lambda n: link("link", "related", n, 11), True),
        ("links", lambda n: link("link", "broader", n, 4), True),
        ("links", lambda n: post("p-9", n), False),
        ("postings", lambda n: post("p-9", n), True),
        ("all", lambda n: label("addLabel", n, "scope", "Bowed."), True),
        ("labels", lambda n: {"do": "merge", "source": n, "target": 6}, True),
        ("all", lambda n: label("addLabel", 6, "scope", "Bowed."), False),
    ],
)
def test_two_editors(desk: Desk, part: str, change: Callable[[int], dict[str, Any]], is_conflict: bool) -> None:
    violins = number(desk, "Violins")
    mark = desk.seen.mark(violins, part)
    done(desk, change(violins))
    outcome = desk.perform("ben", "rename", [label("addLabel", violins, "hidden", "Violin s")], seen=[mark])
    if not is_conflict:
        assert outcome.is_done
        return
    conflict = outcome.conflict
    assert outcome.state == "conflict" and conflict is not None and conflict.changes
    assert [it.user for it in conflict.plans] == ["anna"]
    again = desk.perform("ben", "rename", [label("addLabel", violins, "hidden", "Violin s")], seen=[conflict.seen])
    assert again.is_done == desk.replica.is_live(violins)


def test_a_conflict_names_those_who_changed_the_part(desk: Desk) -> None:
    """And nobody who changed another part of the concept, or only something that it is linked with."""
    violins, violas, fiddles = (number(desk, it) for it in ("Violins", "Violas", "Fiddles"))
    marks = {part: desk.seen.mark(violins, part) for part in ("labels", "notes", "links", "postings", "all")}
    changes = {
        "labels": [{"do": "relabel", "owner": violins, "tag": "en", "text": "Fine violins", "keep": True}],
        "notes": [label("addLabel", violins, "scope", "Bowed.")],
        "links": [link("link", "related", violins, number(desk, "Harps"))],
        "postings": [post("p-9", violins)],
        "others": [label("addLabel", violas, "alt", "Fine violas"), post("p-10", fiddles)],
    }
    for user, requests in changes.items():
        assert desk.perform(user, "test", requests).is_done
    merge = {"do": "merge", "source": fiddles, "target": violas}
    assert fiddles in view(desk, violins).related and desk.perform("merger", "merge", [merge]).is_done
    found = {part: desk.seen.conflict(mark) for part, mark in marks.items()}
    users = {part: [plan.user for plan in it.plans] for part, it in found.items() if it}
    assert users.pop("links") == ["links", "merger"] and users.pop("all") == [*marks][:-1] + ["merger"]
    assert users == {it: [it] for it in ("labels", "notes", "postings")}
    split = {"do": "split", "source": violins, "tag": "en", "text": "Early violins", "postings": [1]}
    assert desk.perform("splitter", "split", [split]).is_done
    assert desk.perform("ender", "deprecate", [{"do": "deprecate", "concept": violins}]).is_done
    after = {part: desk.seen.conflict(mark) for part, mark in marks.items()}
    users = {part: [plan.user for plan in it.plans] for part, it in after.items() if it}
    assert users["postings"] == ["postings", "splitter", "ender"] and users["labels"] == ["labels", "ender"]


def test_marks_of_others_are_conflicts(desk: Desk) -> None:
    for mark in (
        "",
        "5",
        "5.labels.x.0",
        "5.all..1",
        "x.labels..0",
        "5.nothing.x.1",
        "99999.all..0",
        "5.labels.\u0661.0",
    ):
        outcome = desk.perform("ben", "test", [label("addLabel", 5, "alt", "x")], seen=[mark])
        assert outcome.state == "conflict"


def test_conflict_after_a_restart_says_who_and_what(desk: Desk, open_desk: Callable[[Path], Desk]) -> None:
    mark = desk.seen.mark(5, "labels")
    done(desk, label("addLabel", 5, "alt", "Fiddles of old"))
    desk.stop()
    outcome = open_desk(desk.db).perform("ben", "test", [label("addLabel", 5, "alt", "x")], seen=[mark])
    conflict = outcome.conflict
    assert conflict is not None and [it.user for it in conflict.plans] == ["anna"]
    assert [(it.sign, it.name, it.value) for it in conflict.changes] == [("+", "alt", ("en", "Fiddles of old"))]


def test_import(desk: Desk) -> None:
    rows = b'key,record,concept\nk1,"Violin, old",5\nk2,Viola,6\n\nk1,"Violin, old",5\nk3,Nothing,999\nk4,x\n'
    before = len(postings(desk.replica))
    brought = desk.bring_in("anna", rows, "rows.csv")
    outcomes = ["new", "new", "again", "UnknownResource", "BadShape"]
    assert (brought.state, [it.outcome for it in brought.rows]) == ("done", outcomes)
    assert [it.cells for it in brought.failed] == [("k3", "Nothing", "999"), ("k4", "x")]
    assert [it.record for it in desk.replica.postings.page_at(5)] == ["Violin, old"]
    plan = desk.journal.plan(brought.plan or 0)
    assert plan is not None and plan.steps[0].answer is not None
    assert plan.steps[0].answer["first"] == before + 1 and plan.steps[0].answer["last"] == before + 2
    assert [it.id for it in desk.history.recent(number=6)] == [brought.plan]
    assert undo(desk, "ben", desk.take_back(plan)).is_done
    assert view(desk, 5).postings == view(desk, 6).postings == 0
    refused = desk.bring_in("anna", b"record,concept\nx,5\n", "bad.csv")
    assert (refused.state, refused.answer) == ("refused", {"bad": "BadShape"})
    assert_as_store(desk)


def test_pages_while_an_import_runs(desk: Desk, monkeypatch: pytest.MonkeyPatch) -> None:
    """Pages are served meanwhile; a change that waits too long is refused, and nothing is done."""
    is_sent, may_end = threading.Event(), threading.Event()
    send = desk.program.send_each

    def slow(requests: Sequence[dict[str, Any]]) -> tuple[list[dict[str, Any]], list[Change]]:
        is_sent.set()
        assert may_end.wait(300)
        return send(requests)

    monkeypatch.setattr(desk.program, "send_each", slow)
    monkeypatch.setattr("thesaurus_desk.store.open_store.WAIT_FOR_PLAN", 0.1)
    monkeypatch.setattr("thesaurus_desk.store.open_store.WAIT_FOR_LONG", 0.1)
    bringing = threading.Thread(target=desk.bring_in, args=("anna", b"key,record,concept\nk1,r1,5\n", "rows.csv"))
    bringing.start()
    assert is_sent.wait(300)
    assert view(desk, 5).postings == 0 and desk.replica.search("violins") and desk.seen.mark(5)
    outcome = desk.perform("ben", "test", [label("addLabel", 5, "alt", "Fiddles of old")])
    assert (outcome.state, outcome.answer, outcome.at) == ("fault", {"fault": "Busy"}, 1)
    assert desk.bring_in("ben", b"", "x").state == "fault"
    may_end.set()
    bringing.join()
    assert view(desk, 5).postings == 1 and desk.history.recent()[0].user == "anna"
    assert done(desk, label("addLabel", 5, "alt", "Fiddles of old")).is_done
    assert_as_store(desk)


def test_plans_are_tried_while_the_program_is_started_anew(desk: Desk) -> None:
    """Each answer is that of the plan that was tried, or there is none."""
    violins, fiddles = number(desk, "Violins"), number(desk, "Fiddles")
    answers, has_ended = list[dict[str, Any]](), threading.Event()

    def try_again() -> None:
        while not has_ended.is_set():
            answers.append(desk.tried([{"do": "merge", "source": fiddles, "target": violins}]))

    threads = [threading.Thread(target=try_again) for _ in range(4)]
    for it in threads:
        it.start()
    for _ in range(5):
        desk.reload()
    has_ended.set()
    for it in threads:
        it.join()
    found = [it for it in answers if it]
    assert found and all(it["done"] == [{"moved": 0}] for it in found) and desk.program.get("totals")["accepted"] == 0
