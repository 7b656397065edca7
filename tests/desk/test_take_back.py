"""Plans taken back: wholly where that can be, and a merge as far as can be."""
from __future__ import annotations

from collections.abc import Callable
from typing import Any

import pytest
from asking import assert_as_store, done, label, link, new, number, post, undo, view
from thesaurus_desk.store.plan_execution import Desk, LONGEST_PLAN
from whole import postings

Requests = list[dict[str, Any]]


PLANS: dict[str, Callable[[Desk], Requests]] = {
    "addLabel": lambda desk: [label("addLabel", 5, "alt", "Fiddles of old")],
    "dropLabel": lambda desk: [label("dropLabel", 5, "pref", "Geigen", "de")],
    "relabel": lambda desk: [{"do": "relabel", "owner": 5, "tag": "en", "text": "Fiddles of old", "keep": False}],
    "relabel and keep": lambda desk: [{"do": "relabel", "owner": 5, "tag": "EN", "text": "Old fiddles", "keep": True}],
    "relabel twice": lambda desk: [
        {"do": "relabel", "owner": 5, "tag": "en", "text": "One", "keep": True},
        {"do": "relabel", "owner": 5, "tag": "en", "text": "Two", "keep": False},
    ],
    "link": lambda desk: [link("link", "related", 5, 11)],
    "typed link beside a plain one": lambda desk: [link("link", "broader", 5, 4)],
    "move": lambda desk: [link("link", "broader", 5, 9), link("unlink", "broaderGeneric", 5, 4)],
    "member": lambda desk: [link("link", "member", desk.replica.numbers("collection")[0], 11)],
}


@pytest.mark.parametrize("name", PLANS)
def test_taken_back_wholly(desk: Desk, name: str) -> None:
    """After a plan and its take-back the store is as before; after the take-back of that, as after the plan."""
    before = desk.replica.digest()
    first = done(desk, *PLANS[name](desk))
    after = desk.replica.digest()
    assert before != after
    plan = desk.journal.plan(first.plan or 0)
    assert plan is not None
    back = desk.take_back(plan)
    assert not back.remarks and not back.later and back.requests
    second = undo(desk, "ben", back)
    assert second.is_done and desk.replica.digest() == before
    plan = desk.journal.plan(first.plan or 0)
    assert plan is not None and plan.taken_back_by == second.plan
    again = desk.journal.plan(second.plan or 0)
    assert again is not None and again.takes_back == first.plan
    assert undo(desk, "anna", desk.take_back(again)).is_done
    assert desk.replica.digest() == after
    assert_as_store(desk)


def test_take_back_names_later_changes(desk: Desk) -> None:
    first = done(desk, label("addLabel", 5, "alt", "Fiddles of old"))
    second = done(desk, label("addLabel", 5, "scope", "Bowed."))
    done(desk, label("addLabel", 11, "scope", "Plucked."))
    plan = desk.journal.plan(first.plan or 0)
    assert plan is not None and [it.id for it in desk.take_back(plan).later] == [second.plan]


def test_what_stays_is_said_once(desk: Desk) -> None:
    """However many steps were at a concept that has ended since."""
    first = done(desk, *(label("addLabel", 6, "alt", it) for it in ("Old violas", "Fine violas", "Small violas")))
    done(desk, {"do": "merge", "source": 6, "target": 5})
    plan = desk.journal.plan(first.plan or 0)
    assert plan is not None
    back = desk.take_back(plan)
    assert back.requests == [] and [(it.name, it.number) for it in back.remarks] == [("has ended", 6)]


def test_postings_are_taken_back(desk: Desk) -> None:
    posted = done(desk, post("p-1", 5), post("p-1", 5), post("p-2", 5, "Other"))
    plan = desk.journal.plan(posted.plan or 0)
    assert plan is not None
    back = desk.take_back(plan)
    assert [it["do"] for it in back.requests] == ["withdraw", "withdraw"]
    second = undo(desk, "ben", back)
    assert second.is_done and view(desk, 5).postings == 0
    plan = desk.journal.plan(second.plan or 0)
    assert plan is not None
    third = undo(desk, "ben", desk.take_back(plan))
    assert third.is_done and {it.record for it in desk.replica.postings.page_at(5)} == {"Nyckelharpa 1710", "Other"}
    assert {it.key for it in desk.replica.postings.page_at(5)} == {"p-1~2", "p-2~2"}
    assert_as_store(desk)


def test_new_concept_is_taken_back(desk: Desk) -> None:
    made = done(desk, new("Nyckelharpas"), link("link", "broader", "$1", 4), label("addLabel", "$1", "pref", "X", "de"))
    plan = desk.journal.plan(made.plan or 0)
    assert plan is not None
    back = desk.take_back(plan)
    assert [it.name for it in back.remarks] == ["dead"]
    ended = undo(desk, "ben", back)
    assert ended.is_done and not view(desk, made.made).is_live
    plan = desk.journal.plan(ended.plan or 0)
    assert plan is not None
    returned = undo(desk, "anna", desk.take_back(plan))
    it = view(desk, returned.made)
    assert returned.is_done and it.broader == (4,) and it.pref == (("de", "X"), ("en", "Nyckelharpas"))


def test_merge_is_taken_back(desk: Desk) -> None:
    """The concept comes back under another number, with its terms, notes, links and postings; the target loses them."""
    violins, violas, cellos = (number(desk, it) for it in ("Violins", "Violas", "Cellos"))
    done(desk, label("addLabel", violas, "scope", "Deeper."), link("link", "related", violas, cellos))
    done(desk, link("link", "related", violins, cellos), link("link", "related", violas, violins))
    done(desk, post("a", violas, "A"), post("b", violas, "B"), post("c", violas, "C"), post("d", violins, "D"))
    source, target = view(desk, violas), view(desk, violins)
    merged = done(desk, {"do": "merge", "source": violas, "target": violins})
    first = len(postings(desk.replica)) - 3
    done(desk, {"do": "withdraw", "posting": first})
    done(desk, {"do": "split", "source": violins, "tag": "en", "text": "Elsewhere", "postings": [first + 1]})
    plan = desk.journal.plan(merged.plan or 0)
    assert plan is not None
    back = desk.take_back(plan)
    assert sorted((it.name, it.number) for it in back.remarks) == [
        ("moved on", first + 1),
        ("new number", violas),
        ("withdrawn", first),
    ]
    outcome = undo(desk, "ben", back)
    assert outcome.is_done, (outcome.at, outcome.answer, outcome.failed)
    again = view(desk, outcome.made)
    assert (again.pref, again.alt, again.hidden, again.scope) == (source.pref, source.alt, source.hidden, source.scope)
    assert (again.broader, again.typed, again.related) == (source.broader, source.typed, source.related)
    assert again.collections == source.collections
    now = view(desk, violins)
    assert (now.pref, now.alt, now.hidden, now.typed) == (target.pref, target.alt, target.hidden, target.typed)
    assert set(now.related) == {*target.related, again.number} - {violas}
    assert [it.record for it in desk.replica.postings.page_at(again.number)] == ["C"]
    assert [it.record for it in desk.replica.postings.page_at(violins)] == ["D"]
    assert_as_store(desk)


def test_merge_whose_label_is_taken(desk: Desk) -> None:
    violins, violas = number(desk, "Violins"), number(desk, "Violas")
    merged = done(desk, {"do": "merge", "source": violas, "target": violins})
    for tag, text in view(desk, violas).pref:
        done(desk, {"do": "concept", "scheme": 1, "tag": tag, "text": text})
    plan = desk.journal.plan(merged.plan or 0)
    assert plan is not None and desk.take_back(plan).needs_label
    back = desk.take_back(plan, ("en", "Violas again"))
    assert not back.needs_label and {it.name for it in back.remarks} == {"new number", "label taken"}
    outcome = undo(desk, "ben", back)
    assert outcome.is_done and view(desk, outcome.made).pref == (("en", "Violas again"),)


def test_long_merge_is_taken_back(desk: Desk) -> None:
    """What needs more requests than the program takes at a time refers to what its earlier parts made."""
    violins, violas = number(desk, "Violins"), number(desk, "Violas")
    terms = [label("addLabel", violas, "alt", f"Viola {it}") for it in range(LONGEST_PLAN)]
    done(desk, *terms)
    source = view(desk, violas)
    merged = done(desk, {"do": "merge", "source": violas, "target": violins})
    plan = desk.journal.plan(merged.plan or 0)
    assert plan is not None
    back = desk.take_back(plan)
    assert len(back.requests) > 2 * LONGEST_PLAN
    outcome = undo(desk, "ben", back)
    assert outcome.is_done, (outcome.at, outcome.answer)
    again = view(desk, outcome.made)
    assert (again.pref, again.alt, again.typed) == (source.pref, source.alt, source.typed)
    assert not set(view(desk, violins).alt) & set(source.alt)
    assert_as_store(desk)
