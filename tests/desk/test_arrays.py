"""Arrays and groups: collections below a concept, in an order and within others; set by plans, taken back, shown."""
from __future__ import annotations

import random
from collections.abc import Callable, Iterator
from pathlib import Path
from typing import Any

import pytest
from asking import assert_as_store, done, link, number, undo
from thesaurus_desk.journal.consistency import replayed_values
from thesaurus_desk.journal.values import Request, set_request
from thesaurus_desk.store.arrays import parts_of
from thesaurus_desk.store.plan_execution import Desk
from thesaurus_tools.arrays import Places

BOWED, VIOLINS, VIOLAS, CELLOS, BASSES, PLUCKED, FIDDLES, QUARTET = 4, 5, 6, 7, 8, 9, 31, 32


def collection(text: str) -> Request:
    return {"do": "collection", "scheme": 1, "tag": "en", "text": text}


def place(owner: int | str, field: str, new: Any, old: Any = None) -> Request:
    return set_request(owner, field, "", old=old, new=new)


def array(desk: Desk) -> int:
    """An array below the bowed instruments, the largest first."""
    members = (link("link", "member", "$1", it) for it in (VIOLINS, VIOLAS, CELLOS, BASSES))
    made = done(
        desk,
        collection("bowed instruments by size"),
        *members,
        place("$1", "superordinate", [BOWED]),
        place("$1", "order", [BASSES, CELLOS, VIOLAS, VIOLINS]),
    ).made
    assert made is not None
    return made


def places(desk: Desk) -> Places[int]:
    return desk.arrays.now(desk.replica)


def parts(desk: Desk, number: int) -> list[int]:
    """What is in a collection, in its order."""
    return parts_of(desk.replica, places(desk), number, ["en"])


def is_as_replayed(desk: Desk) -> bool:
    return replayed_values(desk.journal) == [
        (it.owner, it.field, it.tag, it.text, it.source) for it in desk.values.each()
    ]


def test_an_array_has_a_superordinate_concept_and_an_order(desk: Desk) -> None:
    made = array(desk)
    assert places(desk).superordinate(made) == BOWED and places(desk).directly_below(BOWED) == [made]
    assert parts(desk, made) == [BASSES, CELLOS, VIOLAS, VIOLINS]
    done(desk, link("link", "member", made, FIDDLES))
    assert parts(desk, made)[-1] == FIDDLES, "what has no place in the order is last"
    done(desk, link("unlink", "member", made, CELLOS))
    assert CELLOS not in parts(desk, made)
    assert_as_store(desk)


def test_an_array_within_an_array_has_its_superordinate_concept(desk: Desk) -> None:
    outer = array(desk)
    inner = done(desk, collection("by period"), place("$1", "within", [outer])).made
    assert inner is not None
    assert places(desk).superordinate(inner) == BOWED and places(desk).arrays == {BOWED: [outer, inner]}
    assert places(desk).directly_below(BOWED) == [outer] and inner in parts(desk, outer)
    assert not places(desk).is_group(QUARTET)
    done(desk, collection("Groups"), place(QUARTET, "within", ["$1"]))
    assert places(desk).is_group(QUARTET) and places(desk).superordinate(QUARTET) is None


@pytest.mark.parametrize(
    ("requests", "name"),
    [
        ([place(VIOLINS, "superordinate", [BOWED])], "WrongKind"),
        ([place(QUARTET, "superordinate", ["4"])], "BadValue"),
        ([place(QUARTET, "superordinate", "4")], "BadValue"),
        ([place(QUARTET, "superordinate", [BOWED, PLUCKED])], "BadValue"),
        ([place(QUARTET, "superordinate", [999])], "BadSuperordinate"),
        ([place(QUARTET, "superordinate", [1])], "BadSuperordinate"),
        ([place(QUARTET, "superordinate", [BOWED]), place(QUARTET, "superordinate", [PLUCKED])], "OnlyOne"),
        ([{"do": "deprecate", "concept": BOWED}, place(QUARTET, "superordinate", [BOWED])], "BadSuperordinate"),
        (
            [
                {"do": "scheme", "tag": "en", "text": "Other"},
                {"do": "concept", "scheme": "$1", "tag": "en", "text": "Lyres"},
                place(QUARTET, "superordinate", ["$2"]),
            ],
            "BadSuperordinate",
        ),
        ([place(QUARTET, "within", [VIOLINS])], "BadWithin"),
        ([place(QUARTET, "within", [QUARTET])], "NestedRing"),
        ([collection("Groups"), place("$1", "within", [QUARTET]), place(QUARTET, "within", ["$1"])], "NestedRing"),
        ([place(QUARTET, "order", [VIOLINS, VIOLAS, VIOLINS])], "BadOrder"),
        ([place(QUARTET, "order", [1])], "BadOrder"),
    ],
)
def test_what_is_refused(desk: Desk, requests: list[Request], name: str) -> None:
    before = list(desk.values.each())
    outcome = desk.perform("anna", "test", requests)
    assert (outcome.state, outcome.at, outcome.answer) == ("refused", len(requests), {"no": name})
    assert list(desk.values.each()) == before
    assert_as_store(desk)


def test_a_merge_and_its_end(desk: Desk) -> None:
    made = array(desk)
    merged = done(desk, {"do": "merge", "source": CELLOS, "target": VIOLAS})
    assert parts(desk, made) == [BASSES, VIOLAS, VIOLINS]
    above = done(desk, {"do": "merge", "source": BOWED, "target": PLUCKED})
    assert places(desk).superordinate(made) == PLUCKED
    for plan in (above, merged):
        asked = desk.journal.plan(plan.plan or 0)
        assert asked is not None and undo(desk, "anna", desk.take_back(asked)).is_done
    assert places(desk).superordinate(made) == number(desk, "Bowed instruments") != BOWED
    assert parts(desk, made) == [BASSES, number(desk, "Cellos"), VIOLAS, VIOLINS]
    assert is_as_replayed(desk)


def test_a_deprecation_and_its_end(desk: Desk) -> None:
    made = array(desk)
    ended = done(desk, {"do": "deprecate", "concept": BOWED}, {"do": "deprecate", "concept": BASSES})
    assert places(desk).superordinate(made) is None and parts(desk, made) == [CELLOS, VIOLAS, VIOLINS]
    plan = desk.journal.plan(ended.plan or 0)
    assert plan is not None
    back = desk.take_back(plan)
    assert undo(desk, "anna", back).is_done
    assert places(desk).superordinate(made) == number(desk, "Bowed instruments")
    assert parts(desk, made) == [number(desk, "Double basses"), CELLOS, VIOLAS, VIOLINS]


def test_taking_back_an_order_that_has_changed(desk: Desk) -> None:
    made = array(desk)
    old, new = [BASSES, CELLOS, VIOLAS, VIOLINS], [CELLOS, BASSES, VIOLAS, VIOLINS]
    first = done(desk, place(made, "order", new, old))
    second = done(desk, place(made, "order", [VIOLAS], new))
    plans = [desk.journal.plan(it.plan or 0) for it in (first, second)]
    assert plans[0] is not None and plans[1] is not None
    assert [it.name for it in desk.take_back(plans[0]).remarks] == ["value changed"]
    for plan in reversed(plans):
        assert plan is not None and undo(desk, "anna", desk.take_back(plan)).is_done
    assert parts(desk, made) == old


def test_the_history_of_what_comes_and_goes(desk: Desk) -> None:
    made = array(desk)
    old = [BASSES, CELLOS, VIOLAS, VIOLINS]
    plan = done(desk, place(made, "order", [CELLOS, BASSES, VIOLAS, VIOLINS], old)).plan
    moved = done(desk, place(made, "superordinate", [PLUCKED], [BOWED])).plan
    assert [it.id for it in desk.history.recent(number=made)][:2] == [moved, plan]
    assert desk.history.recent(number=PLUCKED)[0].id == desk.history.recent(number=BOWED)[0].id == moved
    assert desk.history.recent(number=CELLOS)[0].id != plan, "another order changes no member"


def test_killed_and_restarted(desk: Desk, open_desk: Callable[[Path], Desk]) -> None:
    made = array(desk)
    desk.stop()
    again = open_desk(desk.db)
    assert parts(again, made) == [BASSES, CELLOS, VIOLAS, VIOLINS] and again.found.changed == ()


def generated(dice: random.Random, desk: Desk) -> Iterator[Request]:
    """Some requests at random: collections get places and orders, and concepts are made and end."""
    concepts, collections = desk.replica.numbers("concept", None, True), desk.replica.numbers("collection")
    owner, field = dice.choice(collections), dice.choice(["superordinate", "within", "order", "order"])
    held = desk.values.held(owner, field)
    several = dice.sample([*concepts, *collections], 4)
    new = several if field == "order" else [dice.choice(concepts if field == "superordinate" else collections)]
    yield place(owner, field, dice.choice([new, new, None]) if held else new, held[0].member if held else None)
    if dice.random() < 0.2:
        yield {"do": "merge", "source": concepts[0], "target": dice.choice(concepts[1:])}
    if dice.random() < 0.1:
        yield {"do": "deprecate", "concept": concepts[-1]}
    if dice.random() < 0.3:
        yield {"do": "concept", "scheme": 1, "tag": "en", "text": f"Concept {dice.random()}"}


def test_the_table_is_what_the_journal_replays(desk: Desk) -> None:
    dice = random.Random(64)
    for name in ("A", "B", "C"):
        done(desk, collection(name))
    states = [desk.perform("anna", "test", list(generated(dice, desk))).state for _ in range(120)]
    assert states.count("done") > 40 and "refused" in states
    for plan in desk.history.recent(states=("done",), most=60)[::3]:
        back = desk.take_back(plan)
        outcome = undo(desk, "anna", back) if back.requests else None
        assert outcome is None or outcome.is_done or "set" not in str(outcome.failed), outcome
    assert is_as_replayed(desk)
    assert_as_store(desk)
