"""Requests as the tests of plans send them, and what a desk then has."""
from __future__ import annotations

from typing import Any

from thesaurus_desk.journal.undo import TakeBack
from thesaurus_desk.store.difference import attach_store, differences
from thesaurus_desk.store.digest import digest_of_rows
from thesaurus_desk.store.model import View
from thesaurus_desk.store.plan_execution import Desk, Outcome
from thesaurus_desk.store.undo_run import undo_run


def number(desk: Desk, text: str) -> int:
    """The number of the live concept with a term."""
    (found,) = desk.replica.named(text, live=True)
    return found.number


def view(desk: Desk, number: int | None) -> View:
    found = desk.replica.view(number or 0)
    assert found is not None
    return found


def done(desk: Desk, *requests: dict[str, Any], action: str = "test", **how: Any) -> Outcome:
    """Performs a plan that is accepted."""
    outcome = desk.perform("anna", action, list(requests), **how)
    assert outcome.is_done, (outcome.at, outcome.answer)
    return outcome


def undo(desk: Desk, user: str, back: TakeBack) -> Outcome:
    """Takes a plan back, all of its parts."""
    return undo_run(desk, user, back).perform_rest()


def label(do: str, owner: int | str, kind: str, text: str, tag: str = "en") -> dict[str, Any]:
    return {"do": do, "owner": owner, "kind": kind, "tag": tag, "text": text}


def link(do: str, kind: str, a: int | str, b: int | str) -> dict[str, Any]:
    return {"do": do, "kind": kind, "a": a, "b": b}


def new(text: str) -> dict[str, Any]:
    return {"do": "concept", "scheme": 1, "tag": "en", "text": text}


def post(key: str, concept: int | str, record: str = "Nyckelharpa 1710") -> dict[str, Any]:
    return {"do": "post", "key": key, "record": record, "concept": concept}


def assert_as_store(desk: Desk) -> None:
    """The replica, the digest of its rows and the counts in the journal are those of the store."""
    desk.program.stop()
    rows = desk.journal.rows
    with attach_store(rows, desk.db):
        assert differences(rows) == []
    assert desk.replica.digest() == f"{digest_of_rows(rows):032x}"
    assert desk.journal.digest() in ("", desk.replica.digest())
    assert desk.journal.counts() in ({}, desk.replica.counts())
