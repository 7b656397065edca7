"""Tables that exchange preferred terms at random: each request takes a term that is free then, and at the end each
concept has the term that its row gives."""
from __future__ import annotations

from collections.abc import Iterator
from random import Random

import pytest
from thesaurus_tools.drafts import Draft
from thesaurus_tools.exchanges import MOST_ROWS, Rename, groups_of, ordered_renames
from thesaurus_tools.store import Label, Resource, Store

TABLES = 2_000
MOST = 8


class Concepts(Store):
    """Concepts 1 to `count` of scheme 100, with the terms t1, t2, ..; some have a term of another as alternative."""

    def __init__(self, count: int, dice: Random) -> None:
        self.resources = {it: Resource(it, "concept", 100, True, None) for it in range(1, count + 1)}
        self.labels = [Label(it, "pref", "en", f"t{it}") for it in self.resources]
        self.labels += [
            Label(it, dice.choice(("alt", "hidden")), "en", f"t{it % count + 1}")
            for it in self.resources
            if count > 1 and dice.random() < 0.3
        ]
        self.links, self.outside = set(), {}


def renames_of(count: int, dice: Random) -> list[Rename]:
    """Rows in any order that give concepts other terms, each a free one or another's."""
    terms = dice.sample([f"t{it}" for it in range(1, count + 4)], count)
    rows = [(it, f"t{it}", terms[it - 1]) for it in dice.sample(range(1, count + 1), count)]
    return [
        Rename(place, it, (100, "en", old), (100, "en", new)) for place, (it, old, new) in enumerate(rows) if old != new
    ]


def requests_of(draft: Draft, renames: list[Rename], keep: bool) -> Iterator[dict]:
    """The requests of all rows: of those that are done together, at the last one."""
    groups = {its[-1].place: its for its in groups_of(renames)}
    grouped = {it.place for its in groups.values() for it in its}
    for it in renames:
        if it.place in groups or it.place not in grouped:
            yield from ordered_renames(draft, groups.get(it.place, [it]), keep)


@pytest.mark.parametrize("keep", [True, False], ids=["keep", "forget"])
def test_each_term_is_free_when_it_is_taken(keep: bool) -> None:
    dice = Random(1)
    for _ in range(TABLES):
        store = Concepts(dice.randint(1, MOST), dice)
        renames = renames_of(len(store.resources), dice)
        draft = Draft(store, ["en"])
        for request in list(requests_of(draft, renames, keep)):
            if request["do"] == "relabel":
                assert not [it for it in store.resources if request["text"] in draft.texts(it, "pref", "en")], renames
                assert request["text"] not in {text for _, _, text in draft.labels_of(request["owner"])}, renames
            draft.apply(request)
        for it in renames:
            assert draft.texts(it.concept, "pref", "en") == [it.new[2]], renames
            texts = {text for _, _, text in draft.labels_of(it.concept)}
            assert (it.old[2] in texts) == keep and not [text for text in texts if "[" in text], renames


def test_many_rows_are_not_done_together() -> None:
    """Each needs the term of the next one; they would be no plan."""
    for count, groups in ((MOST_ROWS, 1), (MOST_ROWS + 1, 0)):
        renames = [Rename(it, it, (1, "en", f"t{it}"), (1, "en", f"t{it + 1}")) for it in range(count)]
        assert len(groups_of(renames)) == groups
