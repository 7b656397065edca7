"""The replica after random requests: it is as one that is made anew, as the export, and as all views."""
from __future__ import annotations

import threading
from collections import Counter
from collections.abc import Callable, Iterator
from pathlib import Path
from typing import Any

from as_built import assert_as_built
from as_plain import as_plain
from conftest import BASE
from dice import Requests
from thesaurus_desk.store.model import Link
from thesaurus_desk.store.plan_execution import Desk
from thesaurus_desk.store.replica import Replica
from thesaurus_desk.web.merge_preview import preview_of, seen_from
from thesaurus_desk.web.rule_conflicts import Way, way_of_link, way_of_merge
from thesaurus_tools.export_store import store_of_export
from thesaurus_tools.kinds import BROADER
from thesaurus_tools.ntriples import parse_ntriples
from whole import postings, resources

REQUESTS = 5000
# Resources are made until there is this number of them.
ENOUGH = 60
RULES = ("Cycle", "S27", "S46")


def assert_as_views(desk: Desk) -> None:
    """The replica has each resource and posting as the program shows it."""
    replica, program = desk.replica, desk.program
    for number in range(1, replica.counts()["resources"] + 2):
        shown, view = program.get("concept", number=number), replica.view(number)
        if view and view.kind == "concept":
            assert view.answer() == shown
            assert replica.postings.count_at(number) == shown["postings"]
            rows = program.get("postings", concept=number)["postings"]
            assert [[it.number, it.key, it.record] for it in replica.postings.page_at(number, 1, 10**6)] == rows
        else:
            assert shown == {"no": "WrongKind" if view else "UnknownResource"}
    for number in range(1, replica.counts()["postings"] + 2):
        posting = replica.postings.get(number)
        assert (posting.answer() if posting else {"no": "UnknownPosting"}) == program.get("posting", number=number)
    assert replica.postings.totals() == program.get("totals")


def assert_as_export(desk: Desk) -> None:
    """The replica has the labels and links of a fresh export, which has no types of links."""
    export = store_of_export("export", parse_ntriples(desk.copies.run("export"), "export"), BASE)
    its = resources(desk.replica).values()
    labels = {(it.number, *label) for it in its for label in it.labels}
    assert labels == {tuple(it) for it in export.labels}
    links = {link for it in its for link in it.links()}
    outside = {it.number: it.iri for it in its if it.kind == "outside"}
    plain = {("broader" if kind in BROADER else kind, a, outside.get(b, b)) for kind, a, b in links}
    assert plain == {tuple(it) for it in export.links}
    dead = {it.number: it.replaced for it in its if not it.is_live}
    assert dead == {it.number: it.replaced for it in export.resources.values() if not it.is_live}


def way_of(replica: Replica, rule: str, request: dict[str, Any]) -> Way:
    """The way along which the desk says that a merge or a link breaks a rule."""
    if request["do"] == "merge":
        return way_of_merge(replica, rule, request["source"], request["target"])
    return way_of_link(replica, rule, Link(request["kind"], request["a"], request["b"]))


def assert_breaks(desk: Desk, rule: str, request: dict[str, Any]) -> None:
    """The way that is shown for a broken rule is one: each step is a link, or joins the two of a merge."""
    way = way_of(desk.replica, rule, request)
    assert len(way) > 1, (rule, request)
    pair = {request.get("source"), request.get("target")}
    added = {(request.get("a"), request.get("b")), (request.get("b"), request.get("a"))}
    if rule in ("Cycle", "S27"):
        for low, high in zip(way, way[1:]):
            ends = [{it} | (pair if it in pair else set()) for it in (low, high)]
            up = any(
                a in resources(desk.replica) and b in desk.replica.chained(a) for a in ends[0] for b in ends[1] if a
            )
            assert up or (low, high) in added
    if rule == "Cycle":
        assert way[0] == way[-1] and len(way) > 2


def throw(desk: Desk, dice: Requests) -> dict[str, Any]:
    """Throws a request that changes something; merges and links are likelier than by the dice alone."""
    plain = as_plain(desk.replica)
    drawn = dice.below(8)
    if drawn == 0 and len(plain.resources) > 10:
        source, target = dice.ends(plain.refuses_merge, len(plain.resources))
        return {"do": "merge", "source": source, "target": target}
    if drawn == 1 and len(plain.resources) > 10:
        return dict(dice.linking(plain))
    while "get" in (request := dice.request(plain, ENOUGH)):
        pass
    return dict(request)


def thrown(desk: Desk, dice: Requests) -> Iterator[dict[str, Any]]:
    """Yields random requests, and then those that the dice hardly throw."""
    for _ in range(REQUESTS):
        yield throw(desk, dice)
    concept = desk.replica.numbers("concept", live=True)[0]
    yield {"do": "link", "kind": "related", "a": concept, "b": concept}
    yield {"do": "concept", "scheme": desk.replica.counts()["resources"] + 1, "tag": "en", "text": "t10"}


def test_random_requests(room: Path, open_desk: Callable[[Path], Desk]) -> None:
    desk = open_desk(room / "random.db")
    dice, seen = Requests(1), Counter[str]()
    for request in thrown(desk, dice):
        tried = desk.tried([request])
        before = desk.replica.version
        outcome = desk.perform("anna", "test", [request])
        answer = outcome.steps[0].answer or {}
        seen[f"{request['do']} {answer.get('no', 'done')}"] += 1
        assert tried.get("no") == answer.get("no") or answer.get("known"), (request, answer, tried)
        if answer.get("no") in RULES:
            assert_breaks(desk, answer["no"], request)
        if "no" in answer:
            assert desk.replica.version == before
        else:
            assert outcome.steps[0].foreseen in (answer, {**answer, "known": True})
    assert all(seen[f"merge {rule}"] for rule in RULES)
    assert seen["merge done"] > 10 and seen["split done"] and seen["deprecate done"]
    assert_as_views(desk)
    assert_as_export(desk)
    desk.stop()
    assert_as_built(desk.journal.path, desk.db, room)


def test_previews_of_merges(room: Path, open_desk: Callable[[Path], Desk]) -> None:
    """What a merge is said to move and to drop is what it moves and drops."""
    desk = open_desk(room / "merges.db")
    dice, merges = Requests(5), 0
    while merges < 60:
        request = throw(desk, dice)
        tried = desk.tried([request]) if request["do"] == "merge" else {}
        if "changes" not in tried:
            desk.perform("anna", "test", [request])
            continue
        merges += 1
        source, target = request["source"], request["target"]
        merge = preview_of(desk.replica, source, target, tried["changes"])
        before, own = resources(desk.replica)[target], resources(desk.replica)[source]
        moving = [postings(desk.replica)[it - 1] for it in desk.replica.postings.numbers_at(source)]
        there = desk.replica.postings.records_at(target)
        assert desk.perform("anna", "merge", [request]).is_done
        after = resources(desk.replica)[target]
        assert sorted(after.labels - before.labels) == list(merge.labels) and before.labels <= after.labels
        assert {it[1:] for it in merge.dropped_labels} == {
            it[1:] for it in own.labels if it[0] != "scope" and it[1:] in {has[1:] for has in before.labels}
        }
        assert sorted(merge.postings) == [it.number for it in moving]
        records = {it.record for it in moving}
        assert (merge.records, merge.doubles) == (len(records), len(records & there))
        had, has = ({seen_from(target, it) for it in links.links()} for links in (before, after))
        became = {what: {it[:2] for it in merge.links if it[2] == what} for what in ("moves", "there", "between")}
        assert {seen_from(source, it) for it in own.links()} == set().union(*became.values())
        assert became["moves"] == has - had and became["there"] <= had
        assert {other for _, other in became["between"]} <= {target} and not any(it[1] == source for it in has)


def test_eight_threads(room: Path, open_desk: Callable[[Path], Desk]) -> None:
    """Eight editors and four readers at once; no reader fails, and the replica is right in the end."""
    desk = open_desk(room / "threads.db")
    for seed in range(40):
        desk.perform("anna", "test", [throw(desk, Requests(seed))])
    failures: list[BaseException] = []
    is_over = threading.Event()

    def edit(seed: int) -> None:
        dice = Requests(seed)
        for _ in range(REQUESTS // 8):
            desk.perform(f"user {seed}", "test", [throw(desk, dice)])

    def read(seed: int) -> None:
        dice = Requests(seed)
        while not is_over.is_set():
            replica, number = desk.replica, dice.between(1, ENOUGH)
            replica.search(f"t{dice.between(1, 39)}", prefer="en")
            replica.path_up(number)
            replica.count_below(number)
            replica.ordered(replica.tops(1), ["de"])
            view = replica.view(number)
            assert view is None or view.kind != "concept" or view.scheme is not None

    def tried(work: Callable[[int], None], seed: int) -> None:
        try:
            work(seed)
        except BaseException as error:
            failures.append(error)

    editors = [threading.Thread(target=tried, args=(edit, 100 + it)) for it in range(8)]
    readers = [threading.Thread(target=tried, args=(read, 200 + it)) for it in range(4)]
    for it in (*editors, *readers):
        it.start()
    for it in editors:
        it.join()
    is_over.set()
    for it in readers:
        it.join()
    assert not failures
    assert_as_views(desk)
    desk.stop()
    assert_as_built(desk.journal.path, desk.db, room)
