"""Questions about a thesaurus: each is a function from a store and the options of a report to a table."""
from __future__ import annotations

import argparse
import itertools
import sys
from collections import Counter, defaultdict, deque
from collections.abc import Iterable, Iterator
from typing import NamedTuple

from thesaurus_tools.changes import changes_since
from thesaurus_tools.command_line import USAGE, ToolError
from thesaurus_tools.fields import STANDARD
from thesaurus_tools.kinds import BROADER, LABEL_KINDS, MAPPINGS
from thesaurus_tools.store import End, Label, Resource, Store
from thesaurus_tools.store_options import open_file
from thesaurus_tools.texts import fold, normalize

SEPARATOR = " > "


class Table(NamedTuple):
    """A report: the names of its columns, and its rows."""

    columns: tuple[str, ...]
    rows: Iterable[tuple]


def state_of(resource: Resource) -> str:
    """Returns whether a resource is live, or why not."""
    return "live" if resource.is_live else f"replaced by {resource.replaced}" if resource.replaced else "deprecated"


def check_kind(store: Store, kind: str) -> None:
    """Raises ToolError for what is neither a kind of labels nor a field whose values are there."""
    if kind not in (*LABEL_KINDS, *store.fields):
        advice = ": --journal FILE names the journal of the desk that keeps it" if kind in STANDARD else ""
        raise ToolError(f"no kind of labels or notes is called {kind}{advice}", USAGE)


def find(store: Store, given: argparse.Namespace) -> Table:
    """Labels, notes and values of a desk's fields that contain a text, whatever its case and accents."""
    wanted = fold(given.text)
    for it in given.kinds or ():
        check_kind(store, it)

    def rows() -> Iterator[tuple]:
        for number, resource in sorted(store.resources.items()):
            found = [(it.kind, it.tag, it.text) for it in store.labels_of.get(number, ())]
            found += [(it.field, it.tag, it.text) for it in store.values_of.get(number, ())]
            for kind, tag, text in found:
                if (not given.kinds or kind in given.kinds) and given.lang in (None, tag) and wanted in fold(text):
                    yield number, resource.kind, kind, tag, text, store.term(number, given.langs), state_of(resource)

    return Table(("number", "kind", "label", "lang", "text", "term", "state"), rows())


def missing(store: Store, given: argparse.Namespace) -> Table:
    """Live concepts without a preferred label in a language, or without another kind of label or a desk's field."""
    check_kind(store, given.kind)
    field = store.fields.get(given.kind)
    if not given.lang and (field is None or field.tag == "language"):
        raise ToolError("missing: --lang says in which language", USAGE)
    if field is None:
        having = {it.owner for it in store.labels if it.kind == given.kind and it.tag == given.lang}
    else:
        values = (it for its in store.values_of.values() for it in its)
        having = {int(it.owner) for it in values if it.field == field.name and given.lang in (None, it.tag)}
    rows = ((it.number, store.term(it.number, given.langs)) for it in store.live_concepts() if it.number not in having)
    if given.csv or given.excel:
        # (a column for the translator to fill in: tools/from-table reads it back)
        column = f"{given.kind}@{given.lang}" if given.lang else given.kind
        return Table(("number", "term", column), ((*it, "") for it in rows))
    return Table(("number", "term"), rows)


def mappings(store: Store, given: argparse.Namespace) -> Table:
    """Mappings to concepts elsewhere, with what these are called as far as a desk knows that."""
    rows = (
        (it.number, store.term(it.number, given.langs), kind, end, name_elsewhere(store, end, given.langs))
        for it in store.live_concepts()
        for kind in MAPPINGS
        for end in store.others(it.number, [kind], at_a=True)
        if isinstance(end, str)
    )
    return Table(("number", "term", "kind", "iri", "label"), rows)


def name_elsewhere(store: Store, iri: End, langs: Iterable[str]) -> str:
    """Returns what a concept elsewhere is called, or nothing."""
    return store.term(iri, langs) if isinstance(iri, str) and iri in store.names_elsewhere else ""


def orphans(store: Store, given: argparse.Namespace) -> Table:
    """Live concepts without broader, narrower and related ones."""
    kinds = (*BROADER, "related")
    rows = (
        (it.number, store.term(it.number, given.langs))
        for it in store.live_concepts()
        if not store.others(it.number, kinds, at_a=True, at_b=True)
    )
    return Table(("number", "term"), rows)


def tops(store: Store, given: argparse.Namespace) -> Table:
    """Live concepts without a broader one, with the number of concepts below each."""
    rows = (
        (it.scheme, it.number, store.term(it.number, given.langs), sum(1 for _ in walk_down(store, it.number)) - 1)
        for it in store.live_concepts()
        if not store.broader(it.number)
    )
    return Table(("scheme", "number", "term", "below"), rows)


def ways_up(store: Store, number: int) -> Iterator[tuple[int, ...]]:
    """Yields each way from a top concept down to a concept, the lowest numbers first."""
    waiting: list[tuple[int, ...]] = [(number,)]
    while waiting:
        way = waiting.pop()
        broader = store.broader(way[0])
        if not broader:
            yield way
        waiting += [(it, *way) for it in reversed(broader)]


def path(store: Store, given: argparse.Namespace) -> Table:
    """The ways from the top down to a concept."""
    store.live_concept(given.number)
    ways = list(itertools.islice(ways_up(store, given.number), given.most + 1))
    if len(ways) > given.most:
        print(f"report: there are more ways than {given.most}; --most N shows more", file=sys.stderr)
    rows = (
        (SEPARATOR.join(store.term(it, given.langs) for it in way), SEPARATOR.join(map(str, way)))
        for way in ways[: given.most]
    )
    return Table(("path", "numbers"), rows)


def walk_down(store: Store, number: int) -> Iterator[tuple[int, int]]:
    """Yields a concept and those below it, each once, with the fewest steps that lead to it."""
    waiting, met = deque([(0, number)]), {number}
    while waiting:
        depth, here = waiting.popleft()
        yield depth, here
        for it in store.narrower(here):
            if it not in met:
                met.add(it)
                waiting.append((depth + 1, it))


def below(store: Store, given: argparse.Namespace) -> Table:
    """Concepts below a concept, each once, the nearest first."""
    store.live_concept(given.number)
    rows = (
        (depth, it, store.term(it, given.langs))
        for depth, it in walk_down(store, given.number)
        if 0 < depth <= given.depth
    )
    return Table(("steps", "number", "term"), rows)


def duplicates(store: Store, given: argparse.Namespace) -> Table:
    """Labels that live concepts of one scheme share in a language, but for case, spaces, dashes, quotes and stops."""
    groups: dict[tuple, list[Label]] = defaultdict(list)
    alike = (lambda text: fold(normalize(text))) if given.accents else normalize
    for concept in store.live_concepts():
        for label in store.labels_of.get(concept.number, ()):
            if label.kind != "scope":
                groups[concept.scheme, label.tag, alike(label.text)].append(label)
    shared = [group for _, group in sorted(groups.items()) if len({it.owner for it in group}) > 1]
    rows = (
        (place, it.owner, it.kind, it.tag, it.text, store.term(it.owner, given.langs))
        for place, group in enumerate(shared, 1)
        for it in group
    )
    return Table(("group", "number", "label", "lang", "text", "term"), rows)


def each_count(store: Store, langs: list[str]) -> Iterator[tuple]:
    """Yields how much there is of everything."""
    for (kind, state), count in sorted(
        Counter((it.kind, state_of(it).split()[0]) for it in store.resources.values()).items()
    ):
        yield f"{kind}s", state, count
    for scheme, count in sorted(Counter(it.scheme for it in store.live_concepts()).items()):
        yield f"live concepts of scheme {scheme}", store.term(scheme, langs), count
    mapped = {it.b for it in store.links if isinstance(it.b, str)}
    yield "outside concepts", "in mappings", len(mapped)
    if len(store.outside) > len(mapped):
        yield "outside concepts", "in no mapping", len(store.outside) - len(mapped)
    for (kind, tag), count in sorted(Counter((it.kind, it.tag) for it in store.labels).items()):
        yield f"labels {kind}", tag, count
    for kind, count in sorted(Counter(it.kind for it in store.links).items()):
        yield "links", kind, count
    for name, count in sorted(store.totals().items()):
        yield "postings", name, count


def counts(store: Store, given: argparse.Namespace) -> Table:
    """How much there is of everything; with --concepts, the postings at each concept and at all below it."""
    if given.concepts:
        return counts_of_concepts(store, given)
    return Table(("what", "which", "count"), each_count(store, given.langs))


def counts_of_concepts(store: Store, given: argparse.Namespace) -> Table:
    """The postings at each live concept, and at it and all concepts below it."""
    at = store.count_postings()
    rows = (
        (
            it.number,
            store.term(it.number, given.langs),
            at.get(it.number, 0),
            sum(at.get(number, 0) for _, number in walk_down(store, it.number)),
        )
        for it in store.live_concepts()
    )
    return Table(("number", "term", "postings", "with below"), rows)


def record(store: Store, given: argparse.Namespace) -> Table:
    """Postings of a catalogue record, and the concept of each."""
    wanted = fold(given.name)
    is_wanted = (lambda name: wanted in fold(name)) if given.part else (lambda name: name == given.name)
    rows = (
        (
            it.number,
            it.key,
            it.record,
            it.first,
            it.place,
            store.term(it.place, given.langs),
            "withdrawn" if it.is_withdrawn else "standing",
        )
        for it in store.each_posting()
        if is_wanted(it.record)
    )
    return Table(("posting", "key", "record", "first", "place", "term", "state"), rows)


def records(store: Store, given: argparse.Namespace) -> Table:
    """Postings at a concept; with --below also at all concepts below it."""
    store.live_concept(given.number)
    places = {it for _, it in walk_down(store, given.number)} if given.below else {given.number}
    terms = {it: store.term(it, given.langs) for it in places}
    rows = ((it.number, it.key, it.record, it.place, terms[it.place]) for it in store.postings_at(places))
    return Table(("posting", "key", "record", "place", "term"), rows)


def moves(store: Store, given: argparse.Namespace) -> Table:
    """The moves of a posting, or with --concept those from and to a concept."""
    if given.concept:
        store.concept(given.number)
        found = [it for it in store.each_move() if given.number in (it.source, it.target)]
    else:
        store.posting(given.number)
        found = store.moves_of(given.number)
    rows = (
        (
            it.number,
            it.posting,
            it.source,
            store.term(it.source, given.langs),
            it.target,
            store.term(it.target, given.langs),
        )
        for it in found
    )
    return Table(("move", "posting", "from", "term", "to", "its term"), rows)


def changed(store: Store, given: argparse.Namespace) -> Table:
    """What was made, changed and posted since a copy was taken."""

    def rows() -> Iterator[tuple]:
        with open_file(given.since) as then:
            for what, number, detail in changes_since(then, store, given.langs):
                yield what, number, store.term(number, given.langs) if number in store.resources else "", detail

    return Table(("change", "number", "term", "detail"), rows())


REPORTS = (find, missing, mappings, orphans, tops, path, below, duplicates, counts, record, records, moves, changed)
