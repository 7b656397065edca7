"""Keeps a triple store equal to a thesaurus: whole at first, and then by the differences after each change."""
from __future__ import annotations

import re
from collections import defaultdict
from collections.abc import Callable, Iterable, Iterator, Mapping, Set
from dataclasses import dataclass
from pathlib import Path

from thesaurus_tools.command_line import REFUSED, ToolError
from thesaurus_tools.feed_state import FedState
from thesaurus_tools.line_differences import Lines, differences
from thesaurus_tools.ntriples import Node, Triple, parse_statement
from thesaurus_tools.triple_store import TripleStore, plain

# The most triples of an update; the most resources that a query is about, and the most rows of its answer; the most
# bytes of a part of a graph.
MOST_TRIPLES, MOST_ASKED, MOST_ROWS, MOST_BYTES = 500, 100, 2000, 500_000
# A sign by its code, and the most bytes of a wrong line that are shown.
CODED, SHOWN = re.compile(rb"(?<!\\)(?:\\\\)*\\[uU]"), 60
# As many subjects are found faster by the beginnings of lines.
FEW = 4


@dataclass(frozen=True)
class FeedResult:
    """What was done: how many triples were removed and added, and whether all of them were put anew."""

    removed: int
    added: int
    is_whole: bool = False


class Feed:
    """Feeds a triple store. With `compared` each call that changes nothing compares so many resources, one after
    another, and otherwise all."""

    def __init__(self, target: TripleStore, state: Path, report: Callable[[str], object], compared: int = 0):
        self.target, self.state, self.report = target, FedState(state).read(), report
        self.compared, self.place = compared, 0
        # A graph for what is put anew, until it takes the place of the other one.
        self.beside = f"{target.graph}-new"

    def feed(self, export: bytes) -> FeedResult:
        """Makes the triple store equal to an export, in which no line stands twice.

        Raises ToolError if it can't be; then the next call puts all of it anew."""
        now = [it for it in export.splitlines() if it]
        if not now:
            raise ToolError("there are no triples, so nothing is fed", REFUSED)
        known = self.state.known
        if known is None:
            return self.put_all(now)
        gone, come = differences(known, now)
        check_triples(come)
        if not gone and not come:
            return FeedResult(0, 0) if self.is_equal(now, self.next_subjects(now)) else self.put_all(now)
        # (what others wrote meanwhile is found by the count after the update, too)
        self.state.begin()
        self.send(gone, come)
        if not self.is_equal(now, subjects_of(gone | come)):
            self.report("the store differs after an update, so all of it is put anew")
            return self.put_all(now)
        self.state.note(now, gone, come)
        return FeedResult(len(gone), len(come))

    def next_subjects(self, now: Lines) -> list[str]:
        """Returns the subjects to be compared by a call that changes nothing."""
        subjects = subjects_of(now)
        if not self.compared:
            return subjects
        start = self.place if self.place < len(subjects) else 0
        self.place = start + self.compared
        return subjects[start : self.place]

    def put_all(self, now: Lines) -> FeedResult:
        """Puts all triples in place of those there. Readers see the old ones until the new ones are all there: these
        are put in a graph beside, which takes the other's place by one update."""
        check_triples(now)
        self.state.forget()
        self.target.update(f"CLEAR SILENT GRAPH <{self.beside}>")
        if self.target.graph_store_url:
            for part in parts_of(now, MOST_BYTES):
                self.target.post(b"\n".join(part) + b"\n", self.beside)
        else:
            for at in range(0, len(now), MOST_TRIPLES):
                self.target.update(update_of(self.beside, (), now[at : at + MOST_TRIPLES]))
        self.target.update(f"MOVE GRAPH <{self.beside}> TO GRAPH <{self.target.graph}>")
        if self.target.count() != len(now):
            self.report(f"the store says that it has {self.target.count()} triples, and not {len(now)}")
        self.state.note_all(now)
        return FeedResult(0, len(now), True)

    def send(self, gone: Iterable[bytes], come: Iterable[bytes]) -> None:
        """Sends differences, resource by resource: what goes of it and what comes are one update."""
        changes: dict[bytes, tuple[list[bytes], list[bytes]]] = defaultdict(lambda: ([], []))
        for place, lines in enumerate((gone, come)):
            for line in lines:
                changes[line.partition(b" ")[0]][place].append(line)
        removed: list[bytes] = []
        added: list[bytes] = []
        for _, (less, more) in sorted(changes.items()):
            if len(removed) + len(added) + len(less) + len(more) > MOST_TRIPLES and (removed or added):
                self.target.update(update_of(self.target.graph, removed, added))
                removed, added = [], []
            removed += less
            added += more
        if removed or added:
            self.target.update(update_of(self.target.graph, removed, added))

    def is_equal(self, now: Lines, subjects: list[str]) -> bool:
        """Whether the store has as many triples as it should, and says of what has changed what it should."""
        if self.target.count() != len(now):
            return False
        wanted: dict[str, set[tuple[str, str, Node]]] = defaultdict(set)
        chosen = {f"<{it}>".encode() for it in subjects}
        for triple in map(parse, lines_about(chosen, now)):
            if triple:
                wanted[str(triple.subject)].add((str(triple.subject), str(triple.predicate), plain(triple.object)))
        # (of a resource with very many triples a store may not answer all: they are counted)
        large = [it for it in subjects if len(wanted[it]) > MOST_ROWS]
        if any(self.target.count(it) != len(wanted[it]) for it in large):
            return False
        parts = asked_together([it for it in subjects if len(wanted[it]) <= MOST_ROWS], wanted)
        return all(self.target.about(part) == set().union(*(wanted[it] for it in part)) for part in parts)


def asked_together(subjects: Iterable[str], wanted: Mapping[str, Set[object]]) -> Iterator[list[str]]:
    """Yields subjects in parts: as many as a query may be about, with as many triples as its answer may have."""
    part: list[str] = []
    rows = 0
    for it in subjects:
        if part and (len(part) == MOST_ASKED or rows + len(wanted[it]) > MOST_ROWS):
            yield part
            part, rows = [], 0
        part.append(it)
        rows += len(wanted[it])
    if part:
        yield part


def parts_of(lines: Lines, most: int) -> Iterator[Lines]:
    """Yields lines in parts of some bytes."""
    part: Lines = []
    size = 0
    for it in lines:
        if part and size + len(it) > most:
            yield part
            part, size = [], 0
        part.append(it)
        size += len(it) + 1
    if part:
        yield part


def update_of(graph: str, removed: Iterable[bytes], added: Iterable[bytes]) -> str:
    """Returns the SPARQL Update that removes triples from a graph, and adds others."""
    parts = [
        f"{what} DATA {{ GRAPH <{graph}> {{\n" + b"\n".join(sorted(lines)).decode() + "\n} }"
        for what, lines in (("DELETE", removed), ("INSERT", added))
        if lines
    ]
    return " ;\n".join(parts)


def lines_about(subjects: set[bytes], lines: Lines) -> Lines:
    """Returns the triples of some subjects."""
    if len(subjects) <= FEW:
        starts = tuple(it + b" " for it in subjects)
        return [it for it in lines if it.startswith(starts)]
    return [it for it in lines if it.partition(b" ")[0] in subjects]


def check_triples(lines: Iterable[bytes]) -> None:
    """Raises ToolError for a line that isn't a triple as the program writes it. It would be a part of an update, in
    which SPARQL reads the codes of signs before all else."""
    for it in lines:
        try:
            is_triple = not CODED.search(it) and parse(it) is not None
        except ValueError:
            is_triple = False
        if not is_triple:
            raise ToolError(f"a line is no triple of an export, so nothing is fed: {it[:SHOWN]!r}", REFUSED)


def parse(line: bytes) -> Triple | None:
    """Returns the triple of a line."""
    return parse_statement(line.decode())


def subjects_of(lines: Iterable[bytes]) -> list[str]:
    """Returns the subjects of triples, each once."""
    found = {it.partition(b" ")[0].strip(b"<>").decode() for it in lines}
    return sorted(found, key=lambda it: (len(it), it))
