"""Prints the script that takes a merge back as far as can be, for a look before tools/load performs it.

The source of a merge is dead for good. So the script makes a new concept with the source's labels and notes, and gives
it the links that the source had, and the postings that the merge moved; the target loses the labels and links that it
got by the merge. What both had before is read from a copy of the store, or from an export, taken before the merge. A
copy is better: an export has neither the types of broader links nor moves. What can't be taken back is reported on
standard error. With tools/load --as-one all of the script is done or nothing, of up to 128 requests.

Example, where concept 4 was merged, and backup/museum.db is a copy from before:
  tools/unmerge --db museum.db --before backup/museum.db 4 > back.jsonl
  cat back.jsonl
  tools/load --db museum.db --as-one back.jsonl

Exit status: 0 done, 1 refused (as a concept that wasn't merged, or whose target is dead, too), 2 usage, 3 a fault.
"""
from __future__ import annotations

import contextlib
from collections.abc import Iterable, Iterator
from pathlib import Path

from thesaurus_tools.command_line import DONE, REFUSED, USAGE, ToolError, parser_of, run, say
from thesaurus_tools.export_store import store_of_export
from thesaurus_tools.kinds import BROADER
from thesaurus_tools.ntriples import read_ntriples
from thesaurus_tools.store_options import add_store_arguments, open_file, open_store
from thesaurus_tools.requests import print_requests
from thesaurus_tools.store import End, Label, Link, Store, link_order, normal_link
from thesaurus_tools.table_store import TableStore

# The name of the new concept in the script, and what a merge makes of the source's labels.
BACK = "$back"
TAKEN_AS = {"pref": "alt", "alt": "alt", "hidden": "hidden"}


def remark(text: str) -> None:
    """Reports what the script doesn't take back."""
    say("unmerge", text)


def listing(numbers: Iterable[int]) -> str:
    return ", ".join(map(str, sorted(numbers)))


def target_of(now: Store, before: Store, source: int) -> int:
    """Returns the concept into which one was merged. Raises ToolError if the merge can't be taken back."""
    merged = now.concept(source)
    target = merged.replaced
    if not target:
        raise ToolError(
            f"{now.name}: concept {source} wasn't merged: it is {'live' if merged.is_live else 'deprecated'}",
            REFUSED,
        )
    if not now.resources[target].is_live:
        raise ToolError(
            f"{now.name}: concept {source} was merged into {target}, which is dead, too: take that back first",
            REFUSED,
        )
    for number in (source, target):
        if not before.concept(number).is_live:
            raise ToolError(
                f"{before.name}: concept {number} is dead there already: take what was saved before the merge",
                REFUSED,
            )
    return target


class Unmerge:
    """A merge to take back: the store now and before, and the two concepts."""

    def __init__(self, now: Store, before: Store, source: int, target: int):
        self.now, self.before, self.source, self.target = now, before, source, target
        # The names of other publishers' concepts whose numbers aren't known.
        self.names: dict[str, str] = {}

    # --- postings ---

    def postings(self, first_move: int) -> list[int]:
        """Returns the postings that go back: those whose last move is from the source to the target, but for withdrawn
        ones."""
        last, moved = {}, set()
        for it in self.now.each_move():
            last[it.posting] = it
            if (it.source, it.target) == (self.source, self.target) and it.number >= first_move:
                moved.add(it.posting)
        gone_on = {it for it in moved if (last[it].source, last[it].target) != (self.source, self.target)}
        withdrawn = {it.number for it in self.now.each_posting() if it.is_withdrawn and it.number in moved - gone_on}
        if withdrawn:
            remark(f"withdrawn postings stay at {self.target}: {listing(withdrawn)}")
        if gone_on:
            remark(f"postings that were moved on since stay where they are: {listing(gone_on)}")
        return sorted(moved - gone_on - withdrawn)

    # --- labels ---

    @property
    def own_labels(self) -> list[Label]:
        """The source's labels and notes, which it keeps when it dies."""
        return self.now.labels_of[self.source]

    def taken(self) -> set[tuple[str, str]]:
        """Returns the tags and texts of preferred labels of the scheme's live concepts."""
        scheme = self.now.resources[self.source].scheme
        owners = {it.number for it in self.now.live_concepts() if it.scheme == scheme}
        return {it[2:] for it in self.now.labels if it.kind == "pref" and it.owner in owners}

    def first_label(self, tag: str | None, text: str | None) -> tuple[str, str]:
        """Returns the tag and text of the preferred label that the new concept is made with."""
        if tag and text:
            return tag, text
        taken = self.taken()
        free = [it[2:] for it in self.own_labels if it.kind == "pref" and it[2:] not in taken]
        if not free:
            raise ToolError(
                (
                    f"{self.now.name}: each preferred label of {self.source} is another concept's by now: "
                    "give --tag and --text"
                ),
                REFUSED,
            )
        return min(free, key=lambda it: it[0] != self.now.main_language)

    def dropped_labels(self) -> Iterator[dict]:
        """Yields the requests that take from the target the labels that it got by the merge."""
        had = {it[2:] for it in self.before.labels_of[self.target] if it.kind != "scope"}
        now = set(self.now.labels_of[self.target])
        for _, kind, *words in self.own_labels:
            if kind in TAKEN_AS and tuple(words) not in had and Label(self.target, TAKEN_AS[kind], *words) in now:
                yield label_request("dropLabel", self.target, TAKEN_AS[kind], *words)

    def given_labels(self, first: tuple[str, str]) -> Iterator[dict]:
        """Yields the requests that give the new concept the source's other labels and notes."""
        taken = self.taken()
        for _, kind, *words in self.own_labels:
            if kind == "pref" and words[0] == first[0]:
                kind = "alt"
            if kind == "pref" and tuple(words) in taken:
                remark(f"the preferred label {words[1]} ({words[0]}) is another concept's by now, and is left out")
            elif kind == "scope" or tuple(words) != first:
                yield label_request("addLabel", BACK, kind, *words)

    # --- links ---

    def ends(self, link: Link, number: int | str) -> list[End | None]:
        """Returns the ends of a link of the source, with another number for it; the other end as it is now, None if
        it's deprecated."""
        return [number if it == self.source else self.live_end(it) for it in (link.a, link.b)]

    def live_end(self, end: End) -> End | None:
        """Returns the live concept to which a concept leads, or another end as it is."""
        is_concept = isinstance(end, int) and self.now.resources[end].kind == "concept"
        return self.now.live_end(end) if isinstance(end, int) and is_concept else end

    def is_targets(self, link: Link) -> bool:
        """Whether the target had the same link before."""
        return (
            normal_link(link.kind, *(self.target if it == self.source else it for it in link[1:])) in self.before.links
        )

    def returned(self, link: Link) -> tuple[list[str], list[Link]]:
        """Returns the kinds of link that the new concept gets for one of the source's, and the links that the target
        loses."""
        a, b = self.ends(link, self.target)
        assert a is not None and b is not None
        kinds = BROADER if link.kind == "broader" and not self.before.has_types else (link.kind,)
        found = [it for it in (normal_link(kind, a, b) for kind in kinds) if it in self.now.links]
        lost = [] if self.is_targets(link) else found
        if kinds == (link.kind,):
            return [link.kind], lost
        if lost or len(found) == 1 and self.now.has_plain:
            return [it.kind for it in found], lost
        remark(f"the type of the link broader {link.a} {link.b} isn't known: an export has none")
        return ["broader"], lost

    def number(self, end: End) -> int | str:
        """Returns what a request names an end by: its number, or a name for one whose number isn't known."""
        if isinstance(end, int) or end == BACK:
            return end
        return self.now.outside.get(end) or self.names.setdefault(end, f"$outside{len(self.names) + 1}")

    def link_requests(self) -> list[dict]:
        """Returns the requests that take links from the target, and then those that give the new concept its links."""
        dropped, given = [], []
        for link in sorted(self.before.links_of[self.source], key=link_order):
            ends = [it for it in self.ends(link, BACK) if it is not None]
            if len(ends) < 2:
                remark(f"the link {' '.join(map(str, link))} is left out: its other end is deprecated by now")
                continue
            kinds, lost = self.returned(link)
            dropped += [link_request("unlink", it.kind, *map(self.number, it[1:])) for it in lost]
            given += [link_request("link", kind, *map(self.number, ends)) for kind in kinds]
        made = [{"as": name[1:], "do": "outside", "iri": iri} for iri, name in self.names.items()]
        return [*made, *dropped, *given]

    def script(self, first: tuple[str, str], first_move: int) -> Iterator[dict]:
        """Yields the requests in their order."""
        split = {
            "do": "split",
            "source": self.target,
            "tag": first[0],
            "text": first[1],
            "postings": self.postings(first_move),
        }
        yield {"as": BACK[1:], **split}
        yield from self.dropped_labels()
        yield from self.given_labels(first)
        yield from self.link_requests()
        remark(f"the concept gets a new number; {self.source} stays dead, and forwards postings to {self.target} still")


def label_request(do: str, owner: int | str, kind: str, tag: str, text: str) -> dict:
    return {"do": do, "owner": owner, "kind": kind, "tag": tag, "text": text}


def link_request(do: str, kind: str, a: int | str, b: int | str) -> dict:
    return {"do": do, "kind": kind, "a": a, "b": b}


@contextlib.contextmanager
def open_before(path: Path, now: Store) -> Iterator[Store]:
    """Opens the export or the copy that was taken before the merge."""
    try:
        with open(path, "rb") as file:
            is_copy = file.read(16) == b"SQLite format 3\0"
    except OSError as error:
        raise ToolError(f"{path}: {error.strerror}") from None
    if not is_copy:
        yield store_of_export(str(path), read_ntriples(path), now.base)
        return
    with open_file(path) as store:
        if store.base != now.base:
            raise ToolError(f"{path}: not a copy of {now.name}: its IRIs begin with {store.base}", REFUSED)
        yield store


def first_move(unmerge: Unmerge, given: int | None) -> int:
    """Returns the number from which moves may be the merge's."""
    if given:
        return given
    if isinstance(unmerge.before, TableStore):
        return sum(1 for _ in unmerge.before.each_move()) + 1
    if unmerge.target > unmerge.source:
        remark(
            (
                f"if {unmerge.target} was split from {unmerge.source} once, the postings of that split "
                "are listed, too, unless --first-move leaves them out"
            )
        )
    return 1


def main() -> int:
    parser = parser_of("unmerge", __doc__)
    add_store_arguments(parser)
    parser.add_argument(
        "--before",
        metavar="FILE",
        type=Path,
        required=True,
        help="a copy of the store, or an export, from before the merge",
    )
    parser.add_argument(
        "--first-move",
        metavar="N",
        type=int,
        help="the number of the merge's first move (tools/report moves --concept)",
    )
    parser.add_argument("--tag", help="the language of --text")
    parser.add_argument("--text", help="a preferred label for the new concept, where the old ones are taken")
    parser.add_argument(
        "-o", "--output", type=Path, metavar="FILE", help="write to this file, and not to standard output"
    )
    parser.add_argument("source", metavar="SOURCE", type=int, help="the concept that was merged into another")
    given = parser.parse_args()
    if bool(given.tag) != bool(given.text):
        raise ToolError("--tag and --text go together", USAGE)
    with open_store(given) as now, open_before(given.before, now) as before:
        unmerge = Unmerge(now, before, given.source, target_of(now, before, given.source))
        requests = list(
            unmerge.script(unmerge.first_label(given.tag, given.text), first_move(unmerge, given.first_move))
        )
    print_requests(requests, given.output)
    return DONE


def command() -> None:
    """Runs it, and ends with its exit status."""
    run("unmerge", main)
