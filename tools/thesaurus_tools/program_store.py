"""A thesaurus read from a program that serves it, elsewhere or where this user doesn't see its files."""
from __future__ import annotations

from collections.abc import Collection, Iterator, Mapping
from functools import cached_property

from thesaurus_tools.command_line import REFUSED, ToolError
from thesaurus_tools.export_store import ExportStore, read_contents
from thesaurus_tools.kinds import BROADER
from thesaurus_tools.ntriples import parse_ntriples
from thesaurus_tools.server import Server
from thesaurus_tools.store import Contents, End, Link, Move, Posting, by_ends


class ServedStore(ExportStore):
    """The store of a program that serves: its export, and what else is asked for. Others may change it meanwhile."""

    has_types = True

    def __init__(self, server: Server, contents: Contents):
        super().__init__(server.name, contents)
        self.server = server
        # Links have their types once `links` is asked for.
        self.untyped = self.__dict__.pop("links")

    def look(self, what: str, number: int) -> dict:
        """Returns the program's view of a concept or of a posting."""
        return self.server.ask({"get": what, "number": number})

    @cached_property
    def views(self) -> dict[int, dict]:
        """The program's view of each concept."""
        return {it.number: self.look("concept", it.number) for it in self.resources.values() if it.kind == "concept"}

    @cached_property  # type: ignore[override]
    def links(self) -> set[Link]:
        typed = {
            Link(kind, number, to) for number, it in self.views.items() for kind, to in it["typed"] if kind in BROADER
        }
        pairs = {(it.a, it.b) for it in typed}
        return typed | {it for it in self.untyped if it.kind != "broader" or (it.a, it.b) not in pairs}

    @cached_property
    def untyped_of(self) -> dict[End, list[Link]]:
        """The links of each resource, with broader ones as if they had no types."""
        return by_ends(self.untyped)

    def links_for(self, kinds: Collection[str]) -> Mapping[End, list[Link]]:
        # (for types each concept is asked, so they are left out where they make no difference)
        asks_types = not set(kinds).isdisjoint(BROADER) and not set(kinds).issuperset(BROADER)
        return self.links_of if asks_types else self.untyped_of

    def each_history(self) -> Iterator[dict]:
        """Yields the program's view of each posting."""
        return (self.look("posting", number) for number in range(1, self.totals()["accepted"] + 1))

    def each_posting(self) -> Iterator[Posting]:
        return (posting_of(it) for it in self.each_history())

    def each_move(self) -> Iterator[Move]:
        return iter(sorted(move for it in self.each_history() for move in moves_in(it)))

    def postings_at(self, places: Collection[int]) -> Iterator[Posting]:
        answers = (self.server.ask({"get": "postings", "concept": it}) for it in places)
        return map(self.posting, sorted(number for it in answers for number, _, _ in it["postings"]))

    def posting(self, number: int) -> Posting:
        found = self.look("posting", number)
        if "no" in found:
            raise ToolError(f"{self.name}: no posting has the number {number}", REFUSED)
        return posting_of(found)

    def moves_of(self, number: int) -> list[Move]:
        return moves_in(self.look("posting", number))

    def count_postings(self) -> dict[int, int]:
        return {number: it["postings"] for number, it in self.views.items() if it["postings"]}

    def totals(self) -> dict[str, int]:
        return self.server.ask({"get": "totals"})


def read_served(server: Server) -> ServedStore:
    """Reads the export of a server. Raises ToolError if its numbers aren't those of the program."""
    try:
        contents = read_contents(server.name, parse_ntriples(server.export(), f"{server.name}/export"))
    except ToolError as error:
        raise ToolError(str(error)) from None  # (what a server exports is no input that can be corrected)
    store = ServedStore(server, contents)
    number = next((it for it, found in store.resources.items() if found.kind == "concept"), None)
    if number and "number" not in store.look("concept", number):
        raise ToolError(
            f"{store.name}: no concept has the number {number}: "
            "a store whose base ends in a digit can't be read over HTTP"
        )
    return store


def posting_of(view: dict) -> Posting:
    """Returns the posting in the program's view of it."""
    return Posting(view["number"], view["key"], view["record"], view["first"], view["place"], view["withdrawn"])


def moves_in(view: dict) -> list[Move]:
    """Returns the moves in the program's view of a posting."""
    return [Move(move, view["number"], source, target) for move, source, target in view["moves"]]
