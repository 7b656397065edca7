"""Plans what the rows of a table ask for, over a draft of the store."""
from __future__ import annotations

import contextlib
from collections.abc import Iterator
from dataclasses import dataclass, replace

from thesaurus_tools.command_line import USAGE, ToolError
from thesaurus_tools.concept_finder import RowError
from thesaurus_tools.drafts import Draft, Reference
from thesaurus_tools.exact_rows import IsSeen
from thesaurus_tools.exchanges import Rename, Term, groups_of, ordered_renames, relabel
from thesaurus_tools.headings import LINKS, OF_FIELD, Column, fold_heading
from thesaurus_tools.row_changes import BY_DEED, RowReader
from thesaurus_tools.row_order import NamedEnd, RowOrder
from thesaurus_tools.row_runner import RowPlan
from thesaurus_tools.spreadsheets import Row
from thesaurus_tools.store import Store

NOTATION = f"{OF_FIELD}notation"
# The kinds of tables: what each row asks for, and the columns that it needs.
KINDS = {
    "new": ("new", "each row is a new concept: a preferred term; perhaps broader, other terms, notes and links"),
    "translations": ("translate", "terms and notes that concepts lack; a preferred term that is there stays"),
    "renames": ("rename", "concept (or old) and new; the old term becomes a non-preferred one, unless --forget"),
    "moves": ("move", "concept and broader: the new places; all others are left"),
    "merges": ("merge", "concept and into"),
    "postings": ("post", "record and concept; perhaps key"),
    "splits": ("split", "record, concept and new: rows with one concept and one new term are a split"),
}


@dataclass(frozen=True)
class TableOptions:
    """What is said of a table beside its columns: its kind, the language of terms, the scheme of new concepts."""

    kind: str = ""
    lang: str = ""
    scheme: int | None = None
    # Whether renames drop the old term; and whether a filled cell replaces other terms and the note of its language.
    forget: bool = False
    replace: bool = False
    # Whether each cell of a row of changes says exactly what its concept is to have, or only what is added to that;
    # None: exactly in the rows with a mark of what was seen.
    exact: bool | None = None


class NewConceptsError(ToolError):
    """New concepts of which it isn't said in which scheme they are, or in which language their terms."""

    def __init__(self) -> None:
        super().__init__("new concepts need --scheme N and --lang TAG", USAGE)


def plan_table(
    store: Store, columns: list[Column], rows: list[Row], options: TableOptions, is_seen: IsSeen | None = None
) -> tuple[Draft, list[RowPlan]]:
    """Returns the store after the table, as far as its rows can be done, and each row with its requests. `is_seen` says
    of the marks of rows whether what they stand for is as it was."""
    draft = Draft(store, [options.lang] if options.lang else [])
    schemes = [it.number for it in store.resources.values() if it.kind == "scheme"]
    if options.scheme is None and len(schemes) == 1:
        options = replace(options, scheme=schemes[0])
    return draft, TableReader(RowReader(draft, columns, options, is_seen), rows, options).read()


def deed_of(columns: list[Column], cells: list[str], options: TableOptions) -> str:
    """Returns what a row asks for: by its column do, the kind of the table, or the columns that it has."""
    for column, cell in zip(columns, cells):
        if column.role == "do" and cell:
            if fold_heading(cell) not in BY_DEED and cell != "-":
                raise RowError("no_deed", cell=cell)
            return BY_DEED.get(fold_heading(cell), "")
    roles = {it.role for it in columns}
    if options.kind or "do" in roles:
        return options.kind or ""
    by_columns = (
        ("into", "merge"),
        ("record", "post"),
        ("new", "rename"),
        ("concept", "change"),
        ("iri", "change"),
        ("code", "change"),
    )
    languages = {it.tag for it in columns if it.role == "pref"}
    if NOTATION in roles and not languages & {"", options.lang}:
        return "change"  # (it says which concept is meant)
    return next((deed for role, deed in by_columns if role in roles), "new")


class TableReader:
    """Turns the rows of a table into requests, in the order in which they are done: those that exchange terms together,
    when the last one's turn is."""

    def __init__(self, reader: RowReader, rows: list[Row], options: TableOptions):
        self.reader, self.rows, self.options = reader, rows, options
        self.plans: dict[int, RowPlan] = {}
        self.order = RowOrder(self.made(), {place: self.ends(row.cells) for place, row in enumerate(rows)})

    def read(self) -> list[RowPlan]:
        """Returns each row with its requests, or with the reason why it can't be done."""
        group_of = {it.place: its for its in groups_of(self.renames()) for it in its}
        reached = set[int]()
        for place in self.order.places(len(self.rows)):
            reached.add(place)
            if place not in group_of:
                self.read_row(place)
            elif reached.issuperset(it.place for it in group_of[place]):
                self.read_group(group_of[place])
        return [self.plans[it] for it in range(len(self.rows))]

    def of_deeds(self, *deeds: str) -> Iterator[tuple[int, str, list[str]]]:
        """Yields the rows that ask for something: the place, what it is, and the cells."""
        for place, row in enumerate(self.rows):
            with contextlib.suppress(RowError):
                deed = deed_of(self.reader.columns, row.cells, self.options)
                if deed in deeds:
                    yield place, deed, row.cells

    def made(self) -> dict[str, int]:
        """Returns the first rows that make concepts by the preferred terms that these get, and that none has."""
        found: dict[str, int] = {}
        for place, _, cells in self.of_deeds("new"):
            for text in self.reader.new_terms_of(cells):
                if not self.reader.holders(text):
                    found.setdefault(text, place)
        return found

    def ends(self, cells: list[str]) -> list[NamedEnd]:
        """Returns what the cells of links and merges say."""
        roles = [it for it in (*LINKS, "into") if it in self.reader.roles]
        return [NamedEnd(role, text) for role in roles for _, text in self.reader.values(role, cells)]

    def renames(self) -> Iterator[Rename]:
        """Yields the preferred terms that rows change, as the store is before the table."""
        for place, deed, cells in self.of_deeds("rename", "change"):
            with contextlib.suppress(RowError):
                yield from self.reader.renames(place, deed, cells)

    def requests_of(self, place: int) -> list[dict]:
        """Returns the requests of a row. Raises RowError if it can't be done, and NewConceptsError."""
        row = self.rows[place]
        deed = deed_of(self.reader.columns, row.cells, self.options)
        if deed == "new" and not (self.options.scheme and self.options.lang):
            raise NewConceptsError
        self.reader.left_to_others = self.order.left_to_others(place)
        try:
            return self.reader.read(row.line, deed, row.cells)
        except RowError as error:
            needed = self.order.made.get(str(error.values.get("text"))) if error.key == "not_called" else None
            if needed is None or needed in self.plans or needed not in self.order.needs(place):
                raise
            # (what a row needs is done before it, unless it needs the row itself)
            raise RowError("ring", text=error.values["text"], row=self.rows[needed].line) from None

    def read_row(self, place: int) -> None:
        """Notes the requests of a row, or the reason why it can't be done."""
        try:
            self.note(place, self.requests_of(place))
        except RowError as error:
            self.note(place, [], error)

    def note(self, place: int, requests: list[dict], error: RowError | None = None) -> None:
        row = self.rows[place]
        by, turn = 0 if error else self.reader.part_of, len(self.plans)
        self.plans[place] = RowPlan(row.line, row.cells, requests, str(error or ""), error, by=by, turn=turn)

    def read_group(self, renames: list[Rename]) -> None:
        """Notes what rows that exchange terms do, one by one if an earlier row has changed such a term."""
        places, draft = sorted({it.place for it in renames}), self.reader.draft
        if not all(draft.is_live(it.concept) and it.old in preferred_terms(draft, it.concept) for it in renames):
            for place in places:
                self.read_row(place)
            return
        before = {it.concept: {*draft.labels_of(it.concept)} for it in renames}
        try:
            self.read_exchange(places, renames)
        except RowError as error:
            for concept, labels in before.items():
                draft.replace_labels(concept, labels)
            for place in places:
                self.note(place, [], error)
        finally:
            self.reader.known, self.reader.exchanged = None, set()

    def read_exchange(self, places: list[int], renames: list[Rename]) -> None:
        """Notes what rows that exchange terms do: the last one has the requests of all. Raises RowError."""
        draft = self.reader.draft
        kept = {it.concept for it in renames if self.reader.keeps_term(it.old[1], self.rows[it.place].cells)}
        requests = ordered_renames(draft, renames, len(kept) == len({it.concept for it in renames}))
        for request in requests:
            draft.apply(request)
        for it in renames:
            self.reader.check_free(it.concept, *it.new[1:])
        last = self.rows[places[-1]].line
        for place in places:
            own = [it for it in renames if it.place == place]
            self.reader.known, self.reader.exchanged = own[0].concept, {it.new[2] for it in own}
            more = self.requests_of(place)
            requests += more
            asked = [*(relabel(it, it.new[2], it.concept in kept) for it in own), *more]
            row = self.rows[place]
            is_last = row.line == last
            its, turn = requests if is_last else [], len(self.plans)
            self.plans[place] = RowPlan(row.line, row.cells, its, asked=asked, by=last, turn=turn)


def preferred_terms(draft: Draft, concept: Reference) -> set[Term]:
    """Returns the preferred terms of a concept."""
    return {(draft.scheme_of(concept), tag, text) for kind, tag, text in draft.labels_of(concept) if kind == "pref"}
