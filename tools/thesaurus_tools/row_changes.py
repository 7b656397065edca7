"""Turns the rows of a table into requests: new concepts, terms, links, moves, merges, ends and postings."""
from __future__ import annotations

import re
from collections.abc import Callable, Container, Iterator
from typing import Protocol

from thesaurus_tools.concept_finder import ConceptFinder, RowError
from thesaurus_tools.drafts import Draft, Reference
from thesaurus_tools.entities import entity_address
from thesaurus_tools.exact_rows import ExactRows, IsSeen, value_requests
from thesaurus_tools.exchanges import Rename
from thesaurus_tools.headings import APPROVED, LINKS, Column, status_of
from thesaurus_tools.kinds import BROADER, CODES, LABEL_KINDS, MAPPINGS
from thesaurus_tools.link_rules import IRI_FORM
from thesaurus_tools.row_order import NamedEnd
from thesaurus_tools.row_postings import PostingRows
from thesaurus_tools.values import as_in_cell, texts_of

# What a row can ask for, with other words for it in the column `do`.
DEEDS = {
    "new": "new|add|neu|nouveau",
    "change": "change|andern|changer",
    "translate": "translate|ubersetzen|traduire",
    "rename": "rename|umbenennen|renommer",
    "move": "move|verschieben|deplacer",
    "merge": "merge|zusammenlegen|zusammenfuhren|fusionner",
    "deprecate": "deprecate|end|remove|delete|take out of use|stilllegen|streichen|loschen|supprimer",
    "post": "post|index|erschliessen|indexieren|indexer",
    "withdraw": "withdraw|zuruckziehen|retirer",
    "split": "split|aufteilen|teilen|scinder|diviser",
    "": "|-|no|nothing|keep|nichts|rien",
}
BY_DEED = {word: deed for deed, words in DEEDS.items() for word in words.split("|")}
OUTSIDE = "outside "
LINE_BREAK = re.compile(r"\s*\n\s*")
# What is one value of a cell, also with a | in it.
WHOLE = ("scope", "record", "key")


class Options(Protocol):
    """What is said of a table beside its columns."""

    @property
    def lang(self) -> str:
        ...

    @property
    def scheme(self) -> int | None:
        ...

    @property
    def forget(self) -> bool:
        ...

    @property
    def replace(self) -> bool:
        ...

    @property
    def exact(self) -> bool | None:
        ...


class RowReader:
    """Turns rows into requests over a draft, which takes them up at once. `is_seen` is asked for the marks of rows."""

    def __init__(self, draft: Draft, columns: list[Column], given: Options, is_seen: IsSeen | None = None):
        self.draft, self.columns, self.given, self.is_seen = draft, columns, given, is_seen
        self.finder = ConceptFinder(draft, given.lang, given.scheme)
        self.roles = {it.role for it in columns}
        self.outside: dict[str, Reference] = {**draft.store.outside}
        self.exact = ExactRows(self, not given.forget)
        postings = PostingRows(self)
        self.deeds: dict[str, Callable[[str, list[str]], Iterator[dict]]] = {
            "new": self.add_concept, "change": self.change, "translate": self.change, "rename": self.rename,
            "move": self.move, "merge": self.merge, "deprecate": self.deprecate, "post": postings.post,
            "withdraw": postings.withdraw, "split": postings.split,
        }  # fmt: skip
        self.deed, self.line, self.part_of = "", 0, 0
        # The concept that the row is about, if it was found before, and the terms that it has got by an exchange.
        self.known: Reference | None = None
        self.exchanged: set[str] = set()
        # The preferred terms that rows so far give, each with the line of its first row.
        self.gave: dict[tuple[str, str], int] = {}
        # What the cells of links say that another row says, too, which is done later.
        self.left_to_others: set[NamedEnd] = set()

    def read(self, line: int, deed: str, cells: list[str]) -> list[dict]:
        """Returns the requests of a row. `part_of` is then the line of an earlier one with which it is done, or 0.
        Raises RowError if it can't be done."""
        self.deed, self.line, self.part_of = deed, line, 0
        requests = []
        for it in self.deeds[deed](f"row {line}", cells) if deed else ():
            self.draft.apply(it)
            requests.append(it)
            if it["do"] in ("concept", "split", "relabel") or it.get("kind") == "pref":
                self.gave.setdefault((it["tag"], it["text"]), line)
        return requests

    # --- cells ---

    def values(self, role: str, cells: list[str]) -> list[tuple[Column, str]]:
        """Returns the values of columns with a role: | parts several values of a cell, but not in notes and records,
        and in a term that is only compared."""
        found = []
        for column, cell in zip(self.columns, cells):
            if column.role == role:
                is_whole = role in WHOLE or role == "pref" and not column.tag
                # (no term, note or name has line breaks)
                line = LINE_BREAK.sub(" ", cell)
                parts = [line] if is_whole else line.split("|")
                found += [(column, it.strip()) for it in parts if it.strip()]
        return found

    def value(self, role: str, cells: list[str]) -> str:
        """Returns the one value of a role, or nothing."""
        found = [text for _, text in self.values(role, cells)]
        if len(found) > 1:
            raise RowError("several_values", role=role, values=", ".join(found))
        return found[0] if found else ""

    def language(self, cells: list[str]) -> str:
        """Returns the language of a row's new term."""
        return self.value("lang", cells).lower() or self.given.lang

    def concept(self, cells: list[str]) -> Reference:
        """Returns the concept that a row is about, by its columns concept, iri, code or old, or its preferred term."""
        return self.known if self.known is not None else self.found(cells, self.finder.find)

    def found(self, cells: list[str], find: Callable[[str], Reference]) -> Reference:
        """Returns what a row is about, as a finder finds it by its name."""
        for role in ("concept", "iri", "code", "old"):
            if name := self.value(role, cells):
                return find(name)
        preferred = [text for column, text in self.values("pref", cells) if column.tag == self.given.lang]
        if preferred and self.deed != "rename":
            return find(preferred[0])
        for (name, tag), texts in self.values_of_fields(cells).items():
            if name == "notation" and texts and self.deed != "new":
                return self.finder.find_notation(tag, texts[0])
        raise RowError("no_concept")

    # --- terms and notes ---

    def add_concept(self, name: str, cells: list[str]) -> Iterator[dict]:
        preferred = [(column.tag or self.given.lang, text) for column, text in self.values("pref", cells)]
        preferred = preferred or [(self.given.lang, self.value("new", cells))]
        tag, text = next((it for it in preferred if it[0] == self.given.lang), preferred[0])
        if not text:
            raise RowError("no_preferred")
        if there := self.holders(text, tag):
            self.check_rows(tag, text)
            raise RowError("there", text=text, concepts=self.finder.candidates(there))
        yield {"as": name, "do": "concept", "scheme": self.given.scheme, "tag": tag, "text": text}
        self.check_terms(f"${name}", cells)
        yield from self.add_labels(f"${name}", self.labels(cells))
        yield from self.add_codes(f"${name}", cells)
        yield from self.set_values(f"${name}", cells)
        yield from self.add_links(f"${name}", cells)

    def new_terms_of(self, cells: list[str]) -> list[str]:
        """Returns the preferred terms that a row gives to a new concept."""
        return [text for role in ("pref", "new") for _, text in self.values(role, cells)]

    def holders(self, text: str, tag: str | None = None) -> set[Reference]:
        """Returns the concepts in use of the scheme that have a preferred term, in a language or in any."""
        preferred = {it for it, kind, its in self.draft.by_text.get(text, ()) if kind == "pref" and tag in (None, its)}
        return {it for it in preferred if self.draft.is_live(it) and self.draft.scheme_of(it) == self.given.scheme}

    def change(self, name: str, cells: list[str]) -> Iterator[dict]:
        concept = self.checked_concept(cells)
        for it in self.changes(concept, cells):
            # (of what is no longer in use a row may have all that it has, as of any other)
            self.finder.check_live(concept)
            yield it

    def changes(self, concept: Reference, cells: list[str]) -> Iterator[dict]:
        """Yields the requests that give a concept what a row says of it."""
        if self.is_exact(cells):
            yield from self.exact.changes(concept, cells, self.is_as_seen(concept, cells))
            yield from self.add_labels(concept, self.named_labels(cells))
            yield from self.add_codes(concept, cells)
            return
        if self.given.replace:
            yield from self.drop_replaced(concept, cells)
        yield from self.add_labels(concept, self.labels(cells))
        yield from self.add_codes(concept, cells)
        yield from self.set_values(concept, cells)
        yield from self.add_links(concept, cells)

    def is_exact(self, cells: list[str]) -> bool:
        """Whether each cell of a row of changes says exactly what its concept is to have: as the user says, or if the
        row has a mark of what was seen, which is asked for."""
        if self.deed != "change" or self.given.exact is not None:
            return self.deed == "change" and bool(self.given.exact)
        return self.is_seen is not None and bool(self.value("seen", cells))

    def is_as_seen(self, concept: Reference, cells: list[str]) -> bool:
        """Whether a concept is as a row saw it. Raises RowError if the mark is that of another one."""
        mark = self.value("seen", cells)
        if mark and mark.partition(".")[0] != str(concept):
            raise RowError("seen_of_other", number=concept, term=self.draft.term(concept))
        return not mark or self.is_seen is None or self.is_seen(mark)

    def keeps_term(self, tag: str, cells: list[str]) -> bool:
        """Whether a preferred term in a language that a row replaces becomes an alternative one."""
        return self.exact.keeps_term(tag) if self.is_exact(cells) else not self.given.forget

    def add_codes(self, owner: Reference, cells: list[str]) -> Iterator[dict]:
        """Yields the requests for codes that a concept lacks: they are hidden terms, by which rows find it."""
        there = {text for _, _, text in self.draft.labels_of(owner)}
        for _, text in self.values("code", cells):
            if text not in there:
                yield {"do": "addLabel", "owner": owner, "kind": "hidden", "tag": CODES, "text": text}

    def values_of_fields(self, cells: list[str]) -> dict[tuple[str, str], list[str]]:
        """Returns the values of a row by the names of their fields, with the language or code."""
        found: dict[tuple[str, str], list[str]] = {}
        for column, cell in zip(self.columns, cells):
            if cell and column.field in self.draft.store.fields:
                its = found.setdefault((column.field, column.tag), [])
                texts = texts_of(self.draft.store.fields[column.field], cell)
                # (approved is what has no status)
                its += [it for it in map(status_of, texts) if it != APPROVED] if column.field == "status" else texts
        return found

    def set_values(self, owner: Reference, cells: list[str]) -> Iterator[dict]:
        """Yields the requests that give a resource the values of a row: in a table of changes a filled cell has all
        of its field in its language, so that others go, and so has that of a field of one value; elsewhere it has what
        is added."""
        for (name, tag), texts in self.values_of_fields(cells).items():
            held = self.draft.held(owner, name, tag)
            new = [it for it in texts if it not in map(as_in_cell, held)]
            is_whole = self.deed == "change" or not self.draft.store.fields[name].is_many
            old = [it for it in held if as_in_cell(it) not in texts] if is_whole else []
            # (the source of what is changed stays)
            yield from value_requests(owner, (name, tag), old, new)

    def labels(self, cells: list[str]) -> list[tuple[str, str, str]]:
        """Returns the terms and notes of a row, as kind, language and text."""
        found = [(it.role, it.tag, text) for kind in LABEL_KINDS for it, text in self.values(kind, cells)]
        return [*found, *self.named_labels(cells)]

    def named_labels(self, cells: list[str]) -> list[tuple[str, str, str]]:
        """Returns the term or note whose kind, language and text have columns of their own."""
        kind, tag, text = (self.value(it, cells) for it in ("label", "lang", "text"))
        return [(kind, tag.lower(), text)] if text and kind in LABEL_KINDS else []

    def add_labels(self, owner: Reference, labels: list[tuple[str, str, str]]) -> Iterator[dict]:
        """Yields the requests for terms and notes that a concept lacks."""
        for kind, tag, text in labels:
            if tag and kind == "pref":
                yield from self.set_preferred(owner, tag, text, not self.given.forget)
            elif tag and (kind, tag, text) not in self.draft.labels_of(owner):
                yield {"do": "addLabel", "owner": owner, "kind": kind, "tag": tag, "text": text}

    def drop_replaced(self, owner: Reference, cells: list[str]) -> Iterator[dict]:
        """Yields the requests that remove the terms and the note in whose place filled cells have others: but not of
        several notes, of which a cell shows one, and no term with the sign that parts terms."""
        for kind in ("alt", "hidden", "scope"):
            wanted: dict[str, list[str]] = {}
            for column, text in self.values(kind, cells):
                wanted.setdefault(column.tag, []).append(text)
            for tag, texts in wanted.items():
                there = self.draft.texts(owner, kind, tag)
                for text in there if kind != "scope" or len(there) == 1 else ():
                    if text not in texts and (kind == "scope" or "|" not in text):
                        yield {"do": "dropLabel", "owner": owner, "kind": kind, "tag": tag, "text": text}

    def checked_concept(self, cells: list[str]) -> Reference:
        """Returns what a row is about, of which it may have terms that are only compared: a number or an address may
        also give a collection, a scheme, or what is no longer in use."""
        if self.known is not None:
            return self.known
        concept = self.found(cells, self.finder.find_any)
        self.check_terms(concept, cells)
        return concept

    def check_terms(self, owner: Reference, cells: list[str]) -> None:
        """Checks that a term without a language is one of the concept's: a row may be about another one."""
        own = {text for _, _, text in self.draft.labels_of(owner)}
        for text in [text for _, tag, text in self.labels(cells) if not tag]:
            if text not in own and text != f"[{owner}]":
                raise RowError("other_term", number=owner, term=self.draft.term(owner), text=text)

    def set_preferred(self, owner: Reference, tag: str, text: str, keep: bool) -> Iterator[dict]:
        """Yields the requests that make a term the preferred one of its language, also if it is an alternative one;
        the one before is kept as such, if that is wanted."""
        (old,) = self.draft.texts(owner, "pref", tag) or [""]
        if old == text:
            return
        if old and self.deed == "translate":
            raise RowError("has_preferred", term=self.draft.term(owner), old=old, tag=tag, text=text)
        self.check_free(owner, tag, text)
        for kind in ("alt", "hidden"):
            if (kind, tag, text) in self.draft.labels_of(owner):
                yield {"do": "dropLabel", "owner": owner, "kind": kind, "tag": tag, "text": text}
        if old:
            yield {"do": "relabel", "owner": owner, "tag": tag, "text": text, "keep": keep}
        else:
            yield {"do": "addLabel", "owner": owner, "kind": "pref", "tag": tag, "text": text}

    def check_free(self, owner: Reference, tag: str, text: str) -> None:
        """Checks that no other concept of the scheme has a preferred term, in use or by an earlier row."""
        scheme = self.draft.scheme_of(owner)
        holders = {it for it, kind, its in self.draft.by_text.get(text, ()) if (kind, its) == ("pref", tag)} - {owner}
        holders = {it for it in holders if self.finder.is_of(it, "concept", scheme) and self.draft.is_live(it)}
        if holders and self.finder.is_of(owner, "concept", None):
            self.check_rows(tag, text)
            raise RowError("taken", text=text, concepts=self.finder.candidates(holders))

    def check_rows(self, tag: str, text: str) -> None:
        """Raises RowError if an earlier row of the table gives a preferred term."""
        if (tag, text) in self.gave:
            raise RowError("twice", text=text, row=self.gave[tag, text])

    def rename(self, name: str, cells: list[str]) -> Iterator[dict]:
        concept = self.checked_concept(cells)
        for it in self.new_terms(concept, cells):
            self.finder.check_live(concept)
            yield it

    def new_terms(self, concept: Reference, cells: list[str]) -> Iterator[dict]:
        """Yields the requests that give a concept a new term in place of the one that a row names."""
        tag, text = self.new_term(cells)
        kind, tag, old = self.named_label(concept, tag, cells)
        if text and text not in self.exchanged:
            yield from self.replace_label(concept, (kind, tag, old), text)
        yield from self.add_labels(concept, self.labels(cells))

    def replace_label(self, owner: Reference, old: tuple[str, str, str], text: str) -> Iterator[dict]:
        """Yields the requests that give a concept a term in place of another one of its kind and language."""
        kind, tag, before = old
        if kind == "pref" and not before:
            raise RowError("lacks_preferred" if tag else "no_language", term=self.draft.term(owner), tag=tag)
        if kind == "pref":
            yield from self.set_preferred(owner, tag, text, not self.given.forget)
        elif text != before:
            label = {"owner": owner, "kind": kind, "tag": tag}
            yield {"do": "dropLabel", **label, "text": before}
            if not any((it, tag, text) in self.draft.labels_of(owner) for it in LABEL_KINDS[:3]):
                yield {"do": "addLabel", **label, "text": text}

    def named_label(self, concept: Reference, tag: str, cells: list[str]) -> tuple[str, str, str]:
        """Returns the term in whose place a row has a new one: that of its column old, if it is one of the concept's,
        or else the preferred term in a language, with no text if there is none."""
        named = self.value("old", cells)
        own = [it for it in self.draft.labels_of(concept) if it[0] in LABEL_KINDS[:3] and it[2] == named]
        if own:
            return min(own, key=lambda it: (it[1] != tag, LABEL_KINDS.index(it[0]), it[1]))
        return ("pref", tag, next(iter(self.draft.texts(concept, "pref", tag)), ""))

    def new_term(self, cells: list[str]) -> tuple[str, str]:
        """Returns the language and the text of the term that a row of renames gives."""
        text = self.value("new", cells)
        tag = next((column.tag for column, _ in self.values("new", cells)), "")
        return tag or self.language(cells), text

    def renames(self, place: int, deed: str, cells: list[str]) -> Iterator[Rename]:
        """Yields the preferred terms that the row at a place would change, as the store is before the table."""
        self.deed = deed
        concept = self.checked_concept(cells)
        scheme, wanted = self.draft.scheme_of(concept), []
        if deed == "rename":
            kind, tag, _ = self.named_label(concept, self.new_term(cells)[0], cells)
            wanted = [(tag, self.new_term(cells)[1])] if kind == "pref" else []
        for tag, text in [*wanted, *((tag, text) for kind, tag, text in self.labels(cells) if kind == "pref" and tag)]:
            for old in self.draft.texts(concept, "pref", tag):
                if text and text != old:
                    yield Rename(place, concept, (scheme, tag, old), (scheme, tag, text))

    # --- links ---

    def add_links(self, concept: Reference, cells: list[str]) -> Iterator[dict]:
        """Yields the requests for links that a concept lacks."""
        for kind in LINKS:
            for _, text in self.values(kind, cells):
                if NamedEnd(kind, text) not in self.left_to_others:
                    yield from self.add_link(kind, concept, text)

    def add_link(self, kind: str, concept: Reference, text: str) -> Iterator[dict]:
        """Yields what links a concept to the one that a cell names."""
        a, b = concept, concept
        if kind in MAPPINGS and (address := self.address_elsewhere(text)):
            yield from self.name_outside(address)
            b = self.outside.get(address, f"${OUTSIDE}{address}")
            is_there = self.draft.has_link(kind, a, address) or self.draft.has_link(kind, a, b)
            if not is_there:
                yield {"do": "link", "kind": kind, "a": a, "b": b}
            return
        scheme = None if kind in MAPPINGS else self.draft.scheme_of(concept)
        if kind == "members":
            other = self.finder.find_any(text)
        else:
            other = self.finder.find(text, "collection" if kind == "member" else "concept", scheme)
        if kind in ("narrower", "member"):
            kind, a = "broader" if kind == "narrower" else kind, other
        elif kind == "members":
            kind, b = "member", other
        else:
            b = other
        typed = BROADER if kind == "broader" else (kind,)
        if not any(self.draft.has_link(it, a, b) for it in typed):
            yield {"do": "link", "kind": kind, "a": a, "b": b}

    def address_elsewhere(self, text: str) -> str:
        """Returns the address elsewhere that the cell of a match means, or nothing: a term, or an address here."""
        address = text if self.draft.by_text.get(text) else entity_address(text)
        return address if IRI_FORM.fullmatch(address) and not address.startswith(self.draft.store.base) else ""

    def name_outside(self, iri: str) -> Iterator[dict]:
        """Yields the request for an outside concept that the store doesn't know."""
        if iri not in self.outside:
            self.outside[iri] = f"${OUTSIDE}{iri}"
            yield {"as": f"{OUTSIDE}{iri}", "do": "outside", "iri": iri}

    def move(self, name: str, cells: list[str]) -> Iterator[dict]:
        # (a table has all places, or those of a type; without a column there is nothing to compare)
        compared = BROADER if "broader" in self.roles else self.roles.intersection(BROADER)
        concept = self.checked_concept(cells)
        for it in self.new_places(concept, cells, compared):
            self.finder.check_live(concept)
            yield it

    def new_places(self, concept: Reference, cells: list[str], compared: Container[str]) -> Iterator[dict]:
        """Yields the requests that give a concept the places of a row, for those that it has of the types compared."""
        before = [it for it in self.draft.broader_links(concept) if it[0] in compared]
        places = [(kind, text) for kind in BROADER for _, text in self.values(kind, cells)]
        scheme, kinds = self.draft.scheme_of(concept), {kind for kind, _ in before}
        # (a place without a type gets the type of the old place, if there is one)
        plain = next(iter(kinds)) if len(kinds) == 1 else "broader"
        named = [(kind, self.finder.find(text, "concept", scheme)) for kind, text in places]
        typed = {above for kind, above in named if kind != "broader"}
        wanted = [it for it in named if it[0] != "broader"]
        for above in (above for kind, above in named if kind == "broader" and above not in typed):
            there = [it for it in before if it[1] == above]
            wanted += there or [(plain, above)]
        # The new place first, so that the concept is never without one.
        for kind, above in wanted:
            if (kind, above) not in before:
                yield {"do": "link", "kind": kind, "a": concept, "b": above}
        for kind, above in before:
            if (kind, above) not in wanted:
                yield {"do": "unlink", "kind": kind, "a": concept, "b": above}

    # --- merges and ends ---

    def merge(self, name: str, cells: list[str]) -> Iterator[dict]:
        into = self.value("into", cells)
        if into:
            source = self.concept(cells)
            target = self.finder.find(into, "concept", self.draft.scheme_of(source))
            if source == target:
                raise RowError("into_itself", term=self.draft.term(source))
            yield {"do": "merge", "source": source, "target": target}

    def deprecate(self, name: str, cells: list[str]) -> Iterator[dict]:
        yield {"do": "deprecate", "concept": self.concept(cells)}
