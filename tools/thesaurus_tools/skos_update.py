"""Brings a thesaurus up to date from SKOS: compares what a file wants with a store, concept by concept, and makes rows
of what differs: new, changed, merged, out of use, and no longer in the file.

A concept of the file is the store's own if it has an IRI of the store, or else the one that has its IRI as an exact
match. What the file has none of isn't compared, as a language or related terms: it is the office's own. Of a file with
several schemes the one that is brought up to date is compared; what is of another one is told, and stays."""
from __future__ import annotations

from collections import Counter, defaultdict
from collections.abc import Callable, Iterable, Iterator, Mapping, Sequence, Set
from dataclasses import dataclass, field
from functools import cached_property
from typing import NamedTuple

from thesaurus_tools.concept_finder import RowError
from thesaurus_tools.drafts import Reference
from thesaurus_tools.kinds import BROADER, MAPPINGS
from thesaurus_tools.link_rules import OUTSIDE
from thesaurus_tools.row_runner import RowPlan
from thesaurus_tools.site_export import start_of
from thesaurus_tools.store import Store, normal_link

# A label: its kind, its language and its text. A value of a field: the field, its tag, and what a request has of it.
Label = tuple[str, str, str]
Value = tuple[str, str, object]
ValuesOf = Callable[[int], Iterable[Value]]


@dataclass
class FileResource:
    """A scheme, a concept or a collection as the file has it; `links` are kinds and names."""

    name: str
    kind: str
    labels: set[Label] = field(default_factory=set)
    scheme: str = ""
    links: set[tuple[str, str]] = field(default_factory=set)
    values: list[Value] = field(default_factory=list)
    is_dead: bool = False
    replaced: str = ""

    def targets(self, *kinds: str) -> set[str]:
        """Returns the names to which links of some kinds lead."""
        return {it for kind, it in self.links if kind in kinds}

    def term(self) -> str:
        """Returns a preferred label."""
        return min(text for kind, _, text in self.labels if kind == "pref")


def wanted_of(requests: Iterable[dict]) -> dict[str, FileResource]:
    """Returns what the script of a converter makes, by the names in it. Outside concepts aren't among it."""
    found: dict[str, FileResource] = {}
    for it in requests:
        do, owner = it["do"], found.get(str(it.get("owner", ""))[1:])
        if do in ("scheme", "concept", "collection"):
            found[it["as"]] = FileResource(
                it["as"], do, {("pref", it["tag"], it["text"])}, str(it.get("scheme", ""))[1:]
            )
        elif do == "addLabel" and owner:
            owner.labels.add((it["kind"], it["tag"], it["text"]))
        elif do == "relabel" and owner:
            owner.labels = {one for one in owner.labels if one[:2] != ("pref", it["tag"])}
            owner.labels.add(("pref", it["tag"], it["text"]))
        elif do == "set" and owner:
            owner.values.append((it["field"], it["tag"], it["new"]))
        elif do == "link":
            a, b = it["a"][1:], it["b"][1:]
            found[a].links.add((it["kind"], b))
            if it["kind"] == "related":
                found[b].links.add(("related", a))
        elif do == "deprecate":
            found[it["concept"][1:]].is_dead = True
        elif do == "merge":
            source = found[it["source"][1:]]
            source.is_dead, source.replaced = True, it["target"][1:]
    return found


class ComparedParts(NamedTuple):
    """What is compared of some resources: languages, kinds of labels and fields, of which the file has some."""

    tags: set[str]
    kinds: set[str]
    fields: set[str]

    @staticmethod
    def of(wanted: Iterable[FileResource], *kinds: str) -> ComparedParts:
        """Returns what resources of a file have; some kinds of labels are compared in any case."""
        its = list(wanted)
        labels = [label for it in its for label in it.labels]
        fields = {name for it in its for name, _, _ in it.values}
        return ComparedParts({tag for _, tag, _ in labels}, {*kinds, *(kind for kind, _, _ in labels)}, fields)


class SkosUpdate:
    """What differs between a store and a file, as rows of requests."""

    def __init__(
        self, store: Store, wanted: Mapping[str, FileResource], scheme: int, values: ValuesOf, ends_gone: bool
    ):
        self.store, self.scheme, self.values, self.ends_gone = store, scheme, values, ends_gone
        self.schemes = {name: it for name, it in wanted.items() if it.kind == "scheme"}
        self.all = {name: it for name, it in wanted.items() if it.kind != "scheme"}
        self.numbers = self.find_numbers()
        self.own_schemes = self.find_schemes()
        # What is compared: all that isn't of another scheme.
        self.wanted = {name: it for name, it in self.all.items() if it.scheme in self.own_schemes}
        self.forget_alike()
        self.compared = ComparedParts.of(self.wanted.values(), "pref", "alt")
        self.links = {kind for it in self.wanted.values() for kind, _ in it.links}
        self.names = {number: name for name, number in self.numbers.items() if self.is_live(name)}
        self.plans: list[RowPlan] = []
        self.outside: dict[str, Reference] = {**store.outside}

    # --- which is which ---

    @cached_property
    def by_iri(self) -> dict[str, int]:
        """The live concepts by the IRIs elsewhere that are their exact matches: first those of the scheme."""
        its = self.store.resources
        links = [it for it in self.store.links if it.kind == "exact" and isinstance(it.b, str)]
        found = [(its[it.a], str(it.b)) for it in links if isinstance(it.a, int) and its[it.a].is_live]
        return {iri: it.number for it, iri in sorted(found, key=lambda one: one[0].scheme == self.scheme)}

    def find_numbers(self) -> dict[str, int]:
        """Returns the numbers of what the store has of the file."""
        collections = {
            (it.tag, it.text): it.owner
            for it in self.store.labels
            if it.kind == "pref" and self.store.resources[it.owner].kind == "collection"
        }
        found: dict[str, int] = {}
        for name, it in self.all.items():
            number = self.own_number(name)
            known = self.store.resources.get(number or 0)
            if known and known.kind == it.kind:
                found[name] = known.number
            elif it.kind == "concept" and name in self.by_iri:
                found[name] = self.by_iri[name]
            elif it.kind == "collection":
                held = [collections[tag, text] for _, tag, text in sorted(it.labels) if (tag, text) in collections]
                found.update({name: one for one in held[:1]})
        return found

    def find_schemes(self) -> set[str]:
        """Returns the names of the schemes of the file that are the one of the store: the only one, or the one that has
        its IRI, most of its concepts, or its term; and the one of what has none in the file, whose name is no IRI."""
        made = {it for it in self.schemes if ":" not in it}
        others = [it for it in sorted({*self.schemes} - made) if self.own_number(it) in (None, self.scheme)]
        if len(others) < 2 and len({*self.schemes} - made) < 2:
            return made | {*others}
        its = [it for name, it in self.all.items() if self.scheme_of(name) == self.scheme]
        counts = Counter(it.scheme for it in its)
        labels = {(it.kind, it.tag, it.text) for it in self.store.labels_of.get(self.scheme, ())}

        def fit(name: str) -> tuple[bool, int, int]:
            return self.own_number(name) == self.scheme, counts[name], len(labels & self.schemes[name].labels)

        return made | {it for it in sorted(others, key=fit)[-1:] if any(fit(it))}

    def scheme_of(self, name: str) -> int | None:
        """Returns the scheme in which the store has a concept or a collection of the file, if it has it."""
        return self.store.resources[self.numbers[name]].scheme if name in self.numbers else None

    def forget_alike(self) -> None:
        """Has what another scheme of the store has by the same IRI or term be another concept or collection."""
        for name in self.wanted:
            if name in self.numbers and self.own_number(name) is None and self.scheme_of(name) != self.scheme:
                del self.numbers[name]

    def is_live(self, name: str) -> bool:
        """Whether something is compared, and in use in the file."""
        return name in self.wanted and not self.wanted[name].is_dead

    def own_number(self, name: str) -> int | None:
        """Returns the number in an IRI of the store."""
        number = name.removeprefix(self.store.base) if self.store.base and name.startswith(self.store.base) else ""
        return int(number) if number.isascii() and number.isdigit() and len(number) < 11 else None

    def reference(self, name: str) -> Reference:
        """Returns the number of what a name means, or the name by which its request makes it."""
        if name.startswith(OUTSIDE):
            return self.outside.get(name.removeprefix(OUTSIDE), f"${name}")
        return self.numbers.get(name) or f"${name}"

    # --- rows ---

    def rows(self) -> list[RowPlan]:
        """Returns the rows: the schemes, what is new with its broader concepts before it, what changes, what ends."""
        self.add_schemes()
        live = [it for it in self.from_top() if not it.is_dead]
        made: set[str] = set()
        for it in live:
            if it.name not in self.numbers:
                made.add(it.name)
                self.add(it, self.new_resource(it, made))
        for it in live:
            if it.name in self.numbers:
                self.add_change(it)
        for it in sorted(self.wanted.values(), key=lambda one: one.name):
            number = self.numbers.get(it.name)
            if it.is_dead and number and number not in self.names and self.store.resources[number].is_live:
                self.add(it, self.end(it, number))
        self.add_gone()
        return self.plans

    def from_top(self) -> Iterator[FileResource]:
        """Yields concepts with their broader ones before them, and then collections."""
        seen: set[str] = set()
        for name in sorted(self.wanted, key=lambda it: (self.wanted[it].kind == "collection", len(it), it)):
            waiting = [name]
            while waiting:
                above = [it for it in sorted(self.wanted[waiting[-1]].targets(*BROADER)) if it not in seen]
                if waiting[-1] not in seen and above and above[0] not in waiting:
                    waiting.append(above[0])
                    continue
                it = waiting.pop()
                if it not in seen:
                    seen.add(it)
                    yield self.wanted[it]

    def add(self, it: FileResource, requests: Iterable[dict], error: RowError | None = None) -> None:
        """Adds a row."""
        its = [] if error else list(requests)
        self.plans.append(RowPlan(len(self.plans) + 1, [it.term(), it.name], its, str(error or ""), error))

    def add_schemes(self) -> None:
        """Adds the row of the scheme, and those that tell what the file has in other schemes, which stays as it is."""
        for name, it in sorted(self.schemes.items()):
            if name not in self.own_schemes:
                count = sum(one.scheme == name for one in self.all.values())
                self.add(it, (), RowError("other_scheme", count=count))
            elif ":" in name:
                self.add(it, self.own_changes(self.scheme, it, ComparedParts.of([it])))
        for name, it in sorted(self.all.items()):
            if name not in self.wanted and self.scheme_of(name) == self.scheme:
                self.add(it, (), RowError("in_other_scheme", scheme=self.schemes[it.scheme].term()))

    def add_change(self, it: FileResource) -> None:
        """Adds the row of what is in the store."""
        number = self.numbers[it.name]
        error = None
        if not self.store.resources[number].is_live:
            error = RowError("ended", number=number, term=self.store.term(number))
        elif self.names[number] != it.name:
            error = RowError("same_match", other=self.names[number], term=self.store.term(number))
        self.add(it, () if error else self.changes(number, it), error)

    def new_resource(self, it: FileResource, made: set[str]) -> Iterator[dict]:
        """Yields the requests that make a concept or a collection. Links to what comes later are added there."""
        name, first = f"${it.name}", min(one for one in it.labels if one[0] == "pref")
        yield {"as": it.name, "do": it.kind, "scheme": self.scheme, "tag": first[1], "text": first[2]}
        for kind, tag, text in sorted(it.labels - {first}):
            yield {"do": "addLabel", "owner": name, "kind": kind, "tag": tag, "text": text}
        for its, tag, new in it.values:
            yield {"do": "set", "owner": name, "field": its, "tag": tag, "old": None, "new": new}
        matches = {("exact", OUTSIDE + it.name)} if it.kind == "concept" and self.own_number(it.name) is None else set()
        for kind, other in sorted((kind, self.end_of(kind, one)) for kind, one in it.links | matches):
            if other.startswith(OUTSIDE):
                yield from self.name_outside(other.removeprefix(OUTSIDE))
            if other.startswith(OUTSIDE) or other in self.numbers or other in made:
                yield {"do": "link", "kind": kind, "a": name, "b": self.reference(other)}

    def end_of(self, kind: str, name: str) -> str:
        """Returns what a link of the file leads to: by a match, a concept that the store hasn't is an outside one."""
        is_known = name.startswith(OUTSIDE) or name in self.numbers
        return name if is_known or kind not in MAPPINGS else OUTSIDE + name

    def name_outside(self, iri: str) -> Iterator[dict]:
        """Yields the request for an outside concept that the store doesn't know."""
        if iri not in self.outside:
            self.outside[iri] = f"${OUTSIDE}{iri}"
            yield {"as": f"{OUTSIDE}{iri}", "do": "outside", "iri": iri}

    # --- what changes ---

    def changes(self, number: int, it: FileResource) -> Iterator[dict]:
        """Yields the requests that make a resource of the store as the file has it."""
        yield from self.own_changes(number, it, self.compared)
        if it.kind == "collection":
            yield from self.link_changes(number, it, ("member",))
        else:
            yield from self.link_changes(number, it, BROADER)
            yield from self.link_changes(number, it, ("related",))
            yield from self.new_matches(number, it)

    def own_changes(self, number: int, it: FileResource, compared: ComparedParts) -> Iterator[dict]:
        """Yields the requests that change labels, notes and values."""
        known = {(one.kind, one.tag, one.text) for one in self.store.labels_of.get(number, ())}
        there = {one for one in known if one[0] in compared.kinds and one[1] in compared.tags}
        yield from self.label_changes(number, there, it.labels)
        yield from self.value_changes(number, it.values, compared.fields)

    @staticmethod
    def label_changes(owner: int, there: set[Label], wanted: set[Label]) -> Iterator[dict]:
        """Yields the requests that change labels and notes: preferred ones by a new text."""
        gone, come = there - wanted, wanted - there
        renamed = {tag: text for kind, tag, text in gone if kind == "pref"}
        for kind, tag, text in sorted(gone):
            if kind != "pref":
                yield {"do": "dropLabel", "owner": owner, "kind": kind, "tag": tag, "text": text}
        for kind, tag, text in sorted(come, key=lambda it: (it[0] != "pref", it)):
            if kind == "pref" and tag in renamed:
                old = ("alt", tag, renamed.pop(tag))
                yield {"do": "relabel", "owner": owner, "tag": tag, "text": text, "keep": old in come}
                come = come - {old}
            elif (kind, tag, text) in come:
                yield {"do": "addLabel", "owner": owner, "kind": kind, "tag": tag, "text": text}
        for tag, text in sorted(renamed.items()):
            yield {"do": "dropLabel", "owner": owner, "kind": "pref", "tag": tag, "text": text}

    def value_changes(self, owner: int, wanted: Sequence[Value], fields: Set[str]) -> Iterator[dict]:
        """Yields the requests that change values of some fields."""
        places = dict.fromkeys((name, tag) for name, tag, _ in wanted)
        there: dict[tuple[str, str], list[object]] = defaultdict(list)
        for name, tag, text in self.values(owner):
            if name in fields:
                there[name, tag].append(text)
        for name, tag in dict.fromkeys([*places, *there]):
            new = [text for its, of, text in wanted if (its, of) == (name, tag)]
            gone = [it for it in there[name, tag] if it not in new]
            come = [it for it in new if it not in there[name, tag]]
            for place in range(max(len(gone), len(come))):
                old, text = (its[place] if place < len(its) else None for its in (gone, come))
                yield {"do": "set", "owner": owner, "field": name, "tag": tag, "old": old, "new": text}

    def link_changes(self, number: int, it: FileResource, kinds: Sequence[str]) -> Iterator[dict]:
        """Yields the requests for links of some kinds, if the file has such: those that lack, then those that it hasn't
        between its own. A type that the store knows stays where the file has none."""
        if not self.links.intersection(kinds):
            return
        there: dict[int, set[str]] = defaultdict(set)
        for link in self.store.links_of.get(number, ()):
            is_from = link.a == number or link.kind == "related"
            other = link.b if link.a == number else link.a
            if link.kind in kinds and is_from and isinstance(other, int):
                there[other].add(link.kind)
        wanted: dict[Reference, set[str]] = defaultdict(set)
        for kind, name in sorted(it.links):
            # (what two concepts have in common is done once: at the later one, or where one is new)
            if kind in kinds and name in self.wanted and not self.wanted[name].is_dead:
                wanted[self.reference(name)].add(kind)
        for end, types in wanted.items():
            known = there.get(end, set()) if isinstance(end, int) else set()
            for kind in sorted(types - known if types != {"broader"} or not known else ()):
                if kind != "related" or isinstance(end, int) and end < number:
                    yield {"do": "link", "kind": kind, "a": number, "b": end}
        for end, known in sorted(there.items()):
            types = wanted.get(end, set())
            for kind in sorted(known - types if end in self.names and types != {"broader"} else ()):
                if kind != "related" or end < number:
                    yield {"do": "unlink", "kind": kind, "a": number, "b": end}

    def new_matches(self, number: int, it: FileResource) -> Iterator[dict]:
        """Yields the requests for matches that a concept lacks. Others may be the office's own, and stay."""
        for kind, name in sorted((kind, self.end_of(kind, one)) for kind, one in it.links):
            iri = name.removeprefix(OUTSIDE)
            end = self.reference(name)
            if kind in MAPPINGS and end != number and normal_link(kind, number, iri) not in self.store.links:
                if isinstance(end, int) and normal_link(kind, number, end) in self.store.links:
                    continue
                if name.startswith(OUTSIDE):
                    yield from self.name_outside(iri)
                yield {"do": "link", "kind": kind, "a": number, "b": end}

    # --- what ends ---

    def end(self, it: FileResource, number: int) -> Iterator[dict]:
        """Yields the requests that merge a concept into what replaces it, or take it out of use."""
        target, seen = it, {it.name}
        while target.is_dead and target.replaced in self.wanted and target.replaced not in seen:
            target = self.wanted[target.replaced]
            seen.add(target.name)
        if target.is_dead:
            yield {"do": "deprecate", "concept": number}
            return
        end = self.reference(target.name)
        yield {"do": "merge", "source": number, "target": end}
        # (a merge gives the target the labels and the places of the source, which the file may not have there)
        known = self.store.labels_of.get(end, ()) if isinstance(end, int) else ()
        kept = {(tag, text) for _, tag, text in target.labels} | {(one.tag, one.text) for one in known}
        for label in sorted(self.store.labels_of.get(number, ())):
            if label.kind != "scope" and label.tag in self.compared.tags and (label.tag, label.text) not in kept:
                kind = "hidden" if label.kind == "hidden" else "alt"
                yield {"do": "dropLabel", "owner": end, "kind": kind, "tag": label.tag, "text": label.text}

    def add_gone(self) -> None:
        """Adds a row for each live concept of the scheme that came from such a file and isn't in it."""
        if not self.wanted:
            return
        own = sum(self.own_number(it) is not None for it in self.numbers)
        starts = {start_of(it) for it in self.wanted}
        iris = defaultdict(list)
        for iri, number in self.by_iri.items():
            if start_of(iri) in starts:
                iris[number].append(iri)
        found = set(self.numbers.values())
        for it in sorted(self.store.resources.values()):
            name = f"{self.store.base}{it.number}" if 2 * own > len(self.numbers) else min(iris[it.number], default="")
            if name and it.kind == "concept" and it.is_live and it.scheme == self.scheme and it.number not in found:
                gone = FileResource(name, "concept", {("pref", "", self.store.term(it.number))})
                error = None if self.ends_gone else RowError("gone")
                self.add(gone, [{"do": "deprecate", "concept": it.number}], error)
