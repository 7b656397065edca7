"""A vocabulary that is to be loaded: what a converter read, and what it found in it that a thesaurus can't have."""
from __future__ import annotations

import re
from collections.abc import Iterable, Mapping
from dataclasses import dataclass, field
from typing import Any, NamedTuple

from thesaurus_tools.fields import ORDER, STANDARD, SUPERORDINATE, TERM_SOURCE, WITHIN, Field, is_tag, is_value, tidy
from thesaurus_tools.finding_messages import FINDINGS, TABLE_FINDINGS
from thesaurus_tools.kinds import BROADER, LABEL_KINDS
from thesaurus_tools.link_rules import LINK_ORDER, LinkRules

MOST_BYTES = {"scope": 2000}
TAG_FORM = re.compile(r"(?=.{1,35}\Z)[A-Za-z]{1,8}(-[A-Za-z0-9]{1,8})*")
CONTROL = re.compile(r"[\x00-\x1f\x7f]+")


def fit_text(text: str, most: int, how: str) -> str | None:
    """Returns a text in the form that the program takes, or None. It is changed only if `how` is trim or cut."""
    if how != "refuse":
        text = CONTROL.sub(" ", text).strip(" ")
    if how == "cut":
        text = text.encode()[:most].decode(errors="ignore").strip(" ")
    return text if 1 <= len(text.encode()) <= most and not CONTROL.search(text) and text.strip(" ") == text else None


def by_numbers(text: str) -> list:
    """Returns a key that sorts the numbers in texts by their size."""
    return [*((int(it), "") if it.isdecimal() else (-1, it) for it in re.split(r"(\d+)", text)), (-2, text)]


class Finding(NamedTuple):
    """What a vocabulary has that a thesaurus can't have: the rule, the resource, and what is left out, as the key of
    its text in FINDINGS, by which others translate it, and its values."""

    rule: str
    resource: str
    key: str
    values: tuple[tuple[str, Any], ...] = ()

    @property
    def what(self) -> str:
        """What is left out, in English."""
        values = dict(self.values)
        at = f"@{values['tag']}" if values.get("tag") else ""
        text = FINDINGS.get(self.key) or TABLE_FINDINGS[self.key]
        return (text if isinstance(text, str) else text[values["n"] != 1]).format(**values, at=at)

    def about(self) -> str:
        """Returns what is concerned: what is lost, the rule that is broken, or that a scheme has no label."""
        return self.group() or (f"{self.rule} of a scheme" if self.key == "no_label_of_scheme" else self.rule)

    def group(self) -> str:
        """Returns what kind of thing is lost: a property, such as `notation`, or a key of LOST; "" for a rule that is
        broken."""
        return (dict(self.values).get("property") or self.key) if self.rule == "lost" else ""


class FieldValue(NamedTuple):
    """A value of a field, as a definition or a notation."""

    field: str
    tag: str
    text: str
    source: str = ""


@dataclass
class Resource:
    """A scheme, a concept or a collection; `replaced` is the name of a dead concept's replacement."""

    name: str
    kind: str
    scheme: str = ""
    labels: dict[str, list[tuple[str, str]]] = field(default_factory=lambda: {it: [] for it in LABEL_KINDS})
    is_dead: bool = False
    replaced: str = ""
    # The values of fields that a desk keeps beside the store.
    values: list[FieldValue] = field(default_factory=list)
    # Of a collection: the names of the concept above it and of the collection around it, and of what is in order in it.
    places: dict[str, list[str]] = field(default_factory=dict)

    def names(self) -> set[tuple[str, str]]:
        """Returns the tags and texts of its labels, but for notes."""
        return {it for kind in LABEL_KINDS[:3] for it in self.labels[kind]}


@dataclass
class Vocabulary:
    """What is to be loaded. What breaks a rule is left out, and noted as a finding."""

    texts: str = "refuse"
    resources: dict[str, Resource] = field(default_factory=dict)
    links: list[tuple[str, str, str]] = field(default_factory=list)
    findings: list[Finding] = field(default_factory=list)
    places: dict[str, str] = field(default_factory=dict)  # what findings call a resource, where that isn't its name
    changed: int = 0
    tops: set[str] = field(default_factory=set)  # concepts that are said to be top concepts
    adopts: bool = False  # whether concepts below one that is left out get its broader concepts
    second: str = ""  # the kind of labels that a second preferred label in a language becomes
    terms: dict[str, str] = field(default_factory=dict)  # the first preferred label of each resource, as it is read
    fields: Mapping[str, Field] = field(default_factory=lambda: STANDARD)

    def find(self, rule: str, resource: str, key: str, **values: Any) -> None:
        self.findings.append(Finding(rule, resource, key, tuple(values.items())))

    def of_kind(self, kind: str) -> list[Resource]:
        return [it for it in self.resources.values() if it.kind == kind]

    def add_label(self, owner: Resource, kind: str, tag: str, text: str) -> None:
        """Adds a label, unless it breaks a rule. Preferred labels are added before alternative and hidden ones."""
        said = {"label_kind": kind, "text": text, "tag": tag}
        fitted = fit_text(text, MOST_BYTES.get(kind, 256), self.texts)
        label = tag.lower(), fitted or ""
        held = owner.labels[kind]
        if kind == "pref":
            self.terms.setdefault(owner.name, text)
        if not TAG_FORM.fullmatch(tag):
            self.find("BadTag", owner.name, "label_tag" if tag else "label_without_tag", **said)
        elif fitted is None:
            self.find("BadText", owner.name, "label_form", **said)
        elif label in held:
            return
        elif kind == "pref" and any(label[0] == it for it, _ in held):
            if self.second:
                self.add_label(owner, self.second, tag, text)
                return
            self.find("S14", owner.name, "second_preferred", **said)
        elif kind != "scope" and label in owner.names():
            self.find("S13", owner.name, "other_kind", **said)
        else:
            self.changed += label[1] != text
            held.append(label)

    def add_value(self, owner: Resource, value: FieldValue) -> None:
        """Adds a value of a field, unless the field doesn't take it, or another concept of the scheme has it."""
        its = self.fields[value.field]
        # (a term is as its resource has it)
        text = value.text if value.field == TERM_SOURCE else tidy(value.text, its.kind)
        fitted = value._replace(text=text, source=tidy(value.source, "line"))
        said = {"property": value.field, "text": value.text, "tag": value.tag}
        if its.tag == "language" and not is_tag(its, fitted.tag):
            self.find("BadTag", owner.name, "value_tag" if fitted.tag else "value_without_tag", **said)
            return
        if not is_value(its, fitted.tag, fitted.text):
            self.find("BadText", owner.name, "value_form", **said)
            return
        held = [it for it in owner.values if it.field == fitted.field]
        if held and not its.is_many and (fitted.tag, fitted.text) != held[0][1:3]:
            self.find("lost", owner.name, "value_second", **said, held=held[0].text)
        elif (fitted.tag, fitted.text) not in [it[1:3] for it in held]:
            owner.values.append(fitted)

    def check_unique_values(self) -> None:
        """Leaves out values that another resource in use has, where no two may have one."""
        held: dict[tuple[str, FieldValue], str] = {}
        for it in self.resources.values():
            for value in list(it.values if not it.is_dead else ()):
                if self.fields[value.field].is_unique:
                    first = held.setdefault((it.scheme or it.name, value), it.name)
                    if first != it.name:
                        said = {"property": value.field, "text": value.text, "other": first}
                        self.find("ValueTaken", it.name, "value_taken", **said)
                        it.values.remove(value)

    def check_places(self) -> None:
        """Leaves out where a collection can't be, and what can't be in its order."""
        for it in self.of_kind("collection"):
            for name in it.places.get(SUPERORDINATE, ()):
                above = self.resources.get(name)
                while above is not None and above.is_dead and above.replaced:
                    above = self.resources.get(above.replaced)
                it.places[SUPERORDINATE] = [above.name] if above is not None else []
                if above is None or above.kind != "concept" or above.is_dead or above.scheme != it.scheme:
                    self.find("lost", it.name, "superordinate", property="superOrdinate", target=name)
                    it.places[SUPERORDINATE] = []
            for name in it.places.get(WITHIN, ()):
                outer = self.resources.get(name)
                if outer is None or outer.kind != "collection" or outer.scheme != it.scheme:
                    self.find("lost", it.name, "within_none", target=name)
                    it.places[WITHIN] = []
                elif self.is_within(name, it.name):
                    self.find("lost", it.name, "within_itself", target=name)
                    it.places[WITHIN] = []
            there = [self.resources.get(name) for name in it.places.get(ORDER, ())]
            it.places[ORDER] = [one.name for one in there if one is not None and one.scheme == it.scheme]

    def is_within(self, inner: str, outer: str) -> bool:
        """Whether a collection is another one, or within it."""
        way = [inner]
        while way[-1] != outer and way[-1] in self.resources and (around := self.resources[way[-1]].places.get(WITHIN)):
            if around[0] in way:
                break
            way.append(around[0])
        return way[-1] == outer

    def leave_out(self, names: Iterable[str]) -> None:
        """Leaves resources out, with the links at them, and what has no scheme then."""
        gone = {it: None for it in names}
        self.close_gaps(gone)
        for name in gone:
            self.resources.pop(name, None)
        for it in list(self.resources.values()):
            if it.kind != "scheme" and it.scheme not in self.resources:
                self.find("UnknownResource", it.name, "scheme_left_out")
                del self.resources[it.name]

    def close_gaps(self, gone: Iterable[str]) -> None:
        """Gives the concepts below those that are left out their broader ones, or notes how many lose their place."""
        above: dict[str, list[tuple[str, str]]] = {}
        below: dict[str, list[tuple[str, str]]] = {}
        for kind, a, b in self.links if gone else ():
            if kind in BROADER:
                above.setdefault(a, []).append((kind, b))
                below.setdefault(b, []).append((kind, a))
        for name in gone:
            heirs = [(kind, it) for kind, it in below.get(name, ()) if it in self.resources and it not in gone]
            if heirs and self.adopts:
                self.links = [it for it in self.links if it[2] != name or it[0] not in BROADER]
                self.links += [(kind, it, top) for kind, it in heirs for top in self.kept_above(name, gone, above)]
            elif heirs:
                self.find("lost", name, "places_below", n=len(heirs))

    def kept_above(self, name: str, gone: Iterable[str], above: dict[str, list[tuple[str, str]]]) -> list[str]:
        """Returns the nearest concepts above one that are not left out."""
        found: list[str] = []
        waiting, met = [name], {name}
        while waiting:
            for _, it in above.get(waiting.pop(), ()):
                if it not in met:
                    met.add(it)
                    (waiting if it in gone or it not in self.resources else found).append(it)
        return found

    def check(self, lang: str, qualify: bool = False) -> None:
        """Applies the rules to all labels and links."""
        self.links = list(dict.fromkeys(self.links))
        if qualify:
            self.qualify()
        lacking = [it for it in self.resources.values() if not it.labels["pref"]]
        for it in lacking:
            self.find("NoLabel", it.name, "no_label_of_scheme" if it.kind == "scheme" else "no_label", kinds=it.kind)
        self.leave_out(it.name for it in lacking)
        self.check_unique()
        for it in self.resources.values():
            it.labels["pref"].sort(key=lambda label: (label[0] != lang.lower(), label))
        self.check_deaths()
        rules = LinkRules(self)

        # Of the links of a ring, one that leads up from a top concept is left out.
        def place(it: tuple[str, str, str]) -> tuple[int, bool]:
            return (LINK_ORDER.index(it[0]), it[1] in self.tops)

        self.links = [it for it in sorted(self.links, key=place) if rules.accept(*it)]
        self.rules = rules

    def qualify(self) -> None:
        """Adds its parent's label to each preferred label that several live concepts of a scheme have."""
        parents: dict[str, list[str]] = {}
        for kind, a, b in self.links:
            if kind in BROADER and b in self.resources:
                parents.setdefault(a, []).append(b)
        before = {name: dict(it.labels["pref"]) for name, it in self.resources.items()}
        for (_, tag, text), names in self.claims().items():
            for name in names if len(names) > 1 else ():
                above = [before[it][tag] for it in sorted(parents.get(name, ()), key=by_numbers) if tag in before[it]]
                if above:
                    new, labels = (tag, f"{text} ({above[0]})"), self.resources[name].labels
                    for kind in ("alt", "hidden"):
                        labels[kind] = [it for it in labels[kind] if it != new]
                    labels["pref"] = [new if it == (tag, text) else it for it in labels["pref"]]
                    if len(new[1].encode()) > 256:
                        self.find("BadText", name, "qualified_long", text=new[1])

    def claims(self, with_dead: bool = False) -> dict[tuple[str, str, str], list[str]]:
        """Returns the live concepts that have a preferred label, by scheme, tag and text."""
        found: dict[tuple[str, str, str], list[str]] = {}
        for it in self.of_kind("concept"):
            for tag, text in it.labels["pref"] if with_dead or not it.is_dead else ():
                found.setdefault((it.scheme, tag, text), []).append(it.name)
        return found

    def check_unique(self) -> None:
        """Leaves out preferred labels that another live concept of the scheme has (P1)."""
        for (_, tag, text), (first, *others) in self.claims().items():
            for name in others:
                labels = self.resources[name].labels
                labels["pref"].remove((tag, text))
                key = "taken" if labels["pref"] else "taken_left_out"
                self.find("P1", name, key, text=text, tag=tag, other=first)
        self.leave_out([it.name for it in self.of_kind("concept") if not it.labels["pref"]])

    def check_deaths(self) -> None:
        """Leaves out replacements that a merge can't make."""
        for it in self.of_kind("concept"):
            way, end = {it.name}, it
            while (
                end.replaced in self.resources
                and end.replaced not in way
                and self.resources[end.replaced].scheme == it.scheme
            ):
                end = self.resources[end.replaced]
                way.add(end.name)
            if end.replaced:
                self.find("lost", end.name, "replaced_elsewhere", property="isReplacedBy", target=end.replaced)
                end.replaced = ""
