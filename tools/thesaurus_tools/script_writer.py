"""Writes the script that loads a vocabulary."""
from __future__ import annotations

from collections.abc import Iterable, Iterator

from thesaurus_tools.kinds import LABEL_KINDS
from thesaurus_tools.link_rules import OUTSIDE
from thesaurus_tools.vocabulary import Resource, Vocabulary, fit_text


class ScriptWriter:
    """Writes the script that loads a vocabulary."""

    def __init__(self, vocabulary: Vocabulary):
        self.vocabulary, self.resources = vocabulary, vocabulary.resources
        self.dead = sorted((it for it in vocabulary.of_kind("concept") if it.is_dead), key=self.steps, reverse=True)
        # Preferred labels that a concept can't have before another one is dead: by that one, and by the concept itself.
        self.freed: dict[str, list[tuple[str, str, str]]] = {}
        self.late: dict[str, set[tuple[str, str]]] = {}
        self.stand_ins: dict[str, tuple[str, str]] = {}
        place = {it.name: number for number, it in enumerate(self.dead)}
        for (_, tag, text), names in vocabulary.claims(with_dead=True).items():
            names.sort(key=lambda name: place.get(name, len(place)))
            for before, name in zip(names, names[1:]):
                self.freed.setdefault(before, []).append((name, tag, text))
                self.late.setdefault(name, set()).add((tag, text))

    def steps(self, concept: Resource) -> int:
        """Returns how many replacements lead from a dead concept."""
        count = 0
        while concept.replaced:
            concept, count = self.resources[concept.replaced], count + 1
        return count

    def requests(self) -> Iterator[dict]:
        """Yields the requests: what makes resources first, since others wait for its answers."""
        for kind in ("scheme", "collection", "concept"):
            for it in self.vocabulary.of_kind(kind):
                tag, text = self.first_label(it)
                yield {
                    "as": it.name,
                    "do": kind,
                    **({"scheme": f"${it.scheme}"} if it.scheme else {}),
                    "tag": tag,
                    "text": text,
                }
        for name in dict.fromkeys(b for _, _, b in self.vocabulary.links if b.startswith(OUTSIDE)):
            yield {"as": name, "do": "outside", "iri": name.removeprefix(OUTSIDE)}
        for it in self.resources.values():
            first = self.first_label(it)
            for kind, labels in it.labels.items():
                for tag, text in labels:
                    if (kind, tag, text) != ("pref", *first) and (
                        kind != "pref" or (tag, text) not in self.late.get(it.name, ())
                    ):
                        yield {"do": "addLabel", "owner": f"${it.name}", "kind": kind, "tag": tag, "text": text}
        # (nothing is set at what is dead, and a notation of it is free)
        yield from self.values(self.dead)
        yield from self.deaths()
        yield from self.values([it for it in self.resources.values() if not it.is_dead])
        for kind, a, b in self.vocabulary.links:
            yield {"do": "link", "kind": kind, "a": f"${a}", "b": f"${b}"}
        yield from self.places()

    def places(self) -> Iterator[dict]:
        """Yields the requests that say where collections are, and what is in order in them, which a desk performs."""
        for it in self.vocabulary.of_kind("collection"):
            for field, names in it.places.items():
                if names:
                    its = {"owner": f"${it.name}", "field": field, "tag": ""}
                    yield {"do": "set", **its, "old": None, "new": [f"${name}" for name in names]}

    @staticmethod
    def values(them: Iterable[Resource]) -> Iterator[dict]:
        """Yields the requests that set values of fields, which a desk performs."""
        for it in them:
            for value in it.values:
                new = {"text": value.text, "source": value.source} if value.source else value.text
                its = {"owner": f"${it.name}", "field": value.field, "tag": value.tag}
                yield {"do": "set", **its, "old": None, "new": new}

    def first_label(self, resource: Resource) -> tuple[str, str]:
        """Returns the label that a resource is made with: one that it may have from the start, or a stand-in."""
        late = self.late.get(resource.name, ())
        free = [it for it in resource.labels["pref"] if it not in late]
        if free:
            return free[0]
        if resource.name not in self.stand_ins:
            tag, text = resource.labels["pref"][0]
            self.stand_ins[resource.name] = (
                tag,
                f"{fit_text(text, 236, 'cut')} [{len(self.stand_ins)}, {len(self.resources)}]",
            )
        return self.stand_ins[resource.name]

    def deaths(self) -> Iterator[dict]:
        """Yields merges and deprecations, takes away labels that merges give, and gives labels that become free."""
        for it in self.dead:
            if not it.replaced:
                yield {"do": "deprecate", "concept": f"${it.name}"}
            else:
                target = self.resources[it.replaced]
                yield {"do": "merge", "source": f"${it.name}", "target": f"${target.name}"}
                had = target.names() - self.late.get(target.name, set()) | {self.stand_ins.get(target.name, ("", ""))}
                for kind in LABEL_KINDS[:3]:
                    for tag, text in it.labels[kind]:
                        if (tag, text) not in had:
                            given = "hidden" if kind == "hidden" else "alt"
                            yield {
                                "do": "dropLabel",
                                "owner": f"${target.name}",
                                "kind": given,
                                "tag": tag,
                                "text": text,
                            }
            for name, tag, text in self.freed.get(it.name, ()):
                yield self.give(name, tag, text)

    def give(self, name: str, tag: str, text: str) -> dict:
        """Returns the request that gives a concept a preferred label that has become free."""
        self.late[name].discard((tag, text))
        if self.stand_ins.get(name, ("", ""))[0] == tag:
            del self.stand_ins[name]
            return {"do": "relabel", "owner": f"${name}", "tag": tag, "text": text, "keep": False}
        return {"do": "addLabel", "owner": f"${name}", "kind": "pref", "tag": tag, "text": text}
