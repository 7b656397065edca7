"""A store with the changes of requests that aren't performed yet, so that a row of a table sees those before it."""
from __future__ import annotations

from collections import defaultdict
from collections.abc import Iterable

from thesaurus_tools.kinds import BROADER, LABEL_KINDS
from thesaurus_tools.store import Store, normal_link
from thesaurus_tools.values import FieldValue, source_of, text_of

# A resource by its number, or by the name that a script gives it, as $row5; an outside concept by its IRI.
Reference = int | str


class Draft:
    """What a store holds of labels and links after some requests."""

    def __init__(self, store: Store, langs: Iterable[str]):
        self.store, self.langs = store, list(langs)
        self.labels: dict[Reference, set[tuple[str, str, str]]] = {}
        self.values: dict[Reference, list[FieldValue]] = {}
        self.added: set[tuple[str, Reference, Reference]] = set()
        self.removed: set[tuple[str, Reference, Reference]] = set()
        # The concepts that have a label, by its text: by kind and tag.
        self.by_text: dict[str, set[tuple[Reference, str, str]]] = defaultdict(set)
        self.schemes: dict[Reference, int | None] = {}
        self.ended: set[Reference] = set()
        for label in store.labels:
            if label.kind != "scope":
                self.by_text[label.text].add((label.owner, label.kind, label.tag))

    def labels_of(self, owner: Reference) -> set[tuple[str, str, str]]:
        """Returns the labels and notes of a resource, as kind, tag and text."""
        if owner not in self.labels:
            known = self.store.labels_of.get(owner, []) if isinstance(owner, int) else []
            self.labels[owner] = {(it.kind, it.tag, it.text) for it in known}
        return self.labels[owner]

    def texts(self, owner: Reference, kind: str, tag: str) -> list[str]:
        """Returns the labels of a kind in a language."""
        return sorted(text for its, of, text in self.labels_of(owner) if (its, of) == (kind, tag))

    def values_of(self, owner: Reference) -> list[FieldValue]:
        """Returns the values of fields of a resource."""
        if owner not in self.values:
            self.values[owner] = list(self.store.values_of.get(owner, ())) if isinstance(owner, int) else []
        return self.values[owner]

    def held(self, owner: Reference, field: str, tag: str) -> list[FieldValue]:
        """Returns the values of a field of a resource in a language, or with a code."""
        return [it for it in self.values_of(owner) if (it.field, it.tag) == (field, tag)]

    def has_link(self, kind: str, a: Reference, b: Reference) -> bool:
        """Whether a link is there."""
        link = self.key(kind, a, b)
        return link in self.added or link in self.store.links and link not in self.removed

    @staticmethod
    def key(kind: str, a: Reference, b: Reference) -> tuple[str, Reference, Reference]:
        """Returns a link as the store keeps it."""
        link = normal_link(kind, a, b)
        return link.kind, link.a, link.b

    def broader_links(self, concept: Reference) -> list[tuple[str, Reference]]:
        """Returns the hierarchical links up from a concept, as kind and broader concept."""
        known = self.store.links_of.get(concept, []) if isinstance(concept, int) else []
        links = [(it.kind, it.a, it.b) for it in known if it.kind in BROADER and it.a == concept]
        links += sorted((it for it in self.added if it[0] in BROADER and it[1] == concept), key=str)
        return [(kind, b) for kind, a, b in dict.fromkeys(links) if (kind, a, b) not in self.removed]

    def is_live(self, concept: Reference) -> bool:
        """Whether a concept is live."""
        if concept in self.ended:
            return False
        known = self.store.resources.get(concept) if isinstance(concept, int) else None
        return known.is_live if known else True

    def scheme_of(self, concept: Reference) -> int | None:
        """Returns the number of a concept's scheme."""
        if isinstance(concept, int) and concept in self.store.resources:
            return self.store.resources[concept].scheme
        return self.schemes.get(concept)

    def term(self, concept: Reference) -> str:
        """Returns a preferred label of a concept, in the first language that has one."""
        preferred = {tag: text for kind, tag, text in sorted(self.labels_of(concept)) if kind == "pref"}
        tags = [it for it in (*self.langs, self.store.main_language, *preferred) if it in preferred]
        return preferred[tags[0]] if tags else str(concept)

    def apply(self, request: dict) -> None:
        """Takes up a request, as if it were performed."""
        do = request["do"]
        if do in ("concept", "split"):
            self.schemes[f"${request['as']}"] = request.get("scheme") or self.scheme_of(request.get("source", 0))
            self.add_label(f"${request['as']}", "pref", request["tag"], request["text"])
        elif do == "addLabel":
            self.add_label(request["owner"], request["kind"], request["tag"], request["text"])
        elif do == "dropLabel":
            self.drop_label(request["owner"], request["kind"], request["tag"], request["text"])
        elif do == "relabel":
            for old in self.texts(request["owner"], "pref", request["tag"]):
                self.drop_label(request["owner"], "pref", request["tag"], old)
                if request["keep"]:
                    self.add_label(request["owner"], "alt", request["tag"], old)
            self.add_label(request["owner"], "pref", request["tag"], request["text"])
        elif do in ("link", "unlink"):
            link = self.key(request["kind"], request["a"], request["b"])
            (self.added if do == "link" else self.removed).add(link)
            (self.removed if do == "link" else self.added).discard(link)
        elif do == "set":
            self.set_value(request)
        elif do == "deprecate":
            self.ended.add(request["concept"])
        elif do == "merge":
            self.merge(request["source"], request["target"])

    def merge(self, source: Reference, target: Reference) -> None:
        """Gives the target the labels and the places of the source, which ends."""
        for kind, tag, text in sorted(self.labels_of(source)):
            if kind != "scope" and not any((it, tag, text) in self.labels_of(target) for it in LABEL_KINDS[:3]):
                self.add_label(target, "alt" if kind == "pref" else kind, tag, text)
        for kind, above in self.broader_links(source):
            if above != target:
                self.added.add(self.key(kind, target, above))
        self.ended.add(source)

    def set_value(self, request: dict) -> None:
        """Adds, changes or removes a value of a field."""
        owner, name, tag = request["owner"], request["field"], request["tag"]
        held, old, new = self.values_of(owner), text_of(request["old"]), text_of(request["new"])
        place = next((at for at, it in enumerate(held) if it[1:4] == (name, tag, old)), len(held))
        after = [] if new is None else [FieldValue(owner, name, tag, new, source_of(request["new"]))]
        held[place : place + 1] = after

    def add_label(self, owner: Reference, kind: str, tag: str, text: str) -> None:
        self.labels_of(owner).add((kind, tag, text))
        self.by_text[text].add((owner, kind, tag))

    def drop_label(self, owner: Reference, kind: str, tag: str, text: str) -> None:
        self.labels_of(owner).discard((kind, tag, text))
        self.by_text[text].discard((owner, kind, tag))

    def replace_labels(self, owner: Reference, labels: set[tuple[str, str, str]]) -> None:
        """Gives a resource these labels in place of its own."""
        own = self.labels_of(owner)
        for it in own - labels:
            self.drop_label(owner, *it)
        for it in labels - own:
            self.add_label(owner, *it)
