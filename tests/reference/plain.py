"""The plain program: it does what the rules say, over plain lists, without an index. A request is checked by making the
whole next state and looking at all of it. Requests and answers are values of JSON."""
from __future__ import annotations

from collections import Counter
from collections.abc import Collection, Iterable, Sequence
from typing import Any

# A request or an answer, and what is held: a label by its owner, kind, tag and text, and a link by its kind and ends.
Request = dict[str, Any]
Label = tuple[int, str, str, str]
Link = tuple[str, int, int]
# Which number of a request may be none: that of nothing is of no resource.
Number = int | None

BASE = "https://thesaurus.example/id/"
LABEL_KINDS = ("pref", "alt", "hidden", "scope")
BROADER = ("broader", "broaderGeneric", "broaderPartitive", "broaderInstantial")
MAPPINGS = ("broad", "close", "exact", "narrow", "relMatch")
SYMMETRIC = ("related", "exact", "close", "relMatch")
OPPOSITE = {"broad": "narrow", "narrow": "broad"}
MADE = {"scheme": "scheme", "concept": "concept", "collection": "collection", "outside": "outside", "split": "concept"}
CHECKED_LABELS = ("concept", "addLabel", "relabel", "split")
CHECKED_LINKS = ("link", "merge")


def at(items: Sequence[Any], number: Number) -> Any:
    """The element of a number that counts from 1, or None."""
    return items[number - 1] if number is not None and 1 <= number <= len(items) else None


def stands_twice(items: Iterable[Any]) -> bool:
    return any(count > 1 for count in Counter(items).values())


def reached(pairs: list[tuple[int, int]], start: int) -> set[int]:
    """What a chain of one or more pairs leads to."""
    met, ends = set[int](), [start]
    while ends:
        ends = [b for a, b in pairs if a in ends and b not in met]
        met.update(ends)
    return met


class Plain:
    """A state: what is held, and the limits."""

    def __init__(self, limits: dict[str, int]) -> None:
        self.limits = limits
        self.resources: list[dict[str, Any]] = []  # kind, scheme, live, replaced, iri
        self.labels: list[Label] = []  # owner, kind, tag, text
        self.links: list[Link] = []  # kind, a, b
        self.postings: list[dict[str, Any]] = []  # key, record, first, withdrawn
        self.moves: list[tuple[int, int, int]] = []  # posting, source, target

    def copy(self) -> Plain:
        """A copy that can be changed."""
        made = Plain(self.limits)
        for name in self.limits:
            setattr(made, name, [dict(it) if isinstance(it, dict) else it for it in getattr(self, name)])
        return made

    # Queries.

    def kind(self, number: Number) -> str | None:
        kind: str | None = (at(self.resources, number) or {}).get("kind")
        return kind

    def scheme(self, number: Number) -> int | None:
        scheme: int | None = (at(self.resources, number) or {}).get("scheme")
        return scheme

    def is_live(self, number: Number) -> bool:
        return bool((at(self.resources, number) or {}).get("live", False))

    def place(self, number: int) -> int:
        """The place of a posting: the target of its last move, or else its first concept."""
        targets = [target for posting, _, target in self.moves if posting == number]
        first: int = self.postings[number - 1]["first"]
        return targets[-1] if targets else first

    def replacements(self, number: Number) -> list[int]:
        """The last of a resource's replacements, one after another."""
        replaced = (at(self.resources, number) or {}).get("replaced")
        return [replaced, *self.replacements(replaced)] if replaced else []

    def standing_at(self, concept: Number) -> list[int]:
        """The postings at a concept that aren't withdrawn."""
        return [n for n, it in enumerate(self.postings, 1) if not it["withdrawn"] and self.place(n) == concept]

    def preferred(self, owner: Number, tag: str) -> Label | None:
        """The owner's preferred label in a tag, or None."""
        return next((it for it in self.labels if it[:3] == (owner, "pref", tag)), None)

    def norm(self, kind: str, a: int, b: int) -> Link:
        """The link as it is held: a symmetric one between two concepts has the lesser number first."""
        is_turned = kind in SYMMETRIC and self.kind(b) == "concept" and b < a
        return (kind, b, a) if is_turned else (kind, a, b)

    # Checks that need no next state.

    def refuses_scheme(self, number: Number) -> str | None:
        return {None: "UnknownResource", "scheme": None}.get(self.kind(number), "WrongKind")

    def refuses_live(self, number: Number, kinds: Collection[str]) -> str | None:
        if self.kind(number) is None:
            return "UnknownResource"
        return "WrongKind" if self.kind(number) not in kinds else None if self.is_live(number) else "NotLive"

    def refuses_owner(self, number: Number) -> str | None:
        return self.refuses_live(number, ("scheme", "concept", "collection"))

    def refuses_concept(self, number: Number) -> str | None:
        return self.refuses_live(number, ("concept",))

    def refuses_pair(self, a: int, b: int, joins: bool, has_schemes: bool) -> str | None:
        """What refuses two numbers as those of a link or a merge."""
        if self.kind(a) is None or self.kind(b) is None:
            return "UnknownResource"
        if not joins:
            return "WrongKind"
        if not self.is_live(a) or not self.is_live(b):
            return "NotLive"
        return "SameResource" if a == b else None if has_schemes else "OtherScheme"

    def refuses_ends(self, kind: str, a: int, b: int) -> str | None:
        is_mapping = kind in MAPPINGS
        is_outside = self.kind(b) == "outside"
        first = "collection" if kind == "member" else "concept"
        joins = self.kind(a) == first and (self.kind(b) == "concept" or is_mapping and is_outside)
        return self.refuses_pair(a, b, joins, is_outside or (self.scheme(a) == self.scheme(b)) != is_mapping)

    def refuses_merge(self, a: int, b: int) -> str | None:
        joins = self.kind(a) == self.kind(b) == "concept"
        return self.refuses_pair(a, b, joins, self.scheme(a) == self.scheme(b))

    def refuses_list(self, source: int, listed: list[int]) -> str | None:
        """What refuses the postings of a split: each rule is looked at over the whole list before the next."""
        if stands_twice(listed):
            return "ListedTwice"
        if any(at(self.postings, n) is None for n in listed):
            return "UnknownPosting"
        if any(at(self.postings, n)["withdrawn"] for n in listed):
            return "Withdrawn"
        return "NotAtSource" if any(self.place(n) != source for n in listed) else None

    def refuses_drop(self, owner: int, label: Label) -> str | None:
        if label not in self.labels:
            return "NoSuchLabel"
        is_last = label[1] == "pref" and sum(it[:2] == (owner, "pref") for it in self.labels) == 1
        return "LastPreferred" if is_last else None

    def refuses(self, word: str, it: Request) -> str | None:
        """What refuses a command, or None."""
        if word in ("concept", "collection"):
            return self.refuses_scheme(it["scheme"])
        if word == "outside":
            return "WrongKind" if it["iri"].startswith(BASE) else None
        if word in ("addLabel", "dropLabel"):
            label = (it["owner"], it["kind"], it["tag"], it["text"])
            is_there = "LabelThere" if label in self.labels else None
            rest = self.refuses_drop(it["owner"], label) if word == "dropLabel" else is_there
            return self.refuses_owner(it["owner"]) or rest
        if word == "relabel":
            rest = None if self.preferred(it["owner"], it["tag"]) else "NoSuchLabel"
            return self.refuses_owner(it["owner"]) or rest
        if word in ("link", "unlink"):
            is_held = self.norm(it["kind"], it["a"], it["b"]) in self.links
            rest = ("LinkThere" if is_held else None) if word == "link" else None if is_held else "NoSuchLink"
            return self.refuses_ends(it["kind"], it["a"], it["b"]) or rest
        if word == "deprecate":
            return self.refuses_concept(it["concept"]) or ("HasPostings" if self.standing_at(it["concept"]) else None)
        if word == "merge":
            return self.refuses_merge(it["source"], it["target"])
        if word == "split":
            return self.refuses_concept(it["source"]) or self.refuses_list(it["source"], it["postings"])
        if word == "post":
            return self.refuses_concept([it["concept"], *self.replacements(it["concept"])][-1])
        if word == "withdraw":
            posting = at(self.postings, it["posting"])
            return "UnknownPosting" if posting is None else "Withdrawn" if posting["withdrawn"] else None
        return None

    def known(self, word: str, it: Request) -> Request | None:
        """The answer to a key or an IRI that is known, or None."""
        if word == "post":
            for number, held in enumerate(self.postings, 1):
                if held["key"] == it["key"]:
                    is_same = (held["record"], held["first"]) == (it["record"], it["concept"])
                    return {"again": number} if is_same else {"no": "KeyReused"}
        if word == "outside":
            for number, held in enumerate(self.resources, 1):
                if held["iri"] == it["iri"]:
                    return {"no": "OutsideKnown", "number": number}
        return None

    # The next state of each command, whether or not it keeps the conditions.

    def make(self, kind: str, scheme: int | None = None, iri: str | None = None) -> int:
        self.resources.append({"kind": kind, "scheme": scheme, "live": True, "replaced": None, "iri": iri})
        return len(self.resources)

    def put_label(self, owner: int, kind: str, tag: str, text: str) -> None:
        if (owner, kind, tag, text) not in self.labels:
            self.labels.append((owner, kind, tag, text))

    def kill(self, number: int, replaced: int | None) -> None:
        self.resources[number - 1].update(live=False, replaced=replaced)

    def move(self, source: int, target: int, postings: Collection[int]) -> int:
        """Moves those of the postings that are at the source, in the order of their numbers, and counts them."""
        moved = [n for n in self.standing_at(source) if n in postings]
        self.moves += [(n, source, target) for n in moved]
        return len(moved)

    def relabel(self, owner: int, tag: str, text: str, keep: bool) -> None:
        old = self.preferred(owner, tag)
        assert old
        self.labels.remove(old)
        self.put_label(owner, "pref", tag, text)
        if keep:
            self.put_label(owner, "alt", tag, old[3])

    def merge_links(self, source: int, target: int) -> None:
        """Each link has the target in place of the source."""

        def sent(number: int) -> int:
            return target if number == source else number

        held = [(kind, sent(a), sent(b)) for kind, a, b in self.links]
        self.links = list(dict.fromkeys(self.norm(*it) for it in held if it[1] != it[2]))

    def merge_labels(self, source: int, target: int) -> None:
        """Copies the source's labels to the target, without notes and without texts that the target has under another
        kind."""
        names = {(tag, text) for owner, kind, tag, text in self.labels if owner == target and kind != "scope"}
        for owner, kind, tag, text in list(self.labels):
            if owner == source and kind != "scope" and (tag, text) not in names:
                self.put_label(target, "hidden" if kind == "hidden" else "alt", tag, text)

    def change(self, word: str, it: Request) -> Request:
        """Performs a command that nothing has refused so far, and returns its answer."""
        if word in MADE:
            scheme = self.scheme(it["source"]) if word == "split" else it.get("scheme")
            made = self.make(MADE[word], scheme, it.get("iri"))
            if word != "outside":
                self.put_label(made, "pref", it["tag"], it["text"])
            if word == "split":
                return {"moved": self.move(it["source"], made, it["postings"]), "ok": made}
            return {"ok": made}
        if word == "addLabel":
            self.put_label(it["owner"], it["kind"], it["tag"], it["text"])
        elif word == "dropLabel":
            self.labels.remove((it["owner"], it["kind"], it["tag"], it["text"]))
        elif word == "relabel":
            self.relabel(it["owner"], it["tag"], it["text"], it["keep"])
        elif word == "link":
            self.links.append(self.norm(it["kind"], it["a"], it["b"]))
        elif word == "unlink":
            self.links.remove(self.norm(it["kind"], it["a"], it["b"]))
        elif word == "deprecate":
            self.links = [link for link in self.links if it["concept"] not in link[1:]]
            self.kill(it["concept"], None)
        elif word == "merge":
            self.merge_links(it["source"], it["target"])
            self.merge_labels(it["source"], it["target"])
            moved = self.move(it["source"], it["target"], range(1, len(self.postings) + 1))
            self.kill(it["source"], it["target"])
            return {"moved": moved}
        elif word == "post":
            self.postings.append({"key": it["key"], "record": it["record"], "first": it["concept"], "withdrawn": False})
            way = [it["concept"], *self.replacements(it["concept"])]
            self.moves += [(len(self.postings), source, target) for source, target in zip(way, way[1:])]
            return {"ok": len(self.postings)}
        elif word == "withdraw":
            self.postings[it["posting"] - 1]["withdrawn"] = True
        return {"done": True}

    # the conditions, each looked for in the whole state

    def broken_by_labels(self) -> str | None:
        """The first of the conditions on labels that is broken, or None."""
        names = [(owner, tag, text) for owner, kind, tag, text in self.labels if kind != "scope"]
        preferred = [(owner, tag, text) for owner, kind, tag, text in self.labels if kind == "pref"]

        def is_live(owner: int) -> bool:
            return self.kind(owner) == "concept" and self.is_live(owner)

        live = [(self.scheme(owner), tag, text) for owner, tag, text in preferred if is_live(owner)]
        if stands_twice(names):
            return "S13"
        if stands_twice((owner, tag) for owner, tag, _ in preferred):
            return "S14"
        return "PreferredTaken" if stands_twice(live) else None

    def broken_by_links(self) -> str | None:
        """The first of the conditions on links that is broken, or None."""
        pairs = [(a, b) for kind, a, b in self.links if kind in BROADER or kind == "broad"]
        pairs += [(b, a) for kind, a, b in self.links if kind == "narrow"]
        exact = [pair for kind, a, b in self.links if kind == "exact" for pair in ((a, b), (b, a))]
        if any(a in reached(pairs, a) for a, _ in pairs):
            return "Cycle"
        related = [(a, b) for kind, a, b in self.links if kind in ("related", "relMatch")]
        if any(b in reached(pairs, a) or a in reached(pairs, b) for a, b in related):
            return "S27"
        apart = [(a, b) for kind, a, b in self.links if kind in ("broad", "narrow", "relMatch")]
        return "S46" if any(b in reached(exact, a) for a, b in apart) else None

    def is_too_much(self, before: Plain) -> bool:
        """Whether a count is above both its limit and its count before."""

        def counts(state: Plain, name: str) -> int:
            return len(getattr(state, name))

        return any(counts(self, it) > max(counts(before, it), limit) for it, limit in self.limits.items())

    def perform(self, request: Request) -> tuple[Plain, Request]:
        """Performs a command and returns the next state and the answer, or this state and the refusal."""
        word = request["do"]
        known = self.known(word, request)
        if known:
            return self, known
        refusal = self.refuses(word, request)
        if refusal:
            return self, {"no": refusal}
        after = self.copy()
        answer = after.change(word, request)
        broken = None
        if word in CHECKED_LABELS:
            broken = after.broken_by_labels()
        if word in CHECKED_LINKS:
            broken = after.broken_by_links()
        if not broken and after.is_too_much(self):
            broken = "TooMany"
        return (self, {"no": broken}) if broken else (after, answer)

    # views

    def queries(self) -> list[Request]:
        """A query for each number of each kind, and for one number too many."""
        asked: list[Request] = [{"get": "totals"}]
        for number in range(1, len(self.resources) + 2):
            asked += [{"get": "concept", "number": number}, {"get": "postings", "concept": number}]
        return asked + [{"get": "posting", "number": number} for number in range(1, len(self.postings) + 2)]

    def show(self, request: Request) -> Request:
        """The answer to a query."""
        word, number = request["get"], request.get("concept") or request.get("number") or 0
        if word in ("concept", "postings") and self.kind(number) != "concept":
            return {"no": "WrongKind" if self.kind(number) else "UnknownResource"}
        if word == "posting" and at(self.postings, number) is None:
            return {"no": "UnknownPosting"}
        views = {"concept": self.concept, "postings": self.standing, "posting": self.posting, "totals": self.totals}
        return views[word](number)

    def totals(self, _: int) -> Request:
        withdrawn = sum(it["withdrawn"] for it in self.postings)
        return {"accepted": len(self.postings), "withdrawn": withdrawn, "standing": len(self.postings) - withdrawn}

    def standing(self, concept: int) -> Request:
        shown = [(n, at(self.postings, n)) for n in self.standing_at(concept)]
        return {"postings": [[n, it["key"], it["record"]] for n, it in shown]}

    def posting(self, number: int) -> Request:
        moves = [[n, source, target] for n, (posting, source, target) in enumerate(self.moves, 1) if posting == number]
        return {**at(self.postings, number), "number": number, "place": self.place(number), "moves": moves}

    def concept(self, number: int) -> Request:
        held = at(self.resources, number)

        def ends(kinds: Collection[str], is_second: bool = False) -> set[int]:
            """The numbers at the other ends of the links at which the concept is the first, or the second."""
            pairs = [(b, a) if is_second else (a, b) for kind, a, b in self.links if kind in kinds]
            return {b for a, b in pairs if a == number}

        def both(kind: str, opposite: str) -> list[int]:
            return sorted(ends((kind,)) | ends((opposite,), True))

        def labels(kind: str) -> list[list[Any]]:
            return sorted(list(it[2:]) for it in self.labels if it[:2] == (number, kind))

        typed: list[list[Any]] = [[kind, n] for kind in BROADER[1:] for n in ends((kind,))]
        typed += [[kind.replace("broader", "narrower"), n] for kind in BROADER[1:] for n in ends((kind,), True)]
        broader = sorted(ends(BROADER))
        return {
            **{kind: labels(kind) for kind in LABEL_KINDS},
            **{name: held[name] for name in ("live", "replaced", "scheme")},
            "broader": broader,
            "collections": sorted(ends(("member",), True)),
            "mappings": [[kind, n] for kind in MAPPINGS for n in both(kind, OPPOSITE.get(kind, kind))],
            "narrower": sorted(ends(BROADER, True)),
            "number": number,
            "postings": len(self.standing_at(number)),
            "related": both("related", "related"),
            "top": held["live"] and not broader,
            "typed": sorted(typed),
        }
