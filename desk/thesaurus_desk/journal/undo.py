"""The requests that take others back: one plan, backwards; of a merge, as far as can be."""
from __future__ import annotations

from collections.abc import Iterable, Iterator, Sequence
from dataclasses import dataclass, field, replace
from typing import Any

from thesaurus_desk.auth.roles import Role
from thesaurus_desk.journal.entries import NAMED, Journal, Plan, Request, Step
from thesaurus_desk.journal.history import ENDING
from thesaurus_desk.journal.rights import MAKING, Rights, made_by, read_rights
from thesaurus_desk.journal.values import Value, Values, inverse_of, set_request, source_of, text_of
from thesaurus_desk.store.model import Link
from thesaurus_desk.store.replica import Replica
from thesaurus_tools.fields import ORDER, PLACE_FIELDS

LONGEST_KEY = 64
# The program takes requests of this number of bytes, with some room for those that go with them.
MOST_BYTES = (1 << 20) - (1 << 16)
# The requests about one record, and about any; those that change no more than terms, notes and links.
POSTING = frozenset({"post", "withdraw"})
INDEXING = POSTING | {"import"}
OF_LABELS_AND_LINKS = frozenset({"addLabel", "dropLabel", "relabel", "link", "unlink", "outside", "set"})


@dataclass(frozen=True, slots=True)
class Remark:
    """What isn't taken back, as a key of the pages' words, and what it is about."""

    # stays (a scheme, a collection or an outside concept), new number (a concept comes back under another one), dead (a
    # concept that was made ends its life), label taken, end dead, has ended, withdrawn, moved on, gone, value
    # changed.
    name: str
    number: int | None = None
    text: str = ""


@dataclass(slots=True)
class TakeBack:
    """A plan that takes another one back, and what it leaves."""

    plan: Plan
    requests: list[Request] = field(default_factory=list)
    # At how many of them what undoes a part of the plan is complete.
    ends: list[int] = field(default_factory=list)
    remarks: list[Remark] = field(default_factory=list)
    # Plans since that changed the same.
    later: list[Plan] = field(default_factory=list)
    # What the plan itself made, and nobody has touched since.
    untouched: frozenset[int] = frozenset()
    # Concepts that it would end, with which records are indexed by now.
    in_use: tuple[int, ...] = ()
    # Whether a preferred label must be chosen for a concept that comes back, since each of its own is another's by now.
    needs_label: bool = False
    # Who may do what.
    rights: Rights = Rights()

    @property
    def has_later_parts(self) -> bool:
        """Whether it would take back a part of a vocabulary on which a later part rests, which an earlier desk has
        brought in as a change of its own."""
        return self.plan.action == "skos" and any(it.action == "skos" and not it.taken_back_by for it in self.later)

    @property
    def is_too_long(self) -> bool:
        """Whether the program doesn't take it: a concept that comes back takes all its records with it at once."""
        return any(len(it.get("postings", ())) and not fits(it["postings"]) for it in self.requests)

    @property
    def lowest_role(self) -> Role:
        """The lowest role that may send it. To end what the plan itself made, and nobody has touched, needs no other
        role than to make it."""
        others = [it for it in self.requests if not self.is_own_end(it)]
        return max(self.rights.lowest_of(others, made_by(self.requests)), Role.INDEXER)

    def lowest_role_by(self, rights: Rights) -> Role:
        """Returns the lowest role by the rights of who asks."""
        return replace(self, rights=rights).lowest_role

    def is_own_end(self, request: Request) -> bool:
        """Whether a request ends what the plan itself made, and nobody has touched since."""
        return ENDING.get(request["do"]) is not None and request[ENDING[request["do"]]] in self.untouched


def fits(postings: Iterable[int]) -> bool:
    """Whether the program takes a request that splits these postings off, as it takes a merge of them back."""
    return sum(len(str(it)) + 1 for it in postings) < MOST_BYTES


def label_request(do: str, owner: int | str, label: Any) -> Request:
    kind, tag, text = label
    return {"do": do, "owner": owner, "kind": kind, "tag": tag, "text": text}


def link_request(do: str, link: Any) -> Request:
    kind, a, b = link
    return {"do": do, "kind": kind, "a": a, "b": b}


def inverses(step: Step) -> list[Request]:
    """Returns the requests that take a step back at once; none if none does."""
    request, answer, kept = step.request, step.answer or {}, step.kept or {}
    do = request["do"]
    if do in ("addLabel", "dropLabel"):
        return [{**request, "do": "dropLabel" if do == "addLabel" else "addLabel"}]
    if do in ("link", "unlink"):
        return [{**request, "do": "unlink" if do == "link" else "link"}]
    if do == "relabel" and kept.get("old"):
        label = {"owner": request["owner"], "tag": request["tag"]}
        alt = [{"do": "dropLabel", **label, "kind": "alt", "text": kept["old"]}] if request["keep"] else []
        # (nothing was kept where the texts are the same)
        return [
            *(alt if kept["old"] != request["text"] else []),
            {"do": "relabel", **label, "text": kept["old"], "keep": False},
        ]
    if do == "concept":
        return [{"do": "deprecate", "concept": answer["ok"]}]
    if do == "split":
        return [{"do": "merge", "source": answer["ok"], "target": request["source"]}]
    if do == "post" and "ok" in answer:
        return [{"do": "withdraw", "posting": answer["ok"]}]
    return []


class Builder:
    """Builds a take-back request by request."""

    def __init__(self, replica: Replica, values: Values, plan: Plan, label: tuple[str, str] | None) -> None:
        self.replica, self.values, self.label = replica, values, label
        # The values of fields, by their owners, as the requests so far leave them: tags, texts, sources.
        self.held: dict[tuple[int, str], list[tuple[str, str, str]]] = {}
        self.made = TakeBack(plan)
        self.remarked: set[Remark] = set()
        self.keys: set[str] = set()
        # The references to concepts that come back, by their old numbers.
        self.back: dict[int, str] = {}
        # The places of collections, and orders in them, as the requests so far leave them.
        self.lists: dict[tuple[int, str], list[int | str] | None] = {}
        # Concepts that several parts have made: as they end, they keep their labels, and lose their links.
        self.ending: set[int] = set()
        # Concepts that the plan itself has made: as they end, they keep their status.
        self.own: set[int] = set()

    def add(self, *requests: Request) -> str:
        """Adds requests, and returns the reference to the last one. What has come back is named by its reference."""
        for it in requests:
            self.made.requests.append({name: self.back.get(to, to) if name in NAMED else to for name, to in it.items()})
        return f"${len(self.made.requests)}"

    def remark(self, name: str, number: int | None = None, text: str = "") -> None:
        """Adds a remark, once."""
        it = Remark(name, number, text)
        if it not in self.remarked:
            self.remarked.add(it)
            self.made.remarks.append(it)

    def take_back(self, step: Step) -> None:
        """Adds what takes a step back."""
        do, answer = step.request["do"], step.answer or {}
        if do == "merge":
            self.take_back_merge(step)
        elif do == "deprecate":
            self.take_back_deprecation(step)
        elif do == "withdraw":
            self.take_back_withdrawal(step)
        elif do == "import":
            self.take_back_import(answer)
        elif do in ("scheme", "collection", "outside"):
            self.remark("stays", answer.get("ok"))
        elif do == "set":
            self.take_back_value(inverse_of(step.request))
        elif do == "post":
            number = answer.get("ok")
            it = self.replica.postings.get(number) if number else None
            if it and not it.is_withdrawn:
                self.add(*inverses(step))
        else:
            self.take_back_at_once(step)

    def take_back_at_once(self, step: Step) -> None:
        """Adds the inverse of a step; none at a concept that has ended since, and that doesn't come back."""
        requests = inverses(step)
        named = {it[name] for it in requests for name in NAMED if isinstance(it.get(name), int)}
        if step.request["do"] in OF_LABELS_AND_LINKS and named & self.ending:
            return
        ended = sorted(it for it in named - self.back.keys() if not self.replica.is_live(it))
        for number in ended:
            self.remark("has ended", number)
        if ended:
            return
        if step.request["do"] == "concept":
            self.remark("dead", (step.answer or {}).get("ok"))
        self.add(*requests)

    # --- values of fields ---

    def take_back_value(self, request: Request) -> None:
        """Adds the request that takes a value back; none where the value has changed since."""
        owner, field, tag = request["owner"], request["field"], request["tag"]
        ends = request["old"], request["new"]
        if field == "status" and owner in self.own:
            return
        if field in PLACE_FIELDS:
            self.take_back_place(request)
        elif owner in self.back:
            # (it comes back with the values that it ended with)
            self.add(request)
        elif not self.replica.is_live(owner):
            self.remark("has ended", owner)
        else:
            if (owner, field) not in self.held:
                self.held[owner, field] = [(it.tag, it.text, it.source) for it in self.values.held(owner, field)]
            held = self.held[owner, field]
            old, new = (None if it is None else (tag, text_of(it) or "", source_of(it)) for it in ends)
            others = [it[:2] for it in held if it != old]
            if old is not None and old not in held or new is not None and new[:2] in others:
                self.remark("value changed", owner, (old or new or ("", ""))[1])
                return
            held[:] = [it for it in held if it != old] + ([new] if new is not None else [])
            self.add(request)

    def take_back_place(self, request: Request) -> None:
        """Adds the request that takes back where a collection is, or the order in it, unless that has changed since."""
        key = request["owner"], request["field"]
        old, new = (None if it is None else self.renamed(it) for it in (request["old"], request["new"]))
        now = self.list_now(*key)
        if (None if now is None else self.renamed(now)) != old:
            self.remark("value changed", request["owner"])
        elif new and isinstance(new[0], int) and not self.replica.is_live(new[0]) and request["field"] != ORDER:
            self.remark("end dead", new[0])
        else:
            self.set_list(*key, new)

    def list_now(self, owner: int, field: str) -> list[int | str] | None:
        """Returns what a collection has for a place or an order, as the requests so far leave it."""
        if (owner, field) not in self.lists:
            held = self.values.held(owner, field)
            self.lists[owner, field] = [*held[0].numbers] if held else None
        return self.lists[owner, field]

    def set_list(self, owner: int, field: str, new: list[int | str] | None) -> None:
        """Adds the request for another place or order, if it is another one."""
        now = self.list_now(owner, field)
        if new != now:
            self.add(set_request(owner, field, "", old=now, new=new))
            self.lists[owner, field] = new

    def renamed(self, numbers: Iterable[int | str]) -> list[int | str]:
        """Returns numbers, with references for concepts that come back."""
        return [self.back.get(it, it) if isinstance(it, int) else it for it in numbers]

    def rename_lists(self) -> None:
        """Has collections name concepts that come back by their new numbers."""
        for key in [(it.owner, it.field) for it in self.values.places()] if self.back else ():
            if (now := self.list_now(*key)) is not None:
                self.set_list(*key, self.renamed(now))

    def give_values(self, back: str, old: int) -> None:
        """Gives a concept that comes back the values that it ended with."""
        for it in self.values.select("owner = ?", old):
            if not self.is_taken(it):
                self.add(set_request(back, it.field, it.tag, new=it.member))

    def is_taken(self, value: Value) -> bool:
        """Whether another concept in use has a value that no two have by now; a remark says so."""
        field = self.values.fields().get(value.field)
        if field is None or not field.is_unique:
            return False
        scheme = getattr(self.replica.get(value.owner), "scheme", None)
        holders = (it for it in self.values.holders(value.field, value.tag, value.text) if it != value.owner)
        found = [it for it in holders if self.replica.is_live(it) and self.replica.resource(it).scheme == scheme]
        for it in found:
            self.remark("value taken", it, value.text)
        return bool(found)

    # --- postings ---

    def free_key(self, key: str) -> str:
        """Returns a key that no posting has, like another one."""
        n = 2
        while True:
            end = f"~{n}"
            tried = key[: LONGEST_KEY - len(end)] + end
            if tried not in self.keys and self.replica.postings.with_key(tried) is None:
                self.keys.add(tried)
                return tried
            n += 1

    def take_back_withdrawal(self, step: Step) -> None:
        kept = step.kept or {}
        if self.replica.final(kept["place"]) is None and kept["place"] not in self.back:
            self.remark("end dead", kept["place"], kept["record"])
            return
        self.add({"do": "post", "key": self.free_key(kept["key"]), "record": kept["record"], "concept": kept["place"]})

    def take_back_import(self, answer: dict[str, Any]) -> None:
        for number in range(answer.get("first") or 1, (answer.get("last") or 0) + 1):
            it = self.replica.postings.get(number)
            if it and not it.is_withdrawn:
                self.add({"do": "withdraw", "posting": number})

    # --- concepts that come back under another number ---

    def first_label(self, kept: dict[str, Any]) -> tuple[str, str]:
        """Returns the preferred label that a concept comes back with: the one chosen, or one of its own that is free,
        in the commonest language."""
        if self.label:
            return self.label
        places = {tag: place for place, tag in enumerate(self.replica.languages())}
        preferred = [(tag, text) for kind, tag, text in kept["labels"] if kind == "pref"]
        preferred.sort(key=lambda it: places.get(it[0], len(places)))
        free = [it for it in preferred if self.is_free(kept["scheme"], *it)]
        self.made.needs_label = not free
        return (free or preferred)[0]

    def is_free(self, scheme: int | None, tag: str, text: str) -> bool:
        return self.replica.holder(scheme, tag, text) is None

    def give_labels(self, back: str, kept: dict[str, Any], first: tuple[str, str]) -> None:
        """Gives a concept that comes back its other labels and its notes."""
        tags = {first[0]}
        for kind, tag, text in kept["labels"]:
            if (tag, text) == first and kind != "scope":
                continue
            is_taken = kind == "pref" and (tag in tags or not self.is_free(kept["scheme"], tag, text))
            if is_taken:
                self.remark("label taken", self.replica.holder(kept["scheme"], tag, text), text)
                kind = "alt"
            tags |= {tag} if kind == "pref" else set()
            self.add(label_request("addLabel", back, (kind, tag, text)))

    def give_links(self, back: str, old: int, links: list[Any]) -> None:
        """Gives a concept that comes back its links to what is live."""
        for kind, *ends in links:
            other = ends[0] if ends[1] == old else ends[1]
            if not self.replica.is_live(other):
                self.remark("end dead", other)
                continue
            self.add(link_request("link", (kind, *(back if it == old else it for it in ends))))

    def take_back_deprecation(self, step: Step) -> None:
        kept, old = step.kept or {}, step.request["concept"]
        first = self.first_label(kept)
        back = self.add({"do": "concept", "scheme": kept["scheme"], "tag": first[0], "text": first[1]})
        self.remark("new number", old)
        self.back[old] = back
        self.give_labels(back, kept, first)
        self.give_links(back, old, kept["links"])
        self.give_values(back, old)

    def take_back_merge(self, step: Step) -> None:
        kept, source, target = step.kept or {}, step.request["source"], step.request["target"]
        if not self.replica.is_live(target):
            self.remark("end dead", target)
            return
        first = self.first_label(kept)
        postings = list(self.returning(kept["postings"], source, target))
        split = {"do": "split", "source": target, "tag": first[0], "text": first[1], "postings": postings}
        back = self.add(split)
        self.remark("new number", source)
        now = self.replica.resource(target)
        self.add(*(label_request("dropLabel", target, it) for it in kept["copied"] if tuple(it) in now.labels))
        had = {tuple(it) for it in kept["target"]["links"]}
        for kind, *ends in kept["links"]:
            got = self.replica.normal(Link(kind, *(target if it == source else it for it in ends)))
            if got.a != got.b and tuple(got) not in had and self.replica.has_link(got):
                self.add(link_request("unlink", got))
        self.give_labels(back, kept, first)
        self.give_links(back, source, kept["links"])
        self.give_values(back, source)
        self.back[source] = back

    def returning(self, postings: list[int], source: int, target: int) -> Iterator[int]:
        """Yields the postings that go back: those that are still where the merge moved them."""
        for number in postings:
            it = self.replica.postings.get(number)
            if it is None or it.is_withdrawn:
                self.remark("withdrawn", number)
            elif not it.moves or it.moves[-1][1:] != (source, target):
                self.remark("moved on", number)
            else:
                yield number


def take_back(
    journal: Journal, replica: Replica, plans: Sequence[Plan], label: tuple[str, str] | None = None
) -> TakeBack:
    """Returns the plan that takes others back, the parts of a long one, by the store as it is now.

    `label` is for a concept that comes back. Without requests there is nothing to take back, or nothing that can be;
    the remarks say which."""
    with replica.reading():
        builder = Builder(replica, Values(journal), plans[0], label)
        builder.made.rights = read_rights(journal, facts=replica)
        builder.own = {
            it.answer["ok"] for plan in plans for it in plan.steps if it.request["do"] in MAKING and it.answer
        }
        if len(plans) > 1:
            steps = (step for plan in plans for step in plan.steps)
            builder.ending = {it.answer["ok"] for it in steps if it.request["do"] == "concept" and it.answer}
        for plan in reversed(plans):
            for step in reversed(plan.steps):
                if step.state == "done":
                    builder.take_back(step)
            builder.made.ends.append(len(builder.made.requests))
        builder.rename_lists()
        made = builder.made
        made.in_use = tuple(concepts_in_use(replica, made.requests))
    note_later(made, journal, plans)
    return made


def concepts_in_use(replica: Replica, requests: Sequence[Request]) -> Iterator[int]:
    """Yields the concepts that requests would end, and at which postings stay."""
    withdrawn = {it["posting"] for it in requests if it["do"] == "withdraw"}
    for number in (it["concept"] for it in requests if it["do"] == "deprecate"):
        postings = (replica.postings.get(it) for it in replica.postings.numbers_at(number))
        if any(it is not None and not it.is_withdrawn and it.number not in withdrawn for it in postings):
            yield number


def note_later(back: TakeBack, journal: Journal, plans: Sequence[Plan]) -> None:
    """Notes which plans since have changed the same, and what of the plans' own work nobody has touched."""
    steps = [step for plan in plans for step in plan.steps if step.state == "done"]
    later, touched = dict[int, Plan](), set[int]()
    concerned = set[int]().union(*(it.numbers for it in steps))
    for number, plan in journal.later_than(plans):
        touched.add(number)
        if number in concerned and plan not in later and (it := journal.plan(plan)) and is_of_same(it, steps):
            later[plan] = it
    back.later = [later[it] for it in sorted(later)]
    made = {it.answer["ok"] for it in steps if it.request["do"] in ("concept", "split") and it.answer}
    back.untouched = frozenset(made - touched)


def is_of_same(plan: Plan, steps: Sequence[Step]) -> bool:
    """Whether a plan that concerns a resource of some steps has changed the same: to index a record with a concept
    changes none of its terms and links, nor another record's indexing."""
    if not plan.steps:
        # (what another program has changed)
        return True
    mine, its = ({it.request["do"] for it in these} for these in (steps, plan.steps))
    if mine <= POSTING:
        records = {record_of(it) for it in steps}
        others = [it for it in plan.steps if it.request["do"] not in POSTING or record_of(it) in records]
        its = {it.request["do"] for it in others}
    are_apart = mine <= INDEXING and its <= OF_LABELS_AND_LINKS or mine <= OF_LABELS_AND_LINKS and its <= INDEXING
    return not are_apart


def record_of(step: Step) -> str:
    """Returns the record that a step indexes, or whose indexing it withdraws."""
    return str(step.request.get("record") or (step.kept or {}).get("record", ""))
