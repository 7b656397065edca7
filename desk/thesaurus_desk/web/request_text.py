"""A request of the journal, with its answer, as a sentence in the reader's language."""
from __future__ import annotations

from collections.abc import Callable, Iterable
from dataclasses import dataclass
from typing import Any

from markupsafe import Markup, escape

from thesaurus_desk.journal.values import source_of, text_of
from thesaurus_desk.store.replica import Replica
from thesaurus_desk.web.refusals import Links, label_of
from thesaurus_desk.web.refusals.postings import record_link
from thesaurus_desk.words import Words
from thesaurus_desk.words.field_words import value_words
from thesaurus_tools.fields import TERM_SOURCE

Row = dict[str, Any]
# How many resources of a value a sentence names.
MOST_NAMED = 12


@dataclass(frozen=True)
class RequestText:
    """A request and its answer, with what is needed to put them into words. `kept`: what it destroyed."""

    request: Row
    answer: Row
    replica: Replica
    words: Words
    links: Links
    kept: Row

    def say(self, key: str, /, **values: object) -> Markup:
        return escape(self.words(f"sentences.{key}", **values))

    def link(self, member: str) -> Markup:
        """Returns a link to the resource that a member names; the new concept of the plan by these words."""
        return self.named(self.request.get(member))

    def named(self, number: Any) -> Markup:
        """Returns a link to a resource; the new concept of the plan by these words."""
        if isinstance(number, int) and self.replica.get(number) is not None:
            return self.links.link(number)
        if isinstance(number, str):
            return self.links.new(number) or self.say("new_one")
        return escape(str(number))

    def label(self) -> Markup:
        return self.quoted(self.request["text"])

    def quoted(self, text: str) -> Markup:
        return label_of(self.words, text, str(self.request["tag"]).lower())

    def value(self, value: Any) -> Markup:
        """Returns the beginning of a value of a field; what it names by links."""
        if not isinstance(value, list):
            return value_words(text_of(value) or "")
        shown = [self.named(one) for one in value[:MOST_NAMED]]
        return Markup(", ").join(shown) + (Markup(" …") if len(value) > MOST_NAMED else "")

    def sourced(self, value: Any) -> Markup:
        """Returns a term with its source."""
        return Markup("{} ({})").format(self.value(value), source_of(value))

    def made(self) -> Markup:
        """Returns a link to what the request made, or its label."""
        number = self.answer.get("ok")
        if isinstance(number, int) and self.replica.get(number) is not None:
            return self.links.link(number)
        return self.label()

    def records(self, postings: Iterable[int]) -> int:
        """Returns the number of records of some postings, each counted once."""
        return len({it.record for it in self.replica.postings.several(postings)})


def sentence_of(
    request: Row, answer: Row | None, replica: Replica, words: Words, links: Links, kept: Row | None = None
) -> Markup:
    """Returns a request, with its answer if it has one, as a sentence without a stop. `kept`: what it destroyed, as
    the term that a rename has replaced, if that is known."""
    it = RequestText(request, answer or {}, replica, words, links, kept or {})
    write = WRITERS.get(str(request.get("do")))
    return write(it) if write else it.say("other", name=str(request.get("do")))


def write_label(it: RequestText) -> Markup:
    kind = it.words(f"kinds.label.{it.request['kind']}")
    return it.say(it.request["do"], owner=it.link("owner"), kind=kind, label=it.label())


def write_relabel(it: RequestText) -> Markup:
    key = "relabel_keep" if it.request.get("keep") else "relabel"
    old = it.kept.get("old")
    if old is None:
        return it.say(key, owner=it.link("owner"), label=it.label())
    return it.say(f"{key}_from", owner=it.link("owner"), old=it.quoted(old), label=it.label())


def write_link(it: RequestText) -> Markup:
    do, kind = it.request["do"], it.request["kind"]
    if kind == "member":
        return it.say(f"{do}_member", a=it.link("a"), b=it.link("b"))
    return it.say(do, a=it.link("a"), b=it.link("b"), kind=it.words(f"kinds.link.{kind}"))


def write_new(it: RequestText) -> Markup:
    return it.say(it.request["do"], made=it.made())


def write_outside(it: RequestText) -> Markup:
    return it.say("outside", iri=it.links.elsewhere(it.request["iri"]))


def write_merge(it: RequestText) -> Markup:
    ends = {"source": it.link("source"), "target": it.link("target")}
    if "moved" not in it.answer:
        return it.say("merge", **ends)
    # (a journal may lack the list; the answer counts postings, of which a record may have several)
    count = it.records(it.kept.get("postings", ())) or it.answer["moved"]
    return it.say("merge_moved", n=count, **ends)


def write_split(it: RequestText) -> Markup:
    postings = it.request.get("postings", ())
    return it.say("split", n=it.records(postings) or len(postings), source=it.link("source"), made=it.made())


def write_deprecate(it: RequestText) -> Markup:
    return it.say("deprecate", concept=it.link("concept"))


def write_post(it: RequestText) -> Markup:
    key = "post_again" if "again" in it.answer else "post"
    return it.say(key, record=record_link(it.request["record"]), concept=it.link("concept"))


def write_withdraw(it: RequestText) -> Markup:
    number = it.request["posting"]
    posting = it.replica.postings.get(number) if isinstance(number, int) else None
    if posting is None:
        return it.say("withdraw", posting=str(number))
    concept = it.links.link(posting.place)
    return it.say("withdraw_of", record=record_link(posting.record), concept=concept)


def write_import(it: RequestText) -> Markup:
    outcomes = it.answer.get("outcomes", {})
    # (of an import that was cut short only the numbers of its postings are known)
    made = it.answer["last"] - it.answer["first"] + 1 if "last" in it.answer else 0
    again = outcomes.get("again", 0)
    counts = {"new": made, "again": again, "refused": sum(outcomes.values()) - outcomes.get("new", 0) - again}
    parts = [it.say(f"outcome.{name}", n=count) for name, count in counts.items() if count]
    rows = it.say("rows", n=it.request.get("rows", 0))
    return it.say("import", file=it.request.get("name", ""), outcomes=Markup(", ").join(parts) if parts else rows)


def write_set(it: RequestText) -> Markup:
    """Returns which value of a field was added, changed or removed; of a long one its beginning."""
    name, tag = it.request["field"], it.request["tag"]
    if name == "status":
        status = it.words(f"status.{it.request['new'] or 'approved'}")
        return it.say("status", owner=it.link("owner"), status=status)
    kind = it.links.field(name)
    old, new = ((it.sourced if name == TERM_SOURCE else it.value)(it.request[one]) for one in ("old", "new"))
    key = "set_new" if it.request["old"] is None else "set_gone" if it.request["new"] is None else "set_changed"
    return it.say(key, owner=it.link("owner"), kind=f"{kind} ({tag})" if tag else kind, old=old, new=new)


WRITERS: dict[str, Callable[[RequestText], Markup]] = {
    "addLabel": write_label,
    "dropLabel": write_label,
    "relabel": write_relabel,
    "link": write_link,
    "unlink": write_link,
    "scheme": write_new,
    "concept": write_new,
    "collection": write_new,
    "outside": write_outside,
    "merge": write_merge,
    "split": write_split,
    "deprecate": write_deprecate,
    "post": write_post,
    "withdraw": write_withdraw,
    "import": write_import,
    "set": write_set,
}
