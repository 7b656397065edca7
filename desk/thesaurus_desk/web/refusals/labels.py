"""Explains refusals about terms and notes, and about resources that don't do."""
from __future__ import annotations

from markupsafe import Markup

from thesaurus_desk.store.model import Resource
from thesaurus_desk.web.refusals.case import Case

# The members of a request that name resources, and the kind that each must be.
NAMED = (
    ("owner", "owner"),
    ("a", "end"),
    ("b", "end"),
    ("source", "concept"),
    ("target", "concept"),
    ("concept", "concept"),
    ("scheme", "scheme"),
)


def numbers_of(case: Case) -> list[int]:
    """Returns the numbers of resources in a request, in its order."""
    return [it for name, _ in NAMED if isinstance(it := case.request.get(name), int)]


def explain_unknown_resource(case: Case) -> Markup:
    missing = [it for it in numbers_of(case) if case.replica.get(it) is None]
    return case.say("text", number=str(next(iter(missing or numbers_of(case)), "?")))


def explain_wrong_kind(case: Case) -> Markup:
    iri = case.request.get("iri")
    if case.do == "outside" and iri is not None:
        number = case.replica.by_iri(iri)
        return case.say("iri", iri=iri, resource=case.link(number)) if number else case.say("text")
    for name, _ in NAMED:
        it = case.replica.get(case.request.get(name, 0))
        needed = needed_kind(case, name)
        if it is not None and it.kind != needed and needed != "owner":
            return case.say(needed, resource=case.link(it.number), kind=case.words(f"kinds.resource.{it.kind}"))
        if it is not None and needed == "owner" and it.kind == "outside":
            return case.say("outside", resource=case.link(it.number))
    return case.say("text")


def needed_kind(case: Case, member: str) -> str:
    """Returns the kind of resource that a request needs in one of its members."""
    if member in ("a", "b"):
        return "collection" if member == "a" and case.request.get("kind") == "member" else "concept"
    return dict(NAMED)[member]


def explain_not_live(case: Case) -> Markup:
    for number in numbers_of(case):
        it = case.replica.get(number)
        if it is None or it.is_live:
            continue
        final = case.replica.final(number)
        back = case.links.returned(number)
        if back is not None and back != final:
            return case.say("returned", dead=case.link(number), again=case.link(back), number=str(back))
        if final is None:
            return case.say("ended", dead=case.link(number))
        return case.say("merged", dead=case.link(number), final=case.link(final))
    return case.say("text")


def explain_same_resource(case: Case) -> Markup:
    number = (numbers_of(case) or [0])[0]
    return case.say("merge" if case.do == "merge" else "text", resource=case.link(number))


def owner_of(case: Case) -> Resource | None:
    """Returns the resource whose label is meant; none if the plan itself made it."""
    number = case.request.get("owner", case.request.get("source"))
    return case.replica.get(number) if isinstance(number, int) else None


def explain_label_there(case: Case) -> Markup:
    return case.say(
        "text", owner=case.link(case.request["owner"]), label=case.label(), kind=case.kind(case.request["kind"])
    )


def explain_no_such_label(case: Case) -> Markup:
    owner = case.link(case.request["owner"])
    if case.do == "relabel":
        return case.say("rename", owner=owner, tag=case.request["tag"], text=case.request["text"])
    return case.say("text", owner=owner, label=case.label(), kind=case.kind(case.request["kind"]))


def explain_last_preferred(case: Case) -> Markup:
    return case.say("text", owner=case.link(case.request["owner"]), label=case.label())


def explain_s13(case: Case) -> Markup:
    owner = owner_of(case)
    tag, text = str(case.request["tag"]).lower(), case.request["text"]
    for kind in ("pref", "alt", "hidden"):
        if owner is not None and (kind, tag, text) in owner.labels:
            return case.say(kind, owner=case.link(owner.number), label=case.label())
    return case.say("text", label=case.label())


def explain_s14(case: Case) -> Markup:
    owner = owner_of(case)
    tag = str(case.request["tag"]).lower()
    old = [text for its, text in owner.terms("pref") if its == tag] if owner is not None else []
    return case.say(
        "text",
        owner=case.link(case.request["owner"]),
        old=case.label(old[0] if old else "?"),
        text=case.request["text"],
    )


def explain_preferred_taken(case: Case) -> Markup:
    request, text = case.request, case.request["text"]
    owner = owner_of(case)
    scheme = request.get("scheme") or (owner.scheme if owner is not None else None)
    holder = case.replica.holder(scheme, str(request["tag"]).lower(), text) if scheme else None
    if holder is None:
        return case.say("other", label=case.label(), text=text)
    return case.say("text", holder=case.link(holder), label=case.label(), text=text)


EXPLAIN = {
    "UnknownResource": explain_unknown_resource,
    "WrongKind": explain_wrong_kind,
    "NotLive": explain_not_live,
    "SameResource": explain_same_resource,
    "LabelThere": explain_label_there,
    "NoSuchLabel": explain_no_such_label,
    "LastPreferred": explain_last_preferred,
    "S13": explain_s13,
    "S14": explain_s14,
    "PreferredTaken": explain_preferred_taken,
}
