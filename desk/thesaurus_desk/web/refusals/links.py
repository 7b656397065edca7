"""Explains refusals about links: what they would break, and along which concepts."""
from __future__ import annotations

from markupsafe import Markup

from thesaurus_desk.store.model import Link
from thesaurus_desk.web.refusals.case import Case
from thesaurus_desk.web.rule_conflicts import way_of_link, way_of_merge
from thesaurus_tools.kinds import MAPPINGS

RELATED = ("related", "relMatch")
APART = ("broad", "narrow", "relMatch")


def ends_of(case: Case) -> tuple[int, int]:
    """Returns the ends of a link, or of a merge."""
    names = ("source", "target") if case.do == "merge" else ("a", "b")
    return case.request[names[0]], case.request[names[1]]


def broken_way(case: Case) -> tuple[int, ...]:
    """Returns the concepts along which the request would break the rule; none if they aren't found, as where the plan
    makes one of them."""
    if not all(case.replica.kind(it) for it in ends_of(case)):
        return ()
    if case.do == "merge":
        return way_of_merge(case.replica, case.name, *ends_of(case))
    return way_of_link(case.replica, case.name, Link(case.request["kind"], *ends_of(case)))


def pair_before_merge(case: Case, way: tuple[int, ...], kinds: tuple[str, ...]) -> tuple[int, int]:
    """Returns the two that break a rule by a link of some kinds: the source for the target, if it is the source's."""
    source, target = ends_of(case)
    low, high = way[0], way[-1]
    if any(it.kind in kinds for it in case.replica.links_between(low, high)):
        return low, high
    return (source if low == target else low), (source if high == target else high)


def explain_other_scheme(case: Case) -> Markup:
    a, b = ends_of(case)
    scheme, other = (getattr(case.replica.get(it), "scheme", None) for it in (a, b))
    ends = {"a": case.link(a), "b": case.link(b), "scheme": case.link(scheme)}
    if case.request.get("kind") in MAPPINGS:
        return case.say("match", **ends)
    key = "merge" if case.do == "merge" else "member" if case.request.get("kind") == "member" else "text"
    return case.say(key, **ends, other=case.link(other))


def explain_held_link(case: Case) -> Markup:
    a, b = ends_of(case)
    kind = case.request["kind"]
    return case.say("member" if kind == "member" else "text", a=case.link(a), b=case.link(b), kind=case.kind(kind))


def explain_cycle(case: Case) -> Markup:
    a, b = ends_of(case)
    if case.do == "merge":
        way = tuple(case.replica.ring(a, b) or case.replica.ring(b, a))
        if len(way) < 3:
            return case.say("text")
        ends = {"low": case.link(way[0]), "between": case.link(way[1]), "high": case.link(way[-1])}
        return case.say("merge", **ends, ring=case.way(way))
    way = broken_way(case)
    if not way:
        return case.say("text")
    low, high = (b, a) if case.request["kind"] == "narrow" else (a, b)
    ring = way if way[0] == way[-1] else (*way, way[0])
    return case.say("link", low=case.link(low), high=case.link(high), ring=case.way(ring))


def explain_s27(case: Case) -> Markup:
    way = broken_way(case)
    if not way:
        return case.say("text")
    if case.do == "merge":
        low, high = pair_before_merge(case, way, RELATED)
        return case.say("merge", low=case.link(low), high=case.link(high))
    ends = {"low": case.link(way[0]), "high": case.link(way[-1])}
    return case.say("related" if case.request["kind"] in RELATED else "broader", **ends, way=case.way(way))


def explain_s46(case: Case) -> Markup:
    way = broken_way(case)
    if not way:
        return case.say("text")
    if case.do == "merge":
        one, other = pair_before_merge(case, way, APART)
        return case.say("merge", a=case.link(one), b=case.link(other))
    ends = {"a": case.link(way[0]), "b": case.link(way[-1])}
    return case.say("exact" if case.request["kind"] == "exact" else "link", **ends)


EXPLAIN = {
    "OtherScheme": explain_other_scheme,
    "LinkThere": explain_held_link,
    "NoSuchLink": explain_held_link,
    "Cycle": explain_cycle,
    "S27": explain_s27,
    "S46": explain_s46,
}
