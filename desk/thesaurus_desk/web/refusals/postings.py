"""Explains refusals about postings: a record indexed with a concept."""
from __future__ import annotations

from urllib.parse import urlencode

from markupsafe import Markup

from thesaurus_desk.web.context import record_name
from thesaurus_desk.web.paths import path_to
from thesaurus_desk.web.refusals.case import Case


def record_link(record: str) -> Markup:
    """Returns a link to the page of a record."""
    path, query = path_to("records.record"), urlencode({"name": record})
    return Markup('<a href="{}?{}" dir="auto">{}</a>').format(path, query, record_name(record))


def explain_has_postings(case: Case) -> Markup:
    number = case.request["concept"]
    pages = {
        name: path_to(page, number=number)
        for name, page in (("merge", "merge.merge"), ("split", "split.split"), ("reindex", "reindex.reindex_many"))
    }
    ways = {
        name: Markup('<a href="{}">{}</a>').format(path, case.words(f"refusals.HasPostings.ways.{name}"))
        for name, path in pages.items()
    }
    return case.say("text", n=max(1, case.replica.count_records(number)), concept=case.link(number), **ways)


def explain_unknown_posting(case: Case) -> Markup:
    listed = case.request.get("postings") or [case.request.get("posting", "?")]
    missing = [it for it in listed if isinstance(it, int) and case.replica.postings.get(it) is None]
    return case.say("text", posting=str((missing or listed)[0]))


def explain_withdrawn(case: Case) -> Markup:
    for number in case.request.get("postings") or [case.request.get("posting", 0)]:
        it = case.replica.postings.get(number)
        if it is not None and it.is_withdrawn:
            return case.say("record", posting=str(number), record=record_link(it.record))
    return case.say("text")


def explain_not_at_source(case: Case) -> Markup:
    source = case.request.get("source")
    for number in case.request.get("postings", ()):
        it = case.replica.postings.get(number)
        if it is not None and it.place != source:
            return case.say(
                "record", record=record_link(it.record), source=case.link(source), place=case.link(it.place)
            )
    return case.say("text", source=case.link(source))


def explain_listed_twice(case: Case) -> Markup:
    return case.say("text")


def explain_key_reused(case: Case) -> Markup:
    key = str(case.request.get("key", ""))
    it = case.replica.postings.with_key(key)
    if it is None:
        return case.say("text", key=key)
    return case.say("known", key=key, record=record_link(it.record), concept=case.link(it.place))


EXPLAIN = {
    "HasPostings": explain_has_postings,
    "UnknownPosting": explain_unknown_posting,
    "Withdrawn": explain_withdrawn,
    "NotAtSource": explain_not_at_source,
    "ListedTwice": explain_listed_twice,
    "KeyReused": explain_key_reused,
}
