"""When terms came to their resources, and when their kinds or sources last changed, by the journal of a desk."""
from __future__ import annotations

import json
from collections import defaultdict
from collections.abc import Callable, Iterable, Iterator, Mapping
from dataclasses import dataclass
from pathlib import Path
from typing import Any

from thesaurus_tools.desk_values import has_table, open_journal
from thesaurus_tools.fields import TERM_SOURCE, time_node
from thesaurus_tools.ntriples import DCTERMS, Iri, Literal, Triple
from thesaurus_tools.skos_xl import LABELS, label_iri
from thesaurus_tools.values import text_of

# The steps that were done, in their order; of what came from a file of another program it isn't known when it was made.
STEPS = """
SELECT plan.id, {ended_at}, plan.action = 'skos',
  request, answer, kept FROM step JOIN plan ON plan.id = step.plan
WHERE step.state = 'done' AND plan.state = 'done' AND plan.id <= ?
  AND json_extract(request, '$.do') NOT IN ('post', 'withdraw', 'import', 'link', 'unlink') ORDER BY plan.id, place"""
# When a plan ended; of one that an earlier desk has written it is known only when it began.
ENDED_AT = "coalesce((SELECT ended.at FROM ended WHERE ended.plan = plan.id), plan.at)"
# A number after those of all plans.
LAST = 1 << 60
# A language and a text.
Term = tuple[str, str]
Query = Callable[..., Iterable[Iterable[Any]]]


@dataclass
class TermDates:
    """When a term came, and when it last changed; "" where that isn't known. `gone`: the plan that removed it."""

    created: str = ""
    modified: str = ""
    gone: int = 0


Dates = dict[int, dict[Term, TermDates]]


class TermReplay:
    """Goes through the steps of a journal."""

    def __init__(self) -> None:
        self.found: dict[int, dict[Term, TermDates]] = defaultdict(dict)

    def take(
        self, plan: int, at: str, step: Mapping[str, Any], answer: Mapping[str, Any], kept: Mapping[str, Any]
    ) -> None:
        """Takes up a step; `at` is "" where it isn't known when it was made."""
        do, tag = step["do"], str(step.get("tag", "")).lower()
        if do in ("scheme", "concept", "collection", "split") and "ok" in answer:
            self.found[answer["ok"]] = {(tag, step["text"]): TermDates(at)}
        elif do == "addLabel" and step["kind"] != "scope":
            self.add(plan, at, step["owner"], (tag, step["text"]))
        elif do == "dropLabel" and step["kind"] != "scope":
            self.drop(plan, step["owner"], (tag, step["text"]))
        elif do == "relabel":
            old = (tag, kept.get("old") or "")
            if step["keep"]:
                self.change(at, step["owner"], old)
            else:
                self.drop(plan, step["owner"], old)
            self.add(plan, at, step["owner"], (tag, step["text"]))
        elif do == "merge":
            for _, *term in kept.get("copied", ()):
                self.add(plan, at, step["target"], (term[0], term[1]))
        elif do == "set" and step["field"] == TERM_SOURCE:
            self.change(at, step["owner"], (tag, text_of(step["new"] or step["old"]) or ""))

    def add(self, plan: int, at: str, owner: int, term: Term) -> None:
        """Notes that a term comes: one that the same plan has removed has another kind."""
        its = self.found[owner].get(term)
        if its is None or its.gone not in (0, plan):
            self.found[owner][term] = TermDates(at)
        else:
            its.gone, its.modified = 0, at

    def drop(self, plan: int, owner: int, term: Term) -> None:
        """Notes that a term goes."""
        if term in self.found[owner]:
            self.found[owner][term].gone = plan

    def change(self, at: str, owner: int, term: Term) -> None:
        """Notes that a term has another kind, or another source."""
        self.found[owner].setdefault(term, TermDates()).modified = at


def term_dates(query: Query, until: int = LAST, ended_at: str = ENDED_AT) -> Dates:
    """Returns the dates of the terms of resources by the steps of a journal, up to a plan."""
    replay = TermReplay()
    for plan, at, is_foreign, *texts in query(STEPS.format(ended_at=ended_at), until):
        step, answer, kept = (json.loads(it) if it else {} for it in texts)
        replay.take(plan, "" if is_foreign else at, step, answer, kept)
    return replay.found


def read_term_dates(journal: Path) -> Dates:
    """Returns the dates of the terms of resources by the journal of a desk."""
    with open_journal(journal) as tables:
        ended_at = ENDED_AT if has_table(tables, "ended") else "plan.at"
        return term_dates(lambda query, until: tables.execute(query, (until,)), ended_at=ended_at)


def to_json(dates: Dates) -> str:
    """Returns the dates of terms as a text."""
    rows = [
        (owner, *term, it.created, it.modified)
        for owner, its in dates.items()
        for term, it in its.items()
        if not it.gone and (it.created or it.modified)
    ]
    return json.dumps(rows, ensure_ascii=False)


def from_json(text: str) -> Dates:
    """Returns the dates of terms of a text."""
    found: Dates = defaultdict(dict)
    for owner, tag, term, created, modified in json.loads(text):
        found[owner][tag, term] = TermDates(created, modified)
    return found


def date_triples(labels: Iterable[Triple], base: str, dates: Dates) -> Iterator[Triple]:
    """Yields the dates of the labels of SKOS among triples, at the labels of SKOS-XL that they are."""
    for subject, predicate, node in labels:
        number = subject.removeprefix(base)
        if predicate in PLAIN and isinstance(node, Literal) and number.isdigit():
            its = dates.get(int(number), {}).get((node.tag.lower(), node.text), TermDates())
            for name, at in (("created", its.created), ("modified", its.modified)):
                if at:
                    yield Triple(label_iri(subject, node), Iri(DCTERMS + name), time_node(at))


PLAIN = frozenset(LABELS.values())
