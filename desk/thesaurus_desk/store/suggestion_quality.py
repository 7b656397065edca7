"""Measures suggestions on records that are indexed, each as if it weren't, beside the commonest concepts."""
from __future__ import annotations

import json
import time
from dataclasses import dataclass

from thesaurus_desk.store.record_suggestions import PLACES, Suggester

# How many of the first suggestions count, how many records are looked at, and for how many seconds at most.
AT, MOST_RECORDS, PATIENCE = 5, 100, 1.0
LATEST = (
    "SELECT record, title, text FROM record_text t WHERE EXISTS"
    " (SELECT 1 FROM posting WHERE record = t.record AND withdrawn = 0) ORDER BY id DESC LIMIT ?"
)


@dataclass(frozen=True, slots=True)
class Quality:
    """Of the concepts of some records, the share that the first suggestions have, and that of the commonest ones."""

    records: int
    suggested: float
    commonest: float


def measure(suggester: Suggester) -> Quality:
    """Measures suggestions on the latest indexed records with texts, as many as there is time for."""
    replica, end = suggester.replica, time.monotonic() + PATIENCE
    commonest, count, sums = suggester.commonest(AT), 0, [0.0, 0.0]
    for record, title, text in replica.all(LATEST, MOST_RECORDS):
        right = {it[1] for it in replica.all(PLACES, json.dumps([record]))}
        suggested = [it.concept for it in suggester.suggest(record, title, text, AT)]
        for place, found in enumerate((suggested, commonest)):
            sums[place] += len(right.intersection(found)) / len(right)
        count += 1
        if time.monotonic() > end:
            break
    return Quality(count, sums[0] / max(1, count), sums[1] / max(1, count))
