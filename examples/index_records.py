#!/usr/bin/env python3
"""Indexes records while a desk runs, as a catalogue's program may do: each line is a record and a term.

  DESK_TOKEN=$(cat token) examples/index_records.py https://desk.museum.example < records.csv

It prints the number of each posting. A line that is sent a second time counts once, by its key. Exit status 1: a term
is unknown or means several concepts, or a line was refused."""
from __future__ import annotations

import csv
import json
import os
import sys
import urllib.error
import urllib.parse
import urllib.request
import uuid
from typing import Any


def ask(path: str, body: object = None) -> tuple[int, Any]:
    """Returns the status and the answer of the desk to a question, or to a plan."""
    fields = {"Authorization": f"Bearer {os.environ['DESK_TOKEN']}", "Content-Type": "application/json"}
    data = None if body is None else json.dumps(body).encode()
    try:
        with urllib.request.urlopen(urllib.request.Request(sys.argv[1] + path, data, fields), timeout=60) as answer:
            return answer.status, json.load(answer)
    except urllib.error.HTTPError as error:
        return error.code, json.load(error)


def concepts_of(term: str) -> set[int]:
    """Returns the concepts that have a term as a label, whatever its case."""
    found = ask(f"/api/find?{urllib.parse.urlencode({'text': term})}")[1]
    return {it["number"] for it in found if it["label"]["text"].casefold() == term.casefold()}


def index(record: str, term: str) -> tuple[bool, str]:
    """Indexes a record with a term. Returns whether that is done, and what came of it."""
    concepts = concepts_of(term)
    if len(concepts) != 1:
        return False, "unknown" if not concepts else f"one of {sorted(concepts)}"
    concept = concepts.pop()
    key = str(uuid.uuid5(uuid.NAMESPACE_URL, f"{record} {concept}"))
    status, answer = ask("/api/plans", [{"do": "post", "key": key, "record": record, "concept": concept}])
    return status == 200, json.dumps(answer["done"][0] if status == 200 else answer)


outcomes = [(record, term, *index(record, term)) for record, term in csv.reader(sys.stdin)]
for record, term, _, said in outcomes:
    print(record, term, said, sep="\t")
sys.exit(not all(is_done for _, _, is_done, _ in outcomes))
