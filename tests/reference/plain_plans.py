"""Reads and performs plans, as the rules say in words: several requests as one, all of them or none. A reference "$k"
in place of a number is the number that the plan's k-th request made or found. Of the objects that have the changes of
rows reported, `changes` is left out of the answer."""
from __future__ import annotations

import json
import re
from typing import Any

from plain import Plain
from plain_requests import Bad, fault_of, members_of, perform, read_json

Request = dict[str, Any]
Answer = dict[str, Any]

MOST_REQUESTS = 128
MOST_OF_EACH = 1_024
# The members of which an object that reports changes has exactly one.
REPORTING = ("perform", "try", "each")
REFERENCE = re.compile(r"\$(0|[1-9][0-9]*)", re.ASCII)
# What a reference can be to, and what the members with numbers ask for.
MAKES = {
    **dict.fromkeys(("scheme", "concept", "collection", "outside", "split"), "resource"),
    "post": "posting",
}
ASKS = {
    **dict.fromkeys(("scheme", "owner", "a", "b", "concept", "source", "target"), "resource"),
    **dict.fromkeys(("posting", "postings"), "posting"),
}


def place_in(value: object) -> int | None:
    """The place that a reference names, or None for what is no reference."""
    found = REFERENCE.fullmatch(value) if isinstance(value, str) else None
    # (Python reads no more than 4,300 digits)
    return int(found[1][: len(str(MOST_REQUESTS)) + 1]) if found else None


def with_numbers(request: Request, number: Any) -> Request:
    """A request in which each reference is replaced by what `number` gives for its member and its place."""

    def one(name: str, value: object) -> object:
        place = place_in(value)
        return value if place is None else number(name, place)

    return {
        name: value
        if name not in ASKS
        else [one(name, it) for it in value]
        if name == "postings" and isinstance(value, list)
        else value
        if name == "postings"
        else one(name, value)
        for name, value in request.items()
    }


def check_request(value: object) -> Request:
    """A request of a plan, with its tag in lower case; raises its fault. A reference has the shape and the form of a
    number."""
    request = with_numbers(value, lambda _name, _place: 1) if isinstance(value, dict) else value
    names = members_of(request)
    assert isinstance(value, dict) and isinstance(request, dict)
    if "get" in request:
        raise Bad("BadShape")
    for fault in filter(None, [fault_of(request, name) for name in names]):
        raise Bad(fault)
    return {**value, "tag": value["tag"].lower()} if "tag" in value else value


def has_bad_reference(plan: list[Request], at: int) -> bool:
    """Whether a request of a plan refers to no earlier one, or to one that doesn't make what is asked for."""
    found = []

    def note(name: str, place: int) -> int:
        found.append(not 1 <= place < at or MAKES.get(plan[place - 1]["do"]) != ASKS[name])
        return 1

    with_numbers(plan[at - 1], note)
    return any(found)


def read_plan(value: object) -> tuple[list[Request], Answer | None]:
    """The requests of a plan, or the answer to what is none."""
    if not isinstance(value, list) or not 1 <= len(value) <= MOST_REQUESTS:
        return [], {"bad": "BadShape"}
    plan = []
    for at, it in enumerate(value, 1):
        try:
            plan.append(check_request(it))
        except Bad as bad:
            return [], {"at": at, "bad": str(bad)}
    bad_at = next((at for at in range(1, len(plan) + 1) if has_bad_reference(plan, at)), None)
    return (plan, None) if bad_at is None else ([], {"at": bad_at, "bad": "BadReference"})


def run_plan(plain: Plain, plan: list[Request]) -> tuple[Plain, Answer]:
    """Performs the requests of a plan one after another, and returns the last state and their answers; or this state
    and the first refusal, with its place."""
    after, answers = plain, list[Answer]()
    for at, request in enumerate(plan, 1):

        def number(_name: str, place: int) -> int:
            answer = answers[place - 1]
            return int(answer.get("ok") or answer["again"])

        after, answer = after.perform(with_numbers(request, number))
        if "no" in answer:
            return plain, {"at": at, **answer}
        answers.append(answer)
    return after, {"done": answers}


def is_report(value: object) -> bool:
    """Whether a value is an object that is read as several requests whose changes are reported."""
    return isinstance(value, dict) and any(it in value for it in REPORTING)


def perform_each(plain: Plain, value: object) -> tuple[Plain, Answer]:
    """Performs requests one after another, each by itself."""
    if not isinstance(value, list) or not 1 <= len(value) <= MOST_OF_EACH:
        return plain, {"bad": "BadShape"}
    answers = []
    for it in value:
        plain, answer = perform(plain, json.dumps(it).encode())
        answers.append(answer)
    return plain, {"each": answers}


def perform_plan(plain: Plain, value: object) -> tuple[Plain, Answer]:
    """Performs what is a plan, and returns the next state and the answer."""
    if isinstance(value, dict) and is_report(value):
        member = next(it for it in REPORTING if it in value)
        requests = value[member] if len(value) == 1 else None
        if member == "each":
            return perform_each(plain, requests)
        after, answer = perform_plan(plain, requests if isinstance(requests, list) else None)
        return (after if member == "perform" else plain), answer
    plan, bad = read_plan(value)
    return (plain, bad) if bad else run_plan(plain, plan)


def perform_body(plain: Plain, body: bytes) -> tuple[Plain, Answer]:
    """Performs the body of `POST /plans`."""
    try:
        return perform_plan(plain, read_json(body))
    except Bad as bad:
        return plain, {"bad": str(bad)}


def perform_line(plain: Plain, line: bytes) -> tuple[Plain, Answer]:
    """Performs a line of `script --plans`: a plan if it is an array or reports changes, else a request."""
    try:
        value = read_json(line)
    except Bad as bad:
        return plain, {"bad": str(bad)}
    return perform_plan(plain, value) if isinstance(value, list) or is_report(value) else perform(plain, line)


def perform_any(plain: Plain, it: Any) -> tuple[Plain, Answer]:
    """Performs a plan, which is a list or reports changes, or a request."""
    return perform_plan(plain, it) if isinstance(it, list) or is_report(it) else plain.perform(it)
