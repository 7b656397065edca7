"""What a catalogue's program asks with a user's token while the desk runs: schemes, terms, and plans that are performed
and written to the journal as that user's. INTERFACES.md has the answers."""
from __future__ import annotations

from typing import Any

from flask import Blueprint, abort, request
from werkzeug.exceptions import HTTPException

from thesaurus_desk.auth.route_roles import role, takes_token
from thesaurus_desk.journal import Request, Step
from thesaurus_desk.journal.references import REFERENCE
from thesaurus_desk.store.model import Hit
from thesaurus_desk.store.plan_outcome import Outcome, requests_for
from thesaurus_desk.store.program import LONGEST_PLAN
from thesaurus_desk.web.context import person, the_desk, the_replica, the_rights

pages = Blueprint("api", __name__)
# The action of its plans in the journal.
ACTION = "api"
MOST_FOUND, LONGEST_TEXT = 50, 300
# The members of a request that sets a value of a field.
VALUE_MEMBERS = {"do", "owner", "field", "tag", "old", "new"}
WAIT = {"Retry-After": "5"}


@pages.get("/api/schemes")
@role("reader")
@takes_token
def schemes() -> Any:
    """Lists the schemes, each with its number, its address and its names."""
    replica = the_replica()
    found = [it for it in map(replica.get, replica.numbers("scheme")) if it]
    return [{"number": it.number, "uri": replica.iri(it.number), "names": dict(it.terms("pref"))} for it in found]


@pages.get("/api/find")
@role("reader")
@takes_token
def find() -> Any:
    """Lists concepts in use that a text finds, the best first: each with the label that it was found by."""
    text, scheme = request.args.get("text", "")[:LONGEST_TEXT], request.args.get("scheme")
    if not text.strip() or scheme and not (scheme.isascii() and scheme.isdigit()):
        abort(400, "text=.. is needed; scheme, if it is given, is a number")
    lang = request.args.get("lang")
    found = the_replica().search(
        text, most=MOST_FOUND, lang=lang, prefer=lang, live=True, scheme=int(scheme) if scheme else None
    )
    return [found_one(it, lang) for it in found]


def found_one(hit: Hit, lang: str | None) -> dict[str, Any]:
    """Returns what is said of a concept that was found; `is_same` if no typing error was forgiven."""
    tag, term = the_replica().term(hit.number, [lang or hit.tag])
    label = {"kind": hit.kind, "lang": hit.tag, "text": hit.text}
    address = the_replica().iri(hit.number)
    return {
        "number": hit.number,
        "uri": address,
        "term": term,
        "lang": tag,
        "label": label,
        "is_same": not hit.is_alike,
    }


@pages.post("/api/plans")
@role("indexer")
@takes_token
def perform() -> Any:
    """Performs a plan, all of it or nothing."""
    desk, asked = the_desk(), read_requests()
    steps = [Step(it) for it in asked]
    # (the program alone knows what a request must have that it sees)
    left, seen = requests_for(steps)
    tried = desk.tried(seen) if seen else {"done": []}
    if "bad" in tried:
        return {**tried, "at": steps.index(left[tried["at"] - 1]) + 1} if "at" in tried else tried, 400
    if not tried or "fault" in tried:
        return {"fault": "NotNow"}, 503, WAIT
    requests = the_rights().completed(asked, person().role)
    if the_rights().refusal(requests, person().role):
        abort(403, "the token’s user may not make these requests")
    return answer_of(desk.perform(person().name, ACTION, requests), len(asked))


@pages.errorhandler(HTTPException)
def explain(error: HTTPException) -> tuple[dict[str, str], int]:
    """Says in JSON what is wrong with a request."""
    return {"error": error.description or error.name}, error.code or 500


def read_requests() -> list[Request]:
    """Returns the requests of the body. Ends with 400 for what is no plan."""
    found = request.get_json()
    if not isinstance(found, list) or not 1 <= len(found) <= LONGEST_PLAN:
        abort(400, f"a plan is a list of 1 to {LONGEST_PLAN} requests")
    if not all(isinstance(it, dict) and isinstance(it.get("do"), str) for it in found):
        abort(400, "each request is an object with a text `do`")
    if not all(it["do"] != "set" or has_shape(it) for it in found):
        abort(400, "`set` has an owner, a field, a tag, old and new")
    return found


def has_shape(request: Request) -> bool:
    """Whether a request `set` has its members, and each is of its type: the program doesn't see such a request."""
    return (
        set(request) == VALUE_MEMBERS
        and is_number(request["owner"])
        and all(isinstance(request[it], str) for it in ("field", "tag"))
        and all(is_member(request[it]) for it in ("old", "new"))
    )


def is_number(value: Any) -> bool:
    """Whether a value is a number of a resource, or refers to an earlier request."""
    if isinstance(value, str):
        return REFERENCE.fullmatch(value) is not None
    return type(value) is int and 0 < value < 1 << 32


def is_member(value: Any) -> bool:
    """Whether something may be a value of a field: a text, a text with its source, resources, or none."""
    if isinstance(value, dict):
        return set(value) == {"text", "source"} and all(isinstance(it, str) for it in value.values())
    if isinstance(value, list):
        return bool(value) and all(map(is_number, value))
    return value is None or isinstance(value, str)


def answer_of(outcome: Outcome, count: int) -> Any:
    """Returns what came of a plan, with its number in the journal."""
    plan: dict[str, Any] = {"plan": outcome.plan} if outcome.plan else {}
    if outcome.is_done:
        return {**plan, "done": [it.answer for it in outcome.steps[:count]]}
    if outcome.state == "refused":
        return {**plan, "at": outcome.at, **(outcome.answer or {})}, 409
    # (nobody may know whether it was performed: the same key again counts once)
    return {**plan, "fault": "NotNow" if outcome.state == "fault" else outcome.state}, 503, WAIT
