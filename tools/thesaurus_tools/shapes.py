"""Says what is wrong with the shape of a request, which the program answers by BadShape alone."""
from __future__ import annotations

from thesaurus_tools.kinds import BROADER, LABEL_KINDS, MAPPINGS

TEXT, NUMBER, TRUTH, NUMBERS = "a text", "a number", "true or false", "a list of numbers"
# The members of each request, with what their values are.
NAMED = {"tag": TEXT, "text": TEXT}
LINK = {"kind": TEXT, "a": NUMBER, "b": NUMBER}
CHANGES: dict[str, dict[str, str]] = {
    "scheme": NAMED,
    "concept": {"scheme": NUMBER, **NAMED},
    "collection": {"scheme": NUMBER, **NAMED},
    "outside": {"iri": TEXT},
    "addLabel": {"owner": NUMBER, "kind": TEXT, **NAMED},
    "dropLabel": {"owner": NUMBER, "kind": TEXT, **NAMED},
    "relabel": {"owner": NUMBER, **NAMED, "keep": TRUTH},
    "link": LINK,
    "unlink": LINK,
    "deprecate": {"concept": NUMBER},
    "merge": {"source": NUMBER, "target": NUMBER},
    "split": {"source": NUMBER, **NAMED, "postings": NUMBERS},
    "post": {"key": TEXT, "record": TEXT, "concept": NUMBER},
    "withdraw": {"posting": NUMBER},
}
QUERIES: dict[str, dict[str, str]] = {
    "totals": {},
    "concept": {"number": NUMBER},
    "postings": {"concept": NUMBER},
    "posting": {"number": NUMBER},
}
KINDS = {"addLabel": LABEL_KINDS, "dropLabel": LABEL_KINDS}
LINK_KINDS = (*BROADER, "related", *MAPPINGS, "member")


def is_of(value: object, wanted: str) -> bool:
    """Whether a value is what a member wants; a name that stands for a number is one."""
    is_number = type(value) in (int, float) or isinstance(value, str) and value.startswith("$")
    if wanted == NUMBERS:
        return isinstance(value, list) and all(is_of(it, NUMBER) for it in value)
    return {TEXT: isinstance(value, str), NUMBER: is_number, TRUTH: isinstance(value, bool)}[wanted]


def shape_fault(request: dict) -> str:
    """Returns what is wrong with the members of a request, or nothing."""
    word = "get" if "get" in request else "do"
    members = (QUERIES if word == "get" else CHANGES).get(str(request.get(word)))
    if "get" in request and "do" in request:
        return "it has both do and get"
    if members is None:
        return f"{word} is {request[word]!r}, which is no request" if word in request else "it has neither do nor get"
    lacking = [it for it in members if it not in request]
    extra = [it for it in request if it not in members and it != word]
    wrong = [f"{it} is {members[it]}" for it in members if it in request and not is_of(request[it], members[it])]
    kinds = KINDS.get(str(request.get("do")), LINK_KINDS)
    if "kind" in members and isinstance(request.get("kind"), str) and request["kind"] not in kinds:
        wrong.append(f"kind is one of {', '.join(kinds)}")
    parts = [f"{', '.join(lacking)} is missing"] if lacking else []
    parts += [f"{', '.join(extra)} is one too many"] if extra else []
    return "; ".join([*parts, *wrong])
