"""Explains malformed input, limits and faults."""
from __future__ import annotations

from markupsafe import Markup

from thesaurus_desk.web.refusals.case import Case

# The most bytes of a label, of a note, and of a record's name.
MOST_OF_LABEL, MOST_OF_NOTE, MOST_OF_RECORD = 256, 2000, 128
# The options that raise the limits which a request can reach.
LIMITS = {
    "scheme": ("resources", "labels"),
    "concept": ("resources", "labels"),
    "collection": ("resources", "labels"),
    "outside": ("resources",),
    "addLabel": ("labels",),
    "relabel": ("labels",),
    "link": ("links",),
    "merge": ("labels", "moves"),
    "split": ("resources", "labels", "moves"),
    "post": ("postings", "moves"),
}
# What the program says of a call over HTTP that it doesn't take.
HTTP_NAMES = ("BadHead", "TransferCoding", "NoSuchPath", "BadMethod", "NoLength", "BadQuery")


def explain_plainly(case: Case) -> Markup:
    return case.say("text")


def explain_too_many(case: Case) -> Markup:
    return case.say("text", options=", ".join(f"--max-{it}" for it in LIMITS.get(case.do, ("resources",))))


def explain_bad_tag(case: Case) -> Markup:
    return case.say("text", tag=case.request.get("tag", ""))


def excess_of(text: str, most: int) -> int:
    """Returns how many characters at the end of a text are too many for a number of bytes."""
    return len(text) - len(text.encode()[:most].decode(errors="ignore"))


def explain_bad_text(case: Case) -> Markup:
    text, is_note = str(case.request.get("text", "")), case.request.get("kind") == "scope"
    excess, ending = excess_of(text, MOST_OF_NOTE if is_note else MOST_OF_LABEL), "_note" if is_note else ""
    if not text:
        return case.say(f"empty{ending}")
    return case.say(f"long{ending}", n=excess) if excess else case.say("text")


def explain_bad_iri(case: Case) -> Markup:
    return case.say("text", iri=case.request.get("iri", ""))


def explain_outside_known(case: Case) -> Markup:
    return case.say("text", iri=case.request.get("iri", ""), resource=case.link(case.answer.get("number")))


def explain_bad_key(case: Case) -> Markup:
    return case.say("text", key=case.request.get("key", ""))


def explain_bad_record(case: Case) -> Markup:
    record = str(case.request.get("record", ""))
    excess = excess_of(record, MOST_OF_RECORD)
    return case.say("long", n=excess) if excess else case.say("text" if record else "empty")


def explain_bad_number(case: Case) -> Markup:
    numbers = [
        it
        for name, it in case.request.items()
        if name not in ("do", "tag", "text", "kind", "keep", "key", "record", "iri")
    ]
    return case.say("text", number=str(numbers[0]) if numbers else "?")


def explain_bad_shape(case: Case) -> Markup:
    return case.say("row" if case.do == "row" else "text")


def explain_bad_store(case: Case) -> Markup:
    return case.say("text", table=case.answer.get("table", "?"))


# Faults of the desk itself.
OF_DESK = ("Journal", "JournalReplaced", "StoreReplaced", "Busy", "Closed", "Replaced")
EXPLAIN = {
    "TooMany": explain_too_many,
    "BadTag": explain_bad_tag,
    "BadText": explain_bad_text,
    "BadIri": explain_bad_iri,
    "BadKey": explain_bad_key,
    "OutsideKnown": explain_outside_known,
    "BadRecord": explain_bad_record,
    "BadNumber": explain_bad_number,
    "BadShape": explain_bad_shape,
    "BadStore": explain_bad_store,
    **{
        it: explain_plainly
        for it in ("NotJson", "BadReference", "TooLong", "OutOfMemory", "Store", "NewerStore", "OlderStore", *OF_DESK)
    },
}
