"""Explains in the reader's language what the program refused: what is so, with whom, and what can be done.

The program has the last word; the replica is asked only for the concepts concerned.

  case       a refused request, with what is needed to explain it
  labels     refusals about terms and notes, and about resources that don't do
  links      refusals about links
  postings   refusals about postings
  values     why the desk refuses a value of a field
  forms      malformed input, limits and faults
"""
from __future__ import annotations

from collections.abc import Callable
from typing import Any

from markupsafe import Markup, escape

from thesaurus_desk.store.replica import Replica
from thesaurus_desk.web.refusals import forms, labels, links, postings, values
from thesaurus_desk.web.refusals.case import Case, Links, label_of
from thesaurus_desk.words import Words

__all__ = ["Links", "blamed_field", "explain", "explain_state", "label_of"]

EXPLAIN: dict[str, Callable[[Case], Markup]] = {
    **labels.EXPLAIN,
    **links.EXPLAIN,
    **postings.EXPLAIN,
    **forms.EXPLAIN,
    **values.EXPLAIN,
}
# The names whose texts need more than the request: the program finds a known IRI by itself.
TEXT_MEMBERS = ("BadText", "S13", "S14", "LabelThere", "NoSuchLabel", "PreferredTaken", "LastPreferred")
OTHER_END = (
    "Cycle",
    "S27",
    "S46",
    "SameResource",
    "OtherScheme",
    "LinkThere",
    "WrongKind",
    "NotLive",
    "UnknownResource",
    "BadIri",
)
MEMBER_OF = {"BadTag": "tag", "BadKey": "key", "KeyReused": "key", "BadRecord": "record"}


def name_of(answer: dict[str, Any]) -> str:
    """Returns the name in an answer that isn't what was asked for: of a refusal, of malformed input or of a fault."""
    return str(answer.get("no") or answer.get("bad") or answer.get("fault") or "")


def explain(answer: dict[str, Any], request: dict[str, Any], replica: Replica, words: Words, links_of: Links) -> Markup:
    """Returns a sentence or two about a refusal, a malformed input or a fault."""
    name = name_of(answer)
    if name in forms.HTTP_NAMES:
        return escape(words("refusals.Http.text", name=name))
    if name not in EXPLAIN:
        return escape(words("refusals.Other.text", name=name))
    return EXPLAIN[name](Case(name, answer, request, replica, words, links_of))


def explain_state(state: str, words: Words) -> Markup:
    """Returns what is said of a request whose answer didn't arrive: `lost` if it wasn't performed, else `unknown`."""
    return escape(words("refusals.Lost.text" if state == "lost" else "refusals.Unknown.text"))


def blamed_field(answer: dict[str, Any]) -> str:
    """Returns the field of a form beside which a refusal is shown, such as `text`; none for the whole form."""
    name = name_of(answer)
    if name in values.PLACE_NAMES:
        return "other"
    if name in values.NAMES:
        return "new"
    if name in TEXT_MEMBERS:
        return "text"
    return "other" if name in OTHER_END else MEMBER_OF.get(name, "")
