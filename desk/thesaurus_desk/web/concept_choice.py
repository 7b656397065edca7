"""Finds the concept that a field of a form names: by a suggestion, a choice, a number, an IRI or a term."""
from __future__ import annotations

from collections.abc import Mapping, Sequence
from dataclasses import dataclass

from thesaurus_desk.store.text_keys import fold
from thesaurus_desk.web.context import say, the_replica
from thesaurus_desk.web.forms import FormState, Problem

MOST_CHOICES = 8


@dataclass(frozen=True)
class ConceptChoice:
    """The concept that a field names; or else what is said of it, and those among which its author may choose."""

    number: int | None
    problem: str = ""
    choices: tuple[int, ...] = ()


def choose(
    values: Mapping[str, str],
    name: str = "other",
    kinds: Sequence[str] = ("concept",),
    scheme: int | None = None,
    without: int | None = None,
) -> ConceptChoice:
    """Returns the concept that a field names; one of a scheme, if its terms alone are to decide.

    `without`: the concept that the form is about, which is never among those to choose from."""
    text = " ".join(values.get(name, "").split())
    # (a choice was offered for a text, and holds as long as that stays)
    chosen = values.get("chosen", "") if values.get("chosen_for", "") == text else ""
    if is_number(chosen) and is_one_of(int(chosen), kinds):
        return ConceptChoice(int(chosen))
    given = values.get(f"{name}_number", "")
    if is_number(given) and is_one_of(int(given), kinds) and has_term(int(given), text):
        return ConceptChoice(int(given))
    if not text:
        return ConceptChoice(None, say("refusals.Choice.empty"))
    number = by_number_or_iri(text)
    if number is not None and the_replica().get(number) is not None:
        return ConceptChoice(number)
    found = choose_by_term(text, kinds, scheme)
    if without not in found.choices:
        return found
    others = tuple(it for it in found.choices if it != without)
    return ConceptChoice(None, found.problem if others else say("refusals.Choice.none", text=text), others)


def choose_by_term(text: str, kinds: Sequence[str], scheme: int | None) -> ConceptChoice:
    """Returns the live concept that has a term, or those that have it, or those whose terms are alike."""
    hits = the_replica().named(text, kinds, True)
    same = [it.number for it in hits if scheme in (None, scheme_of(it.number))]
    exact = [it.number for it in hits if it.text == text and it.kind == "pref" and it.number in same]
    if len(same) == 1 or len(exact) == 1:
        return ConceptChoice((exact or same)[0])
    if same:
        return ConceptChoice(None, say("refusals.Choice.many", text=text), tuple(same[:MOST_CHOICES]))
    near = the_replica().search(text, kinds=kinds, scheme=scheme, live=True, most=MOST_CHOICES)
    if near:
        return ConceptChoice(None, say("refusals.Choice.near", text=text), tuple(it.number for it in near))
    return ConceptChoice(
        None, say("refusals.Choice.collection" if "collection" in kinds else "refusals.Choice.none", text=text)
    )


def scheme_of(number: int) -> int | None:
    """Returns the scheme to which a resource belongs."""
    view = the_replica().view(number)
    return view.scheme if view is not None else None


def is_number(text: str) -> bool:
    """Whether a text is a number of a resource or a posting."""
    return text.isascii() and text.isdigit() and len(text) < 11


def is_one_of(number: int, kinds: Sequence[str]) -> bool:
    """Whether a number is that of a resource of some kinds."""
    return the_replica().kind(number) in kinds


def has_term(number: int, text: str) -> bool:
    """Whether a resource has a term, without regard to case and accents; any has the empty one."""
    it = the_replica().view(number)
    if it is None:
        return False
    terms = [*it.pref, *it.alt, *it.hidden]
    return not text or fold(text) in {fold(its) for _, its in terms} or text == f"#{number}"


def by_number_or_iri(text: str) -> int | None:
    """Returns the number that a text is, as `12` or `#12`, or that of the resource that has it as its IRI."""
    plain = text.removeprefix("#")
    return int(plain) if is_number(plain) else the_replica().by_iri(text)


def needs_choice(form: str, values: Mapping[str, str], chosen: ConceptChoice, name: str = "other") -> FormState:
    """Returns the state of a form whose field names no single concept."""
    return FormState(form, values, [Problem(name, chosen.problem)], list(chosen.choices))


def unknown_term(state: FormState, name: str = "other") -> str:
    """Returns the term that a field of a form was sent with, if no concept has it: it can be proposed."""
    text = " ".join(state.value(state.name, name).split())
    is_wrong = bool(text and state.problem_at(state.name, name))
    return text if is_wrong and not the_replica().named(text, ("concept",), True) else ""
