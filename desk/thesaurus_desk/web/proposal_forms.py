"""What the form for a proposal asks for, and what is wrong with it: said at once, as far as the desk knows it."""
from __future__ import annotations

from collections.abc import Sequence
from dataclasses import dataclass, field

from flask import abort, request

from thesaurus_desk.journal import Request, Step
from thesaurus_desk.journal.proposals import LONGEST_TEXT
from thesaurus_desk.journal.value_rules import ValueRules, is_source
from thesaurus_desk.journal.values import Value, member_of, set_request, source_of
from thesaurus_desk.store.plan_execution import Outcome
from thesaurus_desk.web.concept_choice import choose, is_number, scheme_of, needs_choice
from thesaurus_desk.web.context import say, the_desk, the_fields, the_replica, words
from thesaurus_desk.web.form_submission import problem_in, refused_form
from thesaurus_desk.web.forms import FormState
from thesaurus_desk.web.journal_text import LINKS
from thesaurus_desk.web.pages.create import concepts_alike
from thesaurus_desk.web.pages.edit import form_text, given_tag, given_text, is_slip
from thesaurus_desk.web.refusals import explain
from thesaurus_tools.fields import TERM_SOURCE, Field, text_fields, tidy

FORM = "propose"
# What can be proposed: a term for a concept, a new concept below one, a link, or a change in words alone.
KINDS = ("alt", "pref", "scope", "concept", "broader", "related", "words")
# What can be proposed that is about no concept.
OF_NO_CONCEPT = ("concept", "words")
# What the kind of a proposal of a value begins with; the name of its field follows.
OF_VALUE = "value-"
# The fields of a proposal, and the kinds that use each.
USES = {
    "text": ("alt", "pref", "scope", "concept", "value"),
    "other": ("broader", "related"),
    "source": ("alt", "pref", "concept", "value"),
}


@dataclass(frozen=True)
class ProposalForm:
    """What a form proposes: the requests that perform it, none if it is in words alone; or what is wrong with it."""

    requests: list[Request] = field(default_factory=list)
    wrong: FormState | None = None
    # The concepts that have the term of a new one, if its author hasn't said that another one is meant.
    alike: list[int] = field(default_factory=list)


def concept_of_request() -> int | None:
    """Returns the live concept that a proposal is about, or None."""
    text = request.values.get("concept", "")
    number = int(text) if is_number(text) else 0
    return number if the_replica().kind(number) == "concept" and the_replica().is_live(number) else None


def proposed_field(kind: str) -> Field | None:
    """Returns the field of concepts of which a kind of proposals proposes a value, or None."""
    field = text_fields(the_fields()).get(kind.removeprefix(OF_VALUE)) if kind.startswith(OF_VALUE) else None
    return field if field is not None and "concept" in field.owners and not field.is_retired else None


def asked_of_form(kind: str, number: int | None) -> ProposalForm:
    """Returns what a form proposes of a kind, about a concept or about none."""
    field = proposed_field(kind)
    wrong = unusable_concept(number) or unfit_reason() or unused_field("value" if field else kind)
    if wrong is not None or kind == "words":
        return ProposalForm(wrong=wrong)
    if field is not None and number is not None:
        return asked_value(field, number)
    return asked_link(kind, number) if kind in USES["other"] else asked_text(kind, number)


def asked_value(field: Field, number: int) -> ProposalForm:
    """Returns the value of a field that a form proposes: one more, or one in place of another."""
    before, text = value_to_replace(field, number), tidy(request.form.get("text", ""), field.kind)
    if before is None and form_text("value"):
        return ProposalForm(wrong=problem_in(FORM, "", say("proposals.value_gone")))
    if not text:
        return ProposalForm(wrong=problem_in(FORM, "text", say("proposals.no_text")))
    if field.tag == "language" and is_slip(given_tag()):
        return ProposalForm(wrong=problem_in(FORM, "tag", say("refusals.BadTag.text", tag=given_tag())))
    tag = given_tag() if field.tag == "language" else before.tag if before else ""
    new = member_of(text, tidy(form_text("source"), "line") if field.has_source else "")
    if before is not None and before.tag == tag:
        requests = [set_request(number, field.name, tag, old=before.member, new=new)]
    else:
        gone = [set_request(number, field.name, before.tag, old=before.member)] if before else []
        requests = [*gone, set_request(number, field.name, tag, new=new)]
    return ProposalForm(requests, refused_value(requests))


def value_to_replace(field: Field, number: int) -> Value | None:
    """Returns the value in whose place a form proposes another one: the one that it names, or that of a field which
    takes one only."""
    held = the_desk().values.held(number, field.name)
    named = next((it for it in held if str(it.id) == request.values.get("value", "")), None)
    return named or (held[0] if held and not field.is_many else None)


def refused_value(requests: list[Request]) -> FormState | None:
    """Returns the form with why its value would be refused if an editor accepted it now; None if nothing is wrong."""
    refused = ValueRules(the_replica(), the_desk().values).refusal_of_plan(requests, [{}] * len(requests))
    if refused is None:
        return None
    place, name = refused
    outcome = Outcome("refused", [Step(requests[place - 1])], at=1, answer={"no": name})
    return refused_form(outcome, blame=lambda _: "text")


def asked_link(kind: str, number: int | None) -> ProposalForm:
    """Returns the link that a form proposes."""
    chosen = choose(request.form, scheme=scheme_of(number or 0), without=number)
    if chosen.number is None:
        return ProposalForm(wrong=needs_choice(FORM, request.form, chosen))
    requests: list[Request] = [{"do": "link", "kind": kind, "a": number, "b": chosen.number}]
    return ProposalForm(requests, foreseen_refusal(requests))


def asked_text(kind: str, number: int | None) -> ProposalForm:
    """Returns the term, the note or the new concept that a form proposes."""
    if is_slip(given_tag()):
        return ProposalForm(wrong=problem_in(FORM, "tag", say("refusals.BadTag.text", tag=given_tag())))
    requests = requests_for(kind, number)
    if wrong := foreseen_refusal(requests):
        return ProposalForm(wrong=wrong)
    is_new = kind == "concept" and "sure" not in request.form
    alike = concepts_alike(requests[0]["scheme"], given_text()) if is_new else []
    # (the source is the desk's, and the program isn't asked for it)
    requests += source_of_term("$1" if kind == "concept" else number or 0)
    wrong = problem_in(FORM, "text", say("new.alike")) if alike else unfit_source(requests)
    return ProposalForm(requests, wrong, alike)


def source_of_term(owner: int | str) -> list[Request]:
    """Returns the request that gives the term of a form its source; none if it has none."""
    source = tidy(form_text("source"), "line")
    new = member_of(given_text(), source)
    return [set_request(owner, TERM_SOURCE, given_tag(), new=new)] if source else []


def unfit_source(requests: Sequence[Request]) -> FormState | None:
    """Returns the form with what is wrong with the source of its term."""
    field = the_fields()[TERM_SOURCE]
    unfit = next((it for it in requests if it["do"] == "set" and not is_source(field, source_of(it["new"]))), None)
    if unfit is None:
        return None
    return problem_in(FORM, "source", explain({"no": "BadValue"}, unfit, the_replica(), words(), LINKS))


def unusable_concept(number: int | None) -> FormState | None:
    """Returns the form with why the concept that it names is none to propose anything about: it has ended since."""
    text = form_text("concept")
    if number is not None or not is_number(text):
        return None
    it = the_replica().get(int(text))
    name = "UnknownResource" if it is None else "WrongKind" if it.kind != "concept" else "NotLive"
    asked = {"do": "concept", "concept": int(text)}
    return problem_in(FORM, "", explain({"no": name}, asked, the_replica(), words(), LINKS))


def unfit_reason() -> FormState | None:
    """Returns the form with what is wrong with its reason."""
    reason = form_text("reason")
    if not reason:
        return problem_in(FORM, "reason", say("proposals.no_reason"))
    return problem_in(FORM, "reason", too_long(reason)) if len(reason) > LONGEST_TEXT else None


def unused_field(kind: str) -> FormState | None:
    """Returns the form with a field that was filled in, and that a proposal of a kind would lose."""
    found = next((it for it, kinds in USES.items() if kind not in kinds and form_text(it)), None)
    return problem_in(FORM, found, say(f"proposals.unused_{found}")) if found else None


def too_long(text: str) -> str:
    """Returns what is said of a text that is longer than the journal keeps."""
    return say("proposals.too_long", n=len(text), more=LONGEST_TEXT)


def requests_for(kind: str, number: int | None) -> list[Request]:
    """Returns the requests that perform the proposal of a term, a note or a new concept."""
    tag, text = given_tag(), given_text()
    if kind == "concept":
        made: list[Request] = [{"do": "concept", "scheme": scheme_for(number), "tag": tag, "text": text}]
        below: list[Request] = [{"do": "link", "kind": "broader", "a": "$1", "b": number}] if number else []
        return made + below
    view = the_replica().view(number or 0)
    if kind == "pref" and view and tag in {its for its, _ in view.pref}:
        return [{"do": "relabel", "owner": number, "tag": tag, "text": text, "keep": True}]
    return [{"do": "addLabel", "owner": number, "kind": kind, "tag": tag, "text": text}]


def scheme_for(number: int | None) -> int:
    """Returns the scheme of a new concept: that of the concept above it, or the one that the form names."""
    above = the_replica().get(number) if number else None
    scheme = above.scheme if above else int(form_text("scheme")) if is_number(form_text("scheme")) else None
    if scheme is None or the_replica().kind(scheme) != "scheme":
        abort(400)
    return scheme


def foreseen_refusal(requests: list[Request]) -> FormState | None:
    """Returns the form with why its proposal would be refused if an editor accepted it now; None if the desk knows of
    nothing."""
    answer = the_desk().tried(requests)
    if "at" in answer:
        steps = [Step(it) for it in requests]
        return refused_form(Outcome("refused", steps, at=answer.pop("at"), answer=answer))
    return None
