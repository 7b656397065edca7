"""Whether the values that the rows of a table set are refused: the program, which says all else, doesn't know them."""
from __future__ import annotations

from collections.abc import Sequence
from dataclasses import dataclass, field
from typing import Any

from thesaurus_desk.journal.references import NUMBERS
from thesaurus_desk.journal.value_rules import ValueRules
from thesaurus_desk.journal.values import text_of
from thesaurus_tools.fields import TERM_SOURCE

Request = dict[str, Any]


@dataclass
class RowChecks:
    """Goes through the rows of a table, with what those before have set, made and ended."""

    values: ValueRules
    # A number that nothing has for each name of what the table makes.
    numbers: dict[str, int] = field(default_factory=dict)
    # Which terms the rows so far have added and removed: resources, languages and texts.
    terms: dict[tuple[int, str, str], bool] = field(default_factory=dict)

    def refusal(self, requests: Sequence[Request]) -> tuple[int, str] | None:
        """Returns the place, from 1, and the name of the first refusal of a value of a row; of a row with none notes
        what it does."""
        rules, sent = self.values, [self.numbered(it) for it in requests]
        answers = [{"ok": self.number_of(f"${it.get('as', '')}")} for it in requests]
        keys = {(it["owner"], it["field"]) for it in sent if it["do"] == "set"}
        before = {key: [*rules.values_of(*key)] for key in keys}
        ending = {it.get("source", it.get("concept")) for it in sent if it["do"] in ("merge", "deprecate")}
        above = {key: rules.above.get(key) for it in sent if "b" in it and (key := (it["a"], it["b"]))}
        gone = ending - rules.ended
        refused = rules.refusal_of_plan(sent, answers)
        if refused:
            rules.held.update(before)
            rules.ended -= gone
            rules.above = {key: it for key, it in {**rules.above, **above}.items() if it is not None}
        return refused or self.unknown_term(sent)

    def unknown_term(self, sent: Sequence[Request]) -> tuple[int, str] | None:
        """Returns the place of the first source of a term that the resource hasn't after a row."""
        for it in sent:
            if it["do"] in ("concept", "addLabel", "relabel", "dropLabel"):
                owner = it["owner"] if "owner" in it else self.number_of(f"${it.get('as', '')}")
                self.terms[owner, it["tag"].lower(), it["text"]] = it["do"] != "dropLabel"
        for place, it in enumerate(sent, 1):
            if it["do"] == "set" and it["field"] == TERM_SOURCE and it["new"] is not None:
                if not self.has_term(it["owner"], it["tag"], text_of(it["new"]) or ""):
                    return place, "UnknownTerm"
        return None

    def has_term(self, owner: int, tag: str, text: str) -> bool:
        """Whether a resource has a term after the rows so far."""
        found = self.values.replica.get(owner) if owner > 0 else None
        is_there = found is not None and any(it[1:] == (tag, text) and it[0] != "scope" for it in found.labels)
        return self.terms.get((owner, tag, text), is_there)

    def numbered(self, request: Request) -> Request:
        """Returns a request with a number for each name of what the table makes."""
        return {
            name: self.number_of(it) if name in NUMBERS and isinstance(it, str) else it for name, it in request.items()
        }

    def number_of(self, name: str) -> int:
        """Returns a number for the name of what the table makes."""
        return self.numbers.setdefault(name, -1 - len(self.numbers))
