"""A form as it was sent, with what is wrong in it, so that a page shows it again without losing anything."""
from __future__ import annotations

from collections.abc import Mapping
from dataclasses import dataclass, field

from werkzeug.datastructures import MultiDict


@dataclass(frozen=True)
class Problem:
    """What is wrong: the field (the whole form, if none), and the text in the reader's language, perhaps with links."""

    field: str
    text: str


@dataclass
class FormState:
    """The state of the forms of a page. `name`: the one that was sent, if any.

    `choices`: the concepts that a term may mean; a page asks which. `seen`: the difference to what was seen, as markup.
    """

    name: str = ""
    values: Mapping[str, str] = field(default_factory=MultiDict)
    problems: list[Problem] = field(default_factory=list)
    choices: list[int] = field(default_factory=list)
    seen: str = ""

    def is_sent(self, form: str) -> bool:
        """Whether this form was sent, and is shown again."""
        return bool(form) and self.name == form

    def value(self, form: str, name: str, other: object = "") -> str:
        """Returns what a field held when the form was sent; another value in any other form."""
        if self.is_sent(form) and name in self.values:
            return str(self.values[name])
        return "" if other is None else str(other)

    def is_ticked(self, form: str, name: str, value: object, otherwise: bool = False) -> bool:
        """Whether a box or a choice was ticked when the form was sent; another answer in any other form."""
        if not self.is_sent(form):
            return otherwise
        values = self.values.getlist(name) if isinstance(self.values, MultiDict) else [self.values.get(name)]
        return str(value) in values

    def problems_of(self, form: str) -> list[Problem]:
        """Returns what is wrong in a form."""
        return self.problems if self.is_sent(form) else []

    def problem_at(self, form: str, name: str) -> str:
        """Returns what is wrong with a field of a form."""
        return next((it.text for it in self.problems_of(form) if it.field == name), "")
