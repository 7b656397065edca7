"""Routes declare who may use them: the lowest role, and the most bytes of a body."""
from __future__ import annotations

from collections.abc import Callable, Iterable
from typing import TypeVar, cast

from flask import Flask, Request, current_app, g
from werkzeug.routing import IntegerConverter

from thesaurus_desk.auth.roles import VISITOR, Role, role_named

View = TypeVar("View", bound=Callable[..., object])
# The most bytes of a form; a route that takes files has a bound of its own.
MOST_OF_FORM = 1 << 20
# The most bytes and fields of a form of who hasn't come in: it is shown again field by field.
MOST_OF_VISITORS, MOST_FIELDS = 64 << 10, 200
READING = {"GET", "HEAD", "OPTIONS"}


def role(word: str, largest: int = MOST_OF_FORM, act: str = "") -> Callable[[View], View]:
    """Gives a route its lowest role, and the most bytes of a body; written below the line that registers it. `act`:
    what the head settles the lowest role of."""
    lowest = role_named(word)

    def give(view: View) -> View:
        view.lowest_role = lowest  # type: ignore[attr-defined]
        view.largest_body = largest  # type: ignore[attr-defined]
        view.act = act  # type: ignore[attr-defined]
        return view

    return give


def public(view: View) -> View:
    """Marks a page that a visitor may read when the desk is public."""
    view.is_public = True  # type: ignore[attr-defined]
    return view


def interface(view: View) -> View:
    """Marks a route for programs: it changes nothing and needs no token; its refusals are JSON. It is public, too."""
    view.is_interface = True  # type: ignore[attr-defined]
    return public(view)


def takes_token(view: View) -> View:
    """Marks a route for programs that send the token of a user. It takes no cookie, so no form of another site can use
    it; its refusals are JSON."""
    view.takes_token = True  # type: ignore[attr-defined]
    return view


class DeskRequest(Request):
    """A request whose body is bounded by its route."""

    @property
    def max_content_length(self) -> int | None:  # type: ignore[override]
        """The most bytes of the body."""
        view = current_app.view_functions.get(self.endpoint or "")
        largest = getattr(view, "largest_body", MOST_OF_FORM)
        return largest if g.get("person", VISITOR).role > Role.VISITOR else min(largest, MOST_OF_VISITORS)

    @property
    def has_too_many_fields(self) -> bool:
        """Whether a visitor has sent more fields than any form has."""
        is_visitor = g.get("person", VISITOR).role == Role.VISITOR
        return is_visitor and sum(len(them) for _, them in self.form.lists()) > MOST_FIELDS


class Number(IntegerConverter):
    """A number in a path. One that nothing has, as long as it is, leads to no page."""

    regex = "[0-9]{1,10}"


class DeskApp(Flask):
    """An application whose routes can't change anything before they have a lowest role."""

    request_class = DeskRequest

    def __init__(self, name: str) -> None:
        super().__init__(name)
        self.url_map.converters["int"] = Number

    def add_url_rule(
        self,
        rule: str,
        endpoint: str | None = None,
        view_func: Callable[..., object] | None = None,
        provide_automatic_options: bool | None = None,
        **options: object,
    ) -> None:
        """Registers a route. Raises ValueError for one that changes something and has no role."""
        methods = options.get("methods") or getattr(view_func, "methods", None) or ("GET",)
        if not {str(it).upper() for it in cast(Iterable[str], methods)} <= READING and not hasattr(
            view_func, "lowest_role"
        ):
            raise ValueError(f"{rule}: a route that changes something needs @role")
        super().add_url_rule(rule, endpoint, view_func, provide_automatic_options, **options)  # type: ignore[arg-type]


def lowest_role(view: object, is_desk_public: bool) -> Role:
    """Returns the lowest role that a route asks for: a reader's, if it says nothing."""
    if is_desk_public and getattr(view, "is_public", False):
        return Role.VISITOR
    return getattr(view, "lowest_role", Role.READER)
