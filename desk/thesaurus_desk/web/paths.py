"""The paths of routes, for templates and for code. A page has hundreds, so each is made of a pattern that is kept."""
from __future__ import annotations

from collections.abc import Callable
from typing import Any

from flask import Flask
from werkzeug.routing import IntegerConverter, Rule

Texts = dict[str, Callable[[Any], str]]
# By the names of routes: the pattern of a path, and what quotes those of its values that aren't numbers.
PATTERNS: dict[str, tuple[str, Texts]] = {}


def install_paths(app: Flask) -> None:
    """Notes the routes of the application, and gives templates `url_for`."""
    PATTERNS.update((it.endpoint, pattern_of(it)) for it in app.url_map.iter_rules())
    app.jinja_env.globals["url_for"] = path_to


def pattern_of(rule: Rule) -> tuple[str, Texts]:
    """Returns the pattern of a route."""
    text = ""
    texts: Texts = {}
    # (what comes first is a separator behind the name of the host)
    for is_value, it in rule._trace[1:]:
        text += f"%({it})s" if is_value else it.replace("%", "%%")
        if is_value and not isinstance(rule._converters[it], IntegerConverter):
            texts[it] = rule._converters[it].to_url
    return text, texts


def path_to(endpoint: str, **values: object) -> str:
    """Returns the path of a route, as Flask's `url_for` does for a desk at the root of its host. Raises KeyError for a
    value that is lacking, and for an unknown route."""
    pattern, texts = PATTERNS[endpoint]
    for name, quote in texts.items():
        values[name] = quote(values[name])
    return pattern % values


def concept_path(number: int | None) -> str:
    """Returns the path of the page of a resource, which is there."""
    return path_to("concept.show", number=number)
