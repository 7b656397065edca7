"""Paths of routes are made by `url_for` and `path_to`: no template and no module has one of its own."""
from __future__ import annotations

import ast
import re
from collections.abc import Iterator
from pathlib import Path
from typing import Any

import pytest
from clients import Site
from flask import url_for
from thesaurus_desk.web.paths import concept_path, path_to
from werkzeug.routing import AnyConverter, IntegerConverter, Rule

WEB = Path(__file__).resolve().parents[2] / "desk/thesaurus_desk/web"
# A path as an attribute or as a text of an expression. ("/" is the first page's.)
LITERAL = re.compile(r"""["'(]/[a-z{][^"' ]*""")
# Whose paths are another service's.
ELSEWHERE = ("annif",)
# A text that a name has to have, which is no path of a file and may be in an address.
NAME = "a b/ü&"


def literals_of(path: Path) -> Iterator[str]:
    """Yields the texts of a module that begin as a path does, but for the rules of its routes."""
    tree = ast.parse(path.read_text(encoding="utf-8"))
    rules = {
        id(part)
        for it in ast.walk(tree)
        if isinstance(it, ast.FunctionDef)
        for decorator in it.decorator_list
        for part in ast.walk(decorator)
    }
    for it in ast.walk(tree):
        if isinstance(it, ast.Constant) and isinstance(it.value, str) and id(it) not in rules:
            yield from re.findall(r'(?:^|href=")(/[a-z][^" ]*)', it.value)


def test_no_template_has_a_path_of_its_own() -> None:
    found = {str(it.relative_to(WEB)): LITERAL.findall(it.read_text(encoding="utf-8")) for it in WEB.rglob("*.html")}
    assert len(found) > 80 and not {name: its for name, its in found.items() if its}


def test_no_module_of_pages_has_a_path_of_its_own(site: Site) -> None:
    routes = site.app.url_map.bind("localhost")
    modules = [it for it in sorted(WEB.rglob("*.py")) if it.stem not in ELSEWHERE]
    found = {f"{path.name}: {it}" for path in modules for it in literals_of(path)}
    assert not [it for it in found if routes.test(it.partition(": ")[2].split("?")[0].replace("{}", "1"), "GET")]


def values_of(rule: Rule) -> dict[str, Any]:
    """Returns a value for each part of a rule."""
    found: dict[str, Any] = {}
    for name, it in rule._converters.items():
        others = sorted(it.items)[0] if isinstance(it, AnyConverter) else NAME
        found[name] = 7 if isinstance(it, IntegerConverter) else others
    return found


def test_paths_are_those_that_flask_makes(site: Site) -> None:
    rules = [
        it for it in site.app.url_map.iter_rules() if it.endpoint.partition(".")[0] not in ("static", "interfaces")
    ]
    with site.app.test_request_context("/"):
        made = {it.endpoint: path_to(it.endpoint, **values_of(it)) for it in rules}
        assert len(made) > 120
        assert made == {it.endpoint: url_for(it.endpoint, **values_of(it)) for it in rules}
        assert concept_path(7) == "/c/7" and path_to("concept.show", number="{}") == "/c/{}"


def test_an_unknown_route_and_a_value_that_is_lacking_are_named(site: Site) -> None:
    with pytest.raises(KeyError, match="nowhere"):
        path_to("nowhere.at_all")
    with pytest.raises(KeyError, match="number"):
        path_to("concept.show")
