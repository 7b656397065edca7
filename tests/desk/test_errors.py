"""Pages of errors, without anything of the inside; odd queries; and what a visitor of a public desk doesn't see."""
from __future__ import annotations

import logging
from collections.abc import Callable
from typing import Any

import pytest
from clients import Site, site_of, text_of
from test_routes import routes
from thesaurus_desk.auth.roles import Role
from thesaurus_desk.auth.route_roles import lowest_role
from thesaurus_desk.store.program import Fault, NoAnswer
from thesaurus_desk.store.replica import Replica
from thesaurus_tools.command_line import ToolError
from werkzeug.routing import MapAdapter


def failing(error: Exception) -> Callable[..., Any]:
    """Returns a function that fails."""

    def fail(*words: Any, **named: Any) -> Any:
        raise error

    return fail


@pytest.mark.parametrize(
    "error, status, title, german",
    [
        (NoAnswer("the line is cut"), 503, "The program doesn’t answer", "Das Programm antwortet nicht"),
        (RuntimeError("secret inside"), 500, "The desk made a mistake", "Der Arbeitsplatz hat einen Fehler gemacht"),
        (Fault("Store"), 500, "The desk made a mistake", "Der Arbeitsplatz hat einen Fehler gemacht"),
        (ToolError("secret inside"), 500, "The desk made a mistake", "Der Arbeitsplatz hat einen Fehler gemacht"),
    ],
)
def test_a_page_that_fails(
    site: Site, caplog: pytest.LogCaptureFixture, error: Exception, status: int, title: str, german: str
) -> None:
    site.app.view_functions["search.az"] = failing(error)
    with caplog.at_level(logging.WARNING):
        answer = site.client("anna").get("/az")
    assert answer.status_code == status and title in text_of(answer) and 'id="q"' in answer.text
    assert german in text_of(site.client("anna").get("/az", Accept_Language="de"))
    assert "secret" not in answer.text and "Traceback" not in answer.text
    assert caplog.records, "whoever runs the desk finds the reason in the log"
    assert ("Retry-After" in answer.headers) == (status == 503)
    assert site.client("anna").get("/tree").status_code == 200


def test_what_each_page_needs_may_fail(site: Site, monkeypatch: pytest.MonkeyPatch) -> None:
    anna = site.client("anna")
    monkeypatch.setattr(Replica, "numbers", failing(RuntimeError("secret inside")))
    answer = anna.get("/keys")
    assert answer.status_code == 500 and answer.mimetype == "text/plain" and "secret" not in answer.text
    assert answer.headers["X-Content-Type-Options"] == "nosniff"


def test_addresses_that_are_none(site: Site) -> None:
    anna = site.client("anna")
    for path in (
        "/nothing",
        "/c/999999",
        "/c/x",
        "/c/-1",
        "/c/99999999999999999999",
        "/changes/99999999999999999999/back",
        "/proposals/99999999999999999999",
        f"/c/{'9' * 5000}",
        f"/id/{'9' * 5000}",
        "/posting/999",
        "/static/../app.py",
        "/%00",
        "/é",
    ):
        answer = anna.get(path)
        assert answer.status_code == 404 and "<main" in answer.text, path[:80]
    ticks = {"form": "reindex", "do": "ticked", "posting": "9" * 5000}
    assert anna.post("/c/5/records", ticks).status_code == 409
    refused = anna.get("/logout")
    assert refused.status_code == 405 and "Not like this" in text_of(refused)
    assert set(refused.headers["Allow"].split(", ")) >= {"POST"}
    for path in ("/nothing", "/c/999999"):
        assert site.client().get(path).status_code in (303, 404)


def test_an_address_that_nothing_has_is_looked_up_once(site: Site, monkeypatch: pytest.MonkeyPatch) -> None:
    """However long it is, and whatever is asked for: the page of the error doesn't try each part of it."""
    tried: list[str] = []
    monkeypatch.setattr(MapAdapter, "test", lambda self, path, method: tried.append(path))
    for method in ("GET", "POST", "PUT"):
        answer = site.client().ask(method, "/nothing" * 500, None, {})
        assert answer.status_code == 404 and "<main" in answer.text and tried == [], method


def test_odd_queries(site: Site) -> None:
    anna = site.client("anna")
    for _, path, _ in routes(site, False):
        for query in (
            "page=-1",
            "page=x",
            "page=99999999",
            "in=xx",
            "scheme=x",
            "at=x",
            "format=xml",
            "%ff=%fe",
            "q=%ff",
            "done=%00",
            "a" * 3000,
        ):
            answer = anna.get(f"{path}?{query}")
            assert answer.status_code < 500, (path, query)


def test_a_visitor_sees_no_records_and_no_names(site: Site) -> None:
    record, user = "A very secret record", "ina"
    perform = site.desk.perform
    assert perform(user, "post", [{"do": "post", "key": "S1", "record": record, "concept": 5}]).is_done
    assert perform(
        user, "add", [{"do": "addLabel", "owner": 5, "kind": "alt", "tag": "en", "text": "Fine violins"}]
    ).is_done
    assert site.entry.accounts
    public = site_of(site.desk, site.entry.accounts.path, is_public=True)
    seen = 0
    for _, path, view in routes(public, False):
        if lowest_role(view, True) > Role.VISITOR:
            continue
        for asked in (path, f"{path}?q=secret", f"{path}?format=csv", f"{path}?done=1"):
            answer = public.client().get(asked)
            seen += "Fine violins" in answer.text
            assert record not in answer.text and f">{user}<" not in answer.text, asked
    assert seen, "terms are public"
    assert record in site.client("rita").get("/c/5").text
