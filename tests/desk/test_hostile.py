"""Terms, notes, records and names that try to break pages: on each page nothing of them is markup."""
from __future__ import annotations

import io
import re
from pathlib import Path
from urllib.parse import quote

import pytest
from clients import ORIGIN, PASSWORD, Site, site_of
from hostile import TEXTS, faults_of
from other_vocabulary import load
from test_routes import changes, routes
from thesaurus_desk.auth.accounts import Accounts
from thesaurus_desk.auth.roles import Role
from thesaurus_desk.auth.route_roles import MOST_OF_FORM
from thesaurus_desk.journal.history import to_csv
from thesaurus_desk.store.plan_execution import Desk

# A user with a hostile name; it has no signs that a name can't have.
HOSTILE = "<b onclick=PWNED()>\"'&"


def fill(desk: Desk) -> list[int]:
    """Puts hostile texts everywhere into a store, and returns the concepts that have them."""

    def perform(**request: object) -> int:
        outcome = desk.perform(HOSTILE, "try", [request])
        assert outcome.is_done, (request, outcome)
        return outcome.made or 0

    found: list[int] = []
    for place, text in enumerate(TEXTS):
        number = perform(do="concept", scheme=1, tag="en", text=text)
        perform(do="addLabel", owner=number, kind="pref", tag="de", text=f"{text} de")
        for kind in ("alt", "hidden", "scope"):
            perform(do="addLabel", owner=number, kind=kind, tag="en", text=f"{text} {kind}")
        perform(do="link", kind="broaderGeneric", a=number, b=found[-1] if found else 5)
        perform(do="link", kind="related", a=number, b=25)
        perform(do="post", key=f"K{place}", record=text[:100], concept=number)
        found.append(number)
    group = perform(do="collection", scheme=1, tag="en", text=TEXTS[0])
    scheme = perform(do="scheme", tag="en", text=TEXTS[1])
    outside = perform(do="outside", iri="https://evil.example/%22%3E?q='onclick=PWNED()'&x=(PWNED)")
    for number in found[:3]:
        perform(do="link", kind="member", a=group, b=number)
        perform(do="link", kind="close", a=number, b=outside)
    script = perform(do="outside", iri="javascript:PWNED()")
    perform(do="link", kind="exact", a=found[0], b=script)
    perform(do="merge", source=found[-1], target=found[-2])
    found.append(perform(do="concept", scheme=1, tag="en", text=f"{TEXTS[0]} dead"))
    perform(do="deprecate", concept=found[-1])
    refused = desk.perform(HOSTILE, "try", [{"do": "concept", "scheme": 1, "tag": "en", "text": TEXTS[0]}])
    assert refused.state == "refused"
    return [*found, group, scheme, outside, script]


@pytest.fixture
def hostile(desk: Desk, users: Path) -> tuple[Site, list[int]]:
    """A desk with hostile texts everywhere, whose head has a hostile name."""
    Accounts(users).add(HOSTILE, Role.HEAD, PASSWORD)
    numbers = fill(desk)
    iris = ["javascript:PWNED()", *(f"https://evil.example/{it}?q='onclick=PWNED()" for it in range(len(TEXTS)))]
    rows = [("iri", "label", "lang", "broader"), *((at, text, "en", iris[0]) for at, text in zip(iris, TEXTS))]
    load(desk.db, "".join(map(to_csv, (*rows, (TEXTS[0], "")))), TEXTS[0][:60], "dump.csv")
    return site_of(desk, users), numbers


def pages_of(site: Site, numbers: list[int]) -> list[str]:
    """Returns the addresses of all pages: each route with the numbers in it, and pages that are asked for a text."""
    found = {path for _, path, _ in routes(site, False)}
    for rule in site.app.url_map.iter_rules():
        if "<int:" in rule.rule and "GET" in (rule.methods or ()) and rule.rule.count("<") == 1:
            found |= {re.sub(r"<int:\w+>", str(it), rule.rule) for it in (*numbers, *range(1, 4))}
    for text in TEXTS:
        asked = quote(text)
        found |= {
            f"{path}{asked}"
            for path in (
                "/search?q=",
                "/search?all=1&q=",
                "/record?name=",
                "/index?record=",
                "/new?text=",
                "/az?letter=",
            )
        }
        found |= {
            f"{path}{asked}"
            for path in (
                "/login?next=/",
                "/languages?next=",
                "/users?was=add&name=",
                "/changes?by=",
                "/changes?kind=",
                "/changes?concept=",
                "/changes.csv?by=",
                "/changes/1/back?next=/",
                "/",
            )
        }
    found |= {f"/search?all=1&q={it}" for it in ("alt", "hidden", "de", "pwned", "right")}
    found |= {f"/mapping/1/c/{it}?q={quote(TEXTS[0])}" for it in numbers}
    found |= {f"/tree?at={it}" for it in numbers} | {f"/lists/{it}" for it in ("alike", "orphans", "busiest", "unused")}
    return sorted(
        found
        | {"/lists/untranslated?in=fr", "/print/1?form=alphabetical&notes=1", "/?done=1", "/search?q=script&all=1"}
    )


def test_pages(hostile: tuple[Site, list[int]]) -> None:
    site, numbers = hostile
    client, wrong, tried = site.client(HOSTILE), [], 0
    for path in pages_of(site, numbers):
        for language in ("en", "fr"):
            answer = client.get(path, Accept_Language=language)
            assert answer.status_code < 500, (path, answer.status)
            # (a table is made as it is read)
            page = answer.data.decode(errors="replace")
            if answer.mimetype == "text/html":
                tried += 1
                wrong += [(path, it) for it in faults_of(page)]
            assert not re.search(r"[\r\n]", answer.headers.get("Location", "")), path
    assert not wrong, wrong[:20]
    assert tried > 100


def test_forms_sent_back(hostile: tuple[Site, list[int]]) -> None:
    site, numbers = hostile
    client = site.client(HOSTILE)
    for _, path, _ in changes(site):
        if path == "/logout":
            continue
        for text in TEXTS:
            names = (
                "name",
                "text",
                "tag",
                "next",
                "note",
                "reason",
                "other",
                "record",
                "key",
                "form",
                "kind",
                "seen",
                "comment",
                "iri",
            )
            for token in (None, "forged"):
                answer = client.post(path, {it: text for it in names}, token=token)
                assert answer.status_code < 500, (path, text, answer.status)
                assert faults_of(answer.text) == [], (path, text)


def test_files(hostile: tuple[Site, list[int]]) -> None:
    site, _ = hostile
    client, tried = site.client(HOSTILE), 0
    for _, path, view in changes(site):
        if view.largest_body <= MOST_OF_FORM:
            continue
        for text in TEXTS:
            for data in (b"key,record,concept\nK99,x,5\n", f"number,{text}\n5,{text}\n".encode(), b"\xff\x00<script>"):
                for token in (client.token(), "forged"):
                    tried += 1
                    sent = {"token": token, "file": (io.BytesIO(data), text), "form": "x", "title": text, "tag": "en"}
                    answer = client.ask("POST", path, sent, {"Origin": ORIGIN})
                    assert answer.status_code < 500, (path, text, answer.status)
                    assert faults_of(answer.text) == [], (path, text)
                    leads = answer.headers.get("Location", "/")
                    assert faults_of(client.get(leads).text) == [], leads
    assert tried


def test_answers_for_programs(hostile: tuple[Site, list[int]]) -> None:
    site, _ = hostile
    for text in ("script", "PWNED", "W" * 100, "javascript"):
        answer = site.client(HOSTILE).get(f"/suggest?kinds=all&q={quote(text)}")
        assert answer.mimetype == "application/json" and answer.headers["X-Content-Type-Options"] == "nosniff"
        assert isinstance(answer.json, list)
    for path in ("/search?q=PWNED&all=1&format=csv", "/tree?format=csv"):
        lines = site.client(HOSTILE).get(path).text.splitlines()
        assert not [it for it in lines if re.search(r'(^|,|")[=+@-][A-Z]', it)], "a formula"


def test_the_checker_finds_what_it_looks_for() -> None:
    for text in TEXTS[:4]:
        assert faults_of(f"<p>{text}</p><a title='{text}'></a><a title=\"{text}\"></a><title>{text}</title>"), text
    assert (
        faults_of('<a href="javascript:PWNED()">x</a>')
        and faults_of("<script>PWNED</script>")
        and faults_of("<p style='x'>")
    )
    assert faults_of('<p title="&lt;script&gt;">&lt;script&gt;</p><a href="/c/5">x</a>') == []
