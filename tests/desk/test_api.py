"""What a catalogue's program asks while a desk runs: by a token, journalled as its user's; and the client."""
from __future__ import annotations

import json
import os
import subprocess
import sys
from pathlib import Path
from typing import Any

import pytest
from clients import ORIGIN, Client, Site
from processes import ROOT, Running, run_desk
from thesaurus_desk.auth.accounts import Accounts
from thesaurus_desk.journal.values import set_request
from werkzeug.test import TestResponse

PATHS = ("/api/schemes", "/api/find?text=x")


class Program:
    """A program with the token of a user."""

    def __init__(self, site: Site, name: str, token: str = "") -> None:
        assert site.entry.accounts
        self.site, self.token = site, token or site.entry.accounts.make_token(name)
        self.http = site.app.test_client()

    def ask(self, path: str, body: Any = None, **fields: str) -> TestResponse:
        """Asks a question, or sends a plan."""
        headers = {"Authorization": f"Bearer {self.token}", **fields}
        how: dict[str, Any] = {"method": "GET"} if body is None else {"method": "POST", "json": body}
        return self.http.open(path, base_url=f"{ORIGIN}/", headers=headers, **how)

    def send(self, *requests: dict[str, Any]) -> tuple[int, Any]:
        answer = self.ask("/api/plans", list(requests))
        return answer.status_code, answer.json


def post(concept: int | str = 5, key: str = "k1") -> dict[str, Any]:
    return {"do": "post", "key": key, "record": "Inv. 17", "concept": concept}


@pytest.fixture
def ina(site: Site) -> Program:
    return Program(site, "ina")


def test_schemes_and_terms(ina: Program) -> None:
    uri = "https://thesaurus.example/id/"
    (scheme,) = ina.ask("/api/schemes").json or []
    assert scheme["number"] == 1 and scheme["uri"] == f"{uri}1" and scheme["names"]["fr"] == "Instruments de musique"
    first, *_ = ina.ask("/api/find?text=violoncellos&lang=en").json or []
    assert first == {
        "number": 7,
        "uri": f"{uri}7",
        "term": "Cellos",
        "lang": "en",
        "label": {"kind": "alt", "lang": "en", "text": "Violoncellos"},
        "is_same": True,
    }
    assert ina.ask("/api/find?text=xyzzy").json == []
    for query in ("", "?text=%20", "?text=x&scheme=y"):
        answer = ina.ask(f"/api/find{query}")
        assert answer.status_code == 400 and "text=.. is needed" in (answer.json or {})["error"]


def test_no_candidate_is_found(ina: Program, site: Site) -> None:
    assert site.desk.perform("anna", "test", [set_request(7, "status", "", new="candidate")]).is_done
    assert ina.ask("/api/find?text=violoncellos").json == []


def test_a_plan(ina: Program) -> None:
    """It is in the journal as the user's, and a posting that is sent a second time counts once."""
    status, answer = ina.send(post(), post(6, "k2"))
    assert (status, answer["plan"], [*map(list, answer["done"])]) == (200, 1, [["ok"], ["ok"]])
    assert ina.send(post())[1]["done"] == [{"again": answer["done"][0]["ok"]}]
    plan = ina.site.desk.journal.plan(1)
    assert plan and (plan.user, plan.action, plan.state) == ("ina", "api", "done")
    assert "Inv. 17" in ina.site.client("rita").get("/changes").text


def test_what_is_refused(ina: Program, site: Site) -> None:
    """All of a plan or nothing; with the name of the rule, and the place of the request."""
    status, answer = ina.send(post(), post(9999, "k2"))
    assert status == 409 and answer["at"] == 2 and set(answer) == {"plan", "at", "no"}
    assert not site.desk.replica.postings.of_record("Inv. 17")
    wrong: list[Any] = [{}, [], "x", [1], [{"do": 1}], [{"do": "set", "owner": 5}], [{"do": "post"}], [{"do": "no"}]]
    value = set_request(5, "definition", "en", new="x")
    for name, it in (
        ("owner", 0),
        ("owner", "5"),
        ("owner", True),
        ("field", 1),
        ("tag", None),
        ("new", {"text": "x"}),
    ):
        wrong.append([{**value, name: it}])
    wrong += [[{**value, "more": 1}], [{**value, "new": []}], [{**value, "old": [0]}], [value, {"do": "post"}]]
    for body in (*wrong, [post()] * 129, [{**post(), "key": 1}]):
        assert ina.ask("/api/plans", body).status_code == 400, body
    raw = ina.http.post("/api/plans", data="[", headers={"Authorization": f"Bearer {ina.token}"})
    assert raw.status_code in (400, 415) and "error" in (raw.json or {})


def test_values_of_fields(site: Site) -> None:
    """A value is set in the same plan as what it is of; one that is there no more is refused, with all of the plan."""
    ben = Program(site, "ben")
    new = {"do": "concept", "scheme": 1, "tag": "en", "text": "Rebecs"}
    text = {"text": "A small bowed lute.", "source": "Sachs"}
    value = set_request("$2", "definition", "en", new=text)
    status, answer = ben.send(set_request(7, "notation", "", new="C-7"), new, value, {**post("$2"), "key": "r1"})
    assert (status, [*map(list, answer["done"])]) == (200, [["done"], ["ok"], ["done"], ["ok"]]), answer
    number = answer["done"][1]["ok"]
    (held,) = site.desk.values.of(number)["definition"]
    assert (held.text, held.source) == ("A small bowed lute.", "Sachs")
    assert "A small bowed lute." in site.client("rita").get(f"/c/{number}").text
    status, answer = ben.send(post(7, "k3"), set_request(7, "notation", "", old="C-8", new="C-9"))
    assert (status, answer["at"], answer["no"]) == (409, 2, "NoSuchValue")
    assert ben.send(set_request(7, "notation", "", old="C-7"))[0] == 200 and not site.desk.values.of(7).get("notation")


def test_roles(ina: Program, site: Site) -> None:
    new = {"do": "concept", "scheme": 1, "tag": "en", "text": "Rebecs"}
    assert Program(site, "rita").send(post())[0] == 403 and Program(site, "rita").ask(PATHS[0]).status_code == 200
    assert ina.send(new)[0] == 403 and Program(site, "ben").send(new)[0] == 200
    assert ina.send(set_request(5, "definition", "en", new="x"))[0] == 403
    assert Program(site, "ben").send({"do": "deprecate", "concept": 5})[0] == 403
    assert site.desk.journal.last_plan() == 1


def test_tokens(ina: Program, site: Site, users: Path) -> None:
    """Only the last one of a user is good, and only at these paths; none is in the file."""
    assert ina.token not in users.read_text(encoding="utf-8")
    assert ina.ask("/me").status_code == 303
    for token in ("", "x", ina.token[:-1], "None"):
        answer = Program(site, "ina", token or " ").ask(PATHS[0])
        assert answer.status_code == 401 and answer.headers["WWW-Authenticate"] == "Bearer", token
    newer = Program(site, "ina")
    assert ina.ask(PATHS[0]).status_code == 401 and newer.ask(PATHS[0]).status_code == 200
    Accounts(users).remove_token("ina")
    assert newer.ask(PATHS[0]).status_code == 401


def test_a_cookie_is_no_token(site: Site) -> None:
    """So no form of another site can use these paths."""
    anna: Client = site.client("anna")
    for path in PATHS:
        assert anna.get(path).status_code == 401
    assert anna.post("/api/plans", {"x": "y"}).status_code == 401
    assert site.desk.journal.last_plan() == 0


def test_the_client(shared_desk: Running, users: Path) -> None:
    """The client of the page indexes records over HTTP; what it sends again counts once."""
    token = run_desk("user", "token", "ina", "--users", users).stdout.strip()
    words = [sys.executable, str(ROOT / "examples" / "index_records.py"), f"http://127.0.0.1:{shared_desk.port}"]
    lines = "Inv. 17,violoncellos\nInv. 18,Violins\nInv. 19,nothing\n"
    runs = [
        subprocess.run(
            words,
            input=lines,
            capture_output=True,
            text=True,
            check=False,
            env={**os.environ, "DESK_TOKEN": token},
        )
        for _ in range(2)
    ]
    first, second = ([it.split("\t")[-1] for it in ran.stdout.splitlines()] for ran in runs)
    assert [ran.returncode for ran in runs] == [1, 1], runs
    assert first[2] == second[2] == "unknown"
    assert [json.loads(it)["ok"] for it in first[:2]] == [json.loads(it)["again"] for it in second[:2]]
