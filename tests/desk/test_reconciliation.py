"""Each part of the Reconciliation Service API 0.2, as OpenRefine calls it: what it answers, obeys and refuses."""
from __future__ import annotations

import json
from typing import Any

import pytest
from flask.testing import FlaskClient
from museum_vocabularies import BASE, CREMONA, GETTY, HARPS, INSTRUMENTS, OLD, PLACES, VIOLINS, iri, museum_client


@pytest.fixture(scope="module")
def client() -> FlaskClient:
    return museum_client()


def get(client: FlaskClient, path: str, **query: Any) -> dict[str, Any]:
    answer = client.get(path, query_string=query)
    assert answer.status_code == 200, answer.text
    return answer.json or {}


def ask(client: FlaskClient, **query: Any) -> list[dict[str, Any]]:
    """Returns the results of one query."""
    answer = client.post("/reconcile", data={"queries": json.dumps({"q0": query})})
    assert answer.status_code == 200, answer.text
    return list((answer.json or {})["q0"]["result"])


def extend(client: FlaskClient, *properties: Any, ids: tuple[int, ...] = (VIOLINS,)) -> dict[str, Any]:
    asked = {"ids": [str(it) for it in ids], "properties": list(properties)}
    answer = client.post("/reconcile", data={"extend": json.dumps(asked)})
    assert answer.status_code == 200, answer.text
    return answer.json or {}


def test_manifest(client: FlaskClient) -> None:
    found = get(client, "/reconcile")
    assert found["versions"] == ["0.1", "0.2"] and found["identifierSpace"] == BASE
    assert found["defaultTypes"] == [{"id": "1", "name": "Instruments"}, {"id": "2", "name": "Places"}]
    assert found["suggest"].keys() == {"entity", "property", "type"}
    for what, part in found["suggest"].items():
        assert part["service_path"] == f"/reconcile/suggest/{what}"
        assert part["flyout_service_path"] == f"/reconcile/flyout/{what}?id=${{id}}"
    (setting,) = found["extend"]["property_settings"]
    assert (setting["name"], setting["type"], setting["default"]) == ("lang", "select", "")
    assert {"", "*", "en", "de"} <= {it["value"] for it in setting["choices"]}


def test_queries_by_get(client: FlaskClient) -> None:
    found = get(client, "/reconcile", queries=json.dumps({"a": {"query": "Harps"}, "b": {"query": "zzzz"}}))
    assert found["a"]["result"][0]["id"] == str(HARPS) and found["b"]["result"] == []
    hit = found["a"]["result"][0]
    assert hit.keys() == {"id", "name", "score", "match", "type", "description"}
    assert hit["type"] == [{"id": "1", "name": "Instruments"}] and hit["match"] is True


@pytest.mark.parametrize(
    ("type_", "ids"),
    [
        (None, [VIOLINS]),
        ("1", [VIOLINS]),
        (["1", "2"], [VIOLINS]),
        (iri(INSTRUMENTS), [VIOLINS]),
        ("http://www.w3.org/2004/02/skos/core#Concept", [VIOLINS]),
        (str(PLACES), []),
        ("unknown", []),
        (["unknown", "1"], [VIOLINS]),
        (str(HARPS), []),
    ],
)
def test_a_type_is_a_filter(client: FlaskClient, type_: Any, ids: list[int]) -> None:
    assert [it["id"] for it in ask(client, query="Violins", type=type_)] == [str(it) for it in ids]


@pytest.mark.parametrize(
    "strict, type_, ids",
    [
        ("any", ["1", "2"], [VIOLINS]),
        ("should", "1", [VIOLINS]),
        ("should", "2", []),
        ("all", "1", [VIOLINS]),
        ("all", ["skos:Concept", "1"], [VIOLINS]),
        ("all", ["skos:Concept", "2"], []),
        ("all", ["1", "2"], []),
        ("all", ["1", "unknown"], []),
        ("all", "skos:Concept", [VIOLINS]),
    ],
)
def test_types_are_meant_as_type_strict_says(client: FlaskClient, strict: str, type_: Any, ids: list[int]) -> None:
    found = ask(client, query="Violins", type=type_, type_strict=strict)
    assert [it["id"] for it in found] == [str(it) for it in ids]


def test_another_type_strict_is_refused(client: FlaskClient) -> None:
    queries = json.dumps({"q0": {"query": "Violins", "type": "1", "type_strict": "some"}})
    assert client.post("/reconcile", data={"queries": queries}).status_code == 400


def test_a_query_may_be_a_number(client: FlaskClient) -> None:
    assert ask(client, query=HARPS)[0]["id"] == str(HARPS) and ask(client, query=2.5) == []


def test_the_address_of_a_merged_concept_finds_its_successor(client: FlaskClient) -> None:
    for text in (iri(OLD), str(OLD), iri(VIOLINS)):
        (found,) = [it for it in ask(client, query=text) if it["score"] == 100]
        assert (found["id"], found["name"], found["match"]) == (str(VIOLINS), "Violins", True), text
    assert ask(client, query=iri(OLD), type=str(PLACES)) == []


def test_an_address_elsewhere_finds_its_exact_match(client: FlaskClient) -> None:
    """As the one that a concept had before it came here."""
    (found,) = ask(client, query=GETTY)
    assert (found["id"], found["name"], found["match"]) == (str(VIOLINS), "Violins", True)
    assert ask(client, query=GETTY, type=str(PLACES)) == []


def test_repeated_queries_have_the_same_answers(client: FlaskClient) -> None:
    queries = json.dumps({f"q{n}": {"query": "Fiddles"} for n in range(200)})
    answers = client.post("/reconcile", data={"queries": queries}).json or {}
    assert len(answers) == 200 and {it["result"][0]["id"] for it in answers.values()} == {str(VIOLINS)}
    assert client.post("/reconcile", data={"queries": json.dumps({f"{n}": {} for n in range(201)})}).status_code == 400


def test_extension_in_a_language(client: FlaskClient) -> None:
    def terms(lang: str, of: str = "prefLabel") -> list[str]:
        answer = extend(client, {"id": of, "settings": {"lang": lang}})
        return [it["str"] for it in answer["rows"][str(VIOLINS)][of]]

    assert terms("") == ["Violins"] and terms("de") == ["Geigen"] and terms("fr") == []
    assert terms("*") == ["Geigen (de)", "Violins (en)"] and terms("de", "altLabel") == ["Violinen"]
    meta = extend(client, {"id": "prefLabel", "settings": {"lang": "de"}})["meta"]
    assert meta == [{"id": "prefLabel", "name": "Preferred term (de)"}]
    broader = extend(client, {"id": "broader"})["rows"][str(VIOLINS)]["broader"]
    assert broader == [{"id": "3", "name": "String instruments"}]


def test_extension_of_several_rows(client: FlaskClient) -> None:
    rows = extend(client, {"id": "exactMatch"}, {"id": "iri"}, ids=(VIOLINS, 99))["rows"]
    assert rows[str(VIOLINS)] == {"exactMatch": [{"str": GETTY}], "iri": [{"str": iri(VIOLINS)}]}
    assert rows["99"] == {"exactMatch": [], "iri": []}
    for wrong in ("[]", "{", '{"ids": []}', '{"ids": ["1"], "properties": ["x"]}'):
        assert client.post("/reconcile", data={"extend": wrong}).status_code == 400
    setting = {"ids": ["1"], "properties": [{"id": "prefLabel", "settings": {"lang": 7}}]}
    assert client.post("/reconcile", data={"extend": json.dumps(setting)}).status_code == 400


@pytest.mark.parametrize(
    ("what", "prefix", "id_"),
    [("entity", "vio", str(VIOLINS)), ("property", "bro", "broader"), ("type", "Pla", str(PLACES))],
)
def test_suggestions_and_flyouts(client: FlaskClient, what: str, prefix: str, id_: str) -> None:
    found = get(client, f"/reconcile/suggest/{what}", prefix=prefix)["result"]
    assert found[0]["id"] == id_ and found[0]["name"]
    flyout = get(client, f"/reconcile/flyout/{what}", id=id_)
    assert flyout["id"] == id_ and found[0]["name"] in flyout["html"]
    assert client.get(f"/reconcile/flyout/{what}?id=nothing").status_code == 404
    assert client.get(f"/reconcile/flyout/{what}").status_code == 400
    assert client.get(f"/reconcile/suggest/{what}").status_code == 400
    after = get(client, f"/reconcile/suggest/{what}", prefix=prefix, cursor=1)["result"]
    assert after == found[1:]
    assert client.get(f"/reconcile/suggest/{what}?prefix=a&cursor=x").status_code == 400


def test_preview_and_properties(client: FlaskClient) -> None:
    page = client.get(f"/reconcile/preview?id={VIOLINS}")
    assert (
        page.status_code == 200
        and "Violins" in page.text
        and "frame-ancestors *" in page.headers["Content-Security-Policy"]
    )
    assert client.get("/reconcile/preview?id=99").status_code == 404
    proposed = get(client, "/reconcile/properties", type="1", limit=2)
    assert (proposed["type"], proposed["limit"], len(proposed["properties"])) == ("1", 2, 2)
    assert client.get("/reconcile/properties?limit=some").status_code == 400


@pytest.mark.parametrize(
    "path", ["/reconcile?callback=f", "/rest/v1/vocabularies?callback=f", "/rest/v1/1/?callback=f"]
)
def test_scripts_are_refused(client: FlaskClient, path: str) -> None:
    """A page of another site gets JSON, and no script that calls a function of it."""
    answer = client.get(path)
    assert answer.status_code == 400 and "JSONP" in (answer.json or {})["error"]


def test_a_page_of_another_site_may_ask(client: FlaskClient) -> None:
    fields = {"Origin": "https://other.example", "Access-Control-Request-Method": "POST"}
    answer = client.options("/reconcile", headers=fields)
    assert answer.status_code == 200 and answer.headers["Access-Control-Allow-Origin"] == "*"
    assert "POST" in answer.headers["Access-Control-Allow-Methods"]
    assert "Content-Type" in answer.headers["Access-Control-Allow-Headers"]
    assert get(client, "/reconcile/suggest/entity", prefix="crem")["result"][0]["id"] == str(CREMONA)
