"""Each method of Skosmos' REST interface, as its clients call it: what it answers, obeys and refuses."""
from __future__ import annotations

import subprocess
from typing import Any

import pytest
from flask.testing import FlaskClient
from made_replica import MadeReplica

from museum_vocabularies import (
    BASE, CREMONA, GETTY, HARPS, INSTRUMENTS, OLD, PLACES, QUARTET, REQUESTS, STRINGS, VIOLINS,
    client_of, iri, label, museum_client,
)  # fmt: skip

V1 = f"/rest/v1/{INSTRUMENTS}"


@pytest.fixture(scope="module")
def client() -> FlaskClient:
    return museum_client()


def get(client: FlaskClient, path: str, **query: Any) -> dict[str, Any]:
    """Returns the JSON of an answer."""
    answer = client.get(path, query_string=query)
    assert answer.status_code == 200, answer.text
    return answer.json or {}


def uris(items: list[dict[str, Any]]) -> list[str]:
    return [it["uri"] for it in items]


# --- all vocabularies ---


def test_vocabularies(client: FlaskClient) -> None:
    found = get(client, "/rest/v1/vocabularies", lang="en")["vocabularies"]
    assert [(it["id"], it["uri"], it["title"]) for it in found] == [("1", "1", "Instruments"), ("2", "2", "Places")]


def test_global_search(client: FlaskClient) -> None:
    everywhere = get(client, "/rest/v1/search", query="*r*")["results"]
    assert {it["vocab"] for it in everywhere} == {"1", "2"}, "all vocabularies are asked"
    both = get(client, "/rest/v1/search", query="cremona", vocab="1 2")["results"]
    assert uris(both) == [iri(CREMONA)] and get(client, "/rest/v1/search", query="cremona", vocab="1")["results"] == []
    assert uris(get(client, "/rest/v1/search", query="cremona", vocab=iri(PLACES))["results"]) == [iri(CREMONA)]
    assert client.get("/rest/v1/search?query=a&vocab=1 9").status_code == 404
    assert client.get("/rest/v1/search").status_code == 400


def test_a_global_search_is_bound_by_what_any_vocabulary_has(client: FlaskClient) -> None:
    """Also by a concept of one that isn't the first asked, but by none that isn't asked."""
    asked: list[dict[str, str]] = [{}, {"vocab": "2 1"}]
    for bounds in asked:
        below = get(client, "/rest/v1/search", query="*s", parent=iri(STRINGS), lang="en", **bounds)["results"]
        assert set(uris(below)) == {iri(VIOLINS), iri(HARPS)}, bounds
        members = get(client, "/rest/v1/search", query="*s", group=iri(QUARTET), lang="en", **bounds)["results"]
        assert set(uris(members)) == {iri(VIOLINS)}, bounds
    assert get(client, "/rest/v1/search", query="*", parent=iri(CREMONA))["results"] == []
    assert client.get(f"/rest/v1/search?query=a&vocab=2&parent={iri(STRINGS)}").status_code == 404


def test_global_label_types_and_data(client: FlaskClient) -> None:
    assert get(client, "/rest/v1/label", uri=iri(CREMONA), lang="en")["prefLabel"] == "Cremona"
    assert uris(get(client, "/rest/v1/types")["types"])[0].endswith("core#Concept")
    answer = client.get("/rest/v1/data", query_string={"uri": iri(CREMONA), "format": "text/turtle"})
    assert answer.status_code == 200 and "Cremona" in answer.text and answer.mimetype == "text/turtle"


# --- one vocabulary ---


@pytest.mark.parametrize("name", ["99", "x", "5", "types/x", "²"])
def test_unknown_vocabularies(client: FlaskClient, name: str) -> None:
    assert client.get(f"/rest/v1/{name}/").status_code == 404
    assert client.get(f"/rest/v1/{name}/search?query=a").status_code == 404


def test_about_and_statistics(client: FlaskClient) -> None:
    about = get(client, f"{V1}/", lang="en")
    assert (about["id"], about["title"], about["@context"]["@language"]) == ("1", "Instruments", "en")
    assert get(client, f"{V1}/vocabularyStatistics")["concepts"]["count"] == 4
    counts = {it["language"]: it["properties"] for it in get(client, f"{V1}/labelStatistics")["languages"]}
    assert [it["labels"] for it in counts["de"]] == [1, 1, 0]


def test_top_concepts(client: FlaskClient) -> None:
    assert uris(get(client, f"{V1}/topConcepts")["topconcepts"]) == [iri(STRINGS)]
    assert uris(get(client, f"{V1}/topConcepts", scheme=iri(INSTRUMENTS))["topconcepts"]) == [iri(STRINGS)]
    assert client.get(f"{V1}/topConcepts?scheme={iri(PLACES)}").status_code == 404


def test_types_of_a_vocabulary(client: FlaskClient) -> None:
    assert [it["label"] for it in get(client, f"{V1}/types", lang="en")["types"]] == ["Concept", "Collection"]


def test_letters_are_those_of_the_language_and_the_vocabulary(client: FlaskClient) -> None:
    assert get(client, f"{V1}/index/", lang="en")["indexLetters"] == ["F", "H", "S", "V", "0-9"]
    assert get(client, f"{V1}/index/", lang="de")["indexLetters"] == ["G", "V"]
    assert get(client, f"/rest/v1/{PLACES}/index/", lang="en")["indexLetters"] == ["C"]
    found = get(client, f"{V1}/index/V", lang="de")["indexConcepts"]
    assert [(it["prefLabel"], it["altLabel"], it["localname"]) for it in found] == [("Geigen", "Violinen", "4")]
    assert uris(get(client, f"{V1}/index/0-9", lang="en")["indexConcepts"]) == [iri(HARPS)]
    assert len(get(client, f"{V1}/index/F", lang="en", limit=1)["indexConcepts"]) == 1


def test_groups(client: FlaskClient) -> None:
    (group,) = get(client, f"{V1}/groups", lang="en")["groups"]
    assert group == {"uri": iri(QUARTET), "prefLabel": "String quartet", "hasMembers": True}
    members = get(client, f"{V1}/groupMembers", uri=iri(QUARTET), lang="de")["members"]
    assert members == [{"uri": iri(VIOLINS), "prefLabel": "Geigen", "type": ["skos:Concept"]}]
    assert client.get(f"{V1}/groupMembers?uri={iri(VIOLINS)}").status_code == 404


def test_new_and_modified(client: FlaskClient) -> None:
    new = get(client, f"{V1}/new", lang="en")["changeList"]
    assert [(it["uri"], it["date"]) for it in new] == [
        (iri(HARPS), "2026-11-02T10:00:00Z"), (iri(VIOLINS), "2026-11-01T10:00:00Z"),
    ]  # fmt: skip
    modified = get(client, f"{V1}/modified", lang="en")["changeList"]
    assert uris(modified) == [iri(OLD), iri(VIOLINS)] and modified[0]["replacedBy"] == iri(VIOLINS)
    assert uris(get(client, f"{V1}/modified", offset=1, limit=1)["changeList"]) == [iri(VIOLINS)]


def test_data(client: FlaskClient) -> None:
    whole = client.get(f"{V1}/data", headers={"Accept": "text/turtle"})
    assert "Geigen" in whole.text and "String quartet" in whole.text and "Cremona (Stadt)" not in whole.text
    for form in ("application/rdf+xml", "application/ld+json", "text/turtle"):
        assert client.get(f"{V1}/data", query_string={"format": form}).mimetype == form
    for form in ("application/msword", "application/marcxml+xml"):
        assert client.get(f"{V1}/data", query_string={"format": form}).status_code == 400
    assert client.get(f"{V1}/data?uri={iri(CREMONA)}").status_code == 404, "it is of another vocabulary"


# --- search ---


def found(client: FlaskClient, **query: str) -> list[dict[str, Any]]:
    return list(get(client, f"{V1}/search", **query)["results"])


def test_search_results(client: FlaskClient) -> None:
    (hit,) = found(client, query="fiddles", lang="en")
    wanted = {"uri": iri(VIOLINS), "type": ["skos:Concept"], "localname": "4", "prefLabel": "Violins", "lang": "en"}
    assert hit == {**wanted, "vocab": "1", "altLabel": "Fiddles"}
    assert found(client, query="violns")[0]["hiddenLabel"] == "Violns"
    assert found(client, query="geigen", lang="de", labellang="en")[0]["prefLabel"] == "Violins"


@pytest.mark.parametrize(
    ("bounds", "expected"),
    [
        ({"type": "skos:Concept"}, [STRINGS]),
        ({"type": "skos:Collection"}, [QUARTET]),
        ({"type": "skos:Concept skos:Collection"}, [STRINGS, QUARTET]),
        ({"type": "http://museum.example/other#Type"}, []),
        ({"parent": iri(STRINGS)}, []),
        ({"group": iri(QUARTET)}, []),
    ],
)
def test_bounds_of_a_search(client: FlaskClient, bounds: dict[str, str], expected: list[int]) -> None:
    assert uris(found(client, query="string*", lang="en", **bounds)) == [iri(it) for it in expected]


def test_parent_and_group(client: FlaskClient) -> None:
    assert set(uris(found(client, query="*s", parent=iri(STRINGS), lang="en"))) == {iri(VIOLINS), iri(HARPS)}
    assert set(uris(found(client, query="*s", group=iri(QUARTET), lang="en"))) == {iri(VIOLINS)}
    assert client.get(f"{V1}/search?query=a&parent={iri(QUARTET)}").status_code == 404
    assert client.get(f"{V1}/search?query=a&group={iri(VIOLINS)}").status_code == 404


def test_unique(client: FlaskClient) -> None:
    ways = [it for it in found(client, query="*i*s", lang="en") if it["uri"] == iri(VIOLINS)]
    once = [it for it in found(client, query="*i*s", lang="en", unique="true") if it["uri"] == iri(VIOLINS)]
    assert len(ways) > 1 and len(once) == 1 and "altLabel" not in once[0]
    assert client.get(f"{V1}/search?query=a&unique=maybe").status_code == 400


def test_fields(client: FlaskClient) -> None:
    (hit,) = found(client, query="violins", fields="prefLabel altLabel broader related")
    assert hit["prefLabels"] == {"en": "Violins", "de": "Geigen"} and hit["altLabels"]["de"] == ["Violinen"]
    assert uris(hit["skos:broader"]) == [iri(STRINGS)] and uris(hit["skos:related"]) == [iri(HARPS)]
    assert client.get(f"{V1}/search?query=a&fields=colour").status_code == 400


@pytest.mark.parametrize("wrong", ["maxhits=0", "maxhits=-1", "maxhits=x", "offset=x", "offset=-1"])
def test_numbers_that_are_none(client: FlaskClient, wrong: str) -> None:
    assert client.get(f"{V1}/search?query=a&{wrong}").status_code == 400


def test_lookup(client: FlaskClient) -> None:
    assert uris(get(client, f"{V1}/lookup", label="Violins")["result"]) == [iri(VIOLINS)]
    assert uris(get(client, f"{V1}/lookup", label="fiddles", lang="en")["result"]) == [iri(VIOLINS)]
    assert client.get(f"{V1}/lookup?label=viol").status_code == 404
    assert client.get(f"{V1}/lookup").status_code == 400


@pytest.mark.needs("xmllint")
def test_rdf_in_xml_tells_what_xml_doesnt_have() -> None:
    """In a comment at its end: a client learns of it, and a parser takes the document."""
    odd = MadeReplica(*REQUESTS, label(VIOLINS, "alt", "en", "Odd\ufffe <fiddles>"), base=BASE)
    client = client_of(odd)
    for path in (f"/id/{VIOLINS}?format=rdf", f"{V1}/data?format=application/rdf%2Bxml"):
        document = client.get(path).data
        assert b"\n<!-- characters that XML doesn't have are left out: 1 U+FFFE -->" in document
        ran = subprocess.run(["xmllint", "--nonet", "--noout", "-"], input=document, capture_output=True, check=False)
        assert ran.returncode == 0 and not ran.stderr, ran.stderr
    assert b"<!--" not in client.get(f"/id/{HARPS}?format=rdf").data
    assert "Odd\ufffe" in client.get(f"/id/{VIOLINS}?format=ttl").text


# --- one concept ---


def test_label_is_in_the_language_or_is_not(client: FlaskClient) -> None:
    german = get(client, f"{V1}/label", uri=iri(VIOLINS), lang="de")
    assert (german["prefLabel"], german["altLabel"], german["@context"]["@language"]) == ("Geigen", ["Violinen"], "de")
    assert "prefLabel" not in get(client, f"{V1}/label", uri=iri(HARPS), lang="de")
    assert client.get(f"{V1}/label?uri=https://other.example/1").status_code == 404
    assert client.get(f"{V1}/label").status_code == 400


def test_an_address_elsewhere_leads_to_its_exact_match(client: FlaskClient) -> None:
    """A concept that came from another program is asked for by the address that it had there."""
    assert get(client, f"{V1}/label", uri=GETTY, lang="en")["prefLabel"] == "Violins"
    assert client.get(f"/id?uri={GETTY}").headers["Location"] == f"/id/{VIOLINS}"
    assert client.get(f"/id?uri={iri(VIOLINS)}").headers["Location"] == f"/id/{VIOLINS}"
    assert client.get("/id?uri=https://other.example/1").status_code == 404 and client.get("/id").status_code == 400


def test_near_concepts(client: FlaskClient) -> None:
    for name, others in (("broader", [STRINGS]), ("narrower", []), ("related", [HARPS])):
        answer = get(client, f"{V1}/{name}", uri=iri(VIOLINS), lang="en")
        assert uris(answer[name]) == [iri(it) for it in others] and answer["@context"]["@language"] == "en"
    assert set(uris(get(client, f"{V1}/children", uri=iri(STRINGS))["narrower"])) == {iri(VIOLINS), iri(HARPS)}


def test_hierarchies(client: FlaskClient) -> None:
    above = get(client, f"{V1}/broaderTransitive", uri=iri(VIOLINS), lang="de")["broaderTransitive"]
    assert above[iri(VIOLINS)]["broader"] == [iri(STRINGS)] and above[iri(VIOLINS)]["prefLabel"] == "Geigen"
    below = get(client, f"{V1}/narrowerTransitive", uri=iri(STRINGS))["narrowerTransitive"]
    assert below.keys() == {iri(STRINGS), iri(VIOLINS), iri(HARPS)}
    nearest = get(client, f"{V1}/narrowerTransitive", uri=iri(STRINGS), limit=2)["narrowerTransitive"]
    assert nearest.keys() == {iri(STRINGS), iri(VIOLINS)}
    assert client.get(f"{V1}/broaderTransitive?uri={iri(VIOLINS)}&limit=0").status_code == 400
    tree = get(client, f"{V1}/hierarchy", uri=iri(VIOLINS))["broaderTransitive"]
    assert tree[iri(STRINGS)]["top"] == iri(INSTRUMENTS)


def test_mappings(client: FlaskClient) -> None:
    found = get(client, f"{V1}/mappings", uri=iri(VIOLINS), lang="en", clang="de")["mappings"]
    assert [(it["uri"], it["type"], it["vocabName"]) for it in found] == [
        (iri(CREMONA), ["skos:closeMatch"], "Places"), (GETTY, ["skos:exactMatch"], "vocab.getty.edu"),
    ]  # fmt: skip
    assert found[0]["prefLabel"] == "Cremona (Stadt)" and found[0]["from"] == {"memberSet": [{"uri": iri(VIOLINS)}]}
    own = get(client, f"{V1}/mappings", uri=iri(VIOLINS), external="false")["mappings"]
    assert uris(own) == [iri(CREMONA)]


@pytest.mark.parametrize("what", ["fly", "search/x", "index"])
def test_methods_that_are_none(client: FlaskClient, what: str) -> None:
    assert client.get(f"{V1}/{what}").status_code in (404, 308)
