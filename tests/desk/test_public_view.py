"""The public view: what visitors and other programs see while some concepts are candidates."""
from __future__ import annotations

import io
import json
import random
import subprocess
import zipfile
from collections import Counter
from collections.abc import Callable, Iterator
from pathlib import Path
from urllib.parse import urlencode

import pytest
from asking import done, label, link, new, number, view
from clients import Client, Site, site_of, text_of
from conftest import ROOT
from test_killed import run_killed
from test_routes import path_of
from thesaurus_desk.journal.values import Request, member_of, set_request
from thesaurus_desk.store.plan_execution import Desk
from thesaurus_desk.store.public_view import build_public_view
from thesaurus_desk.store.release_export import make_release
from thesaurus_tools.fields import Field
from thesaurus_tools.kinds import BROADER
from thesaurus_tools.ntriples import SKOS
from whole import resources

KINDS = tuple(BROADER)


def status(desk: Desk, owner: int, new: str | None) -> Request:
    """The request that gives a concept a status."""
    old = desk.replica.statuses().get(owner)
    return set_request(owner, "status", "", old=old, new=new)


def kept(desk: Desk) -> tuple[list[tuple[int, ...]], list[tuple[int, ...]]]:
    """What is kept of the public view."""
    return (
        desk.replica.all("SELECT num FROM hidden ORDER BY num"),
        desk.replica.all("SELECT a, b, typ FROM public_hier ORDER BY a, b, typ"),
    )


def made_anew(desk: Desk) -> tuple[list[tuple[int, ...]], list[tuple[int, ...]]]:
    """The same, made anew."""
    with desk.journal.writing() as rows:
        for table in ("hidden", "public_hier"):
            rows.execute(f"DELETE FROM {table}")
        build_public_view(rows)
    return kept(desk)


def plain_places(desk: Desk) -> set[tuple[int, int]]:
    """The pairs of concepts that are seen below each other: by the rule, over the replica."""
    replica, statuses = desk.replica, desk.replica.statuses()
    hidden = {it for it, name in statuses.items() if name in ("candidate", "review")}

    def seen_above(low: int) -> set[int]:
        above = replica.resource(low).broader
        return {it for it in above if it not in hidden}.union(*(seen_above(it) for it in above if it in hidden))

    return {(low, high) for low in replica.numbers("concept") if low not in hidden for high in seen_above(low)}


def assert_as_filtered(desk: Desk) -> None:
    """Each look-up of the public view has what the replica has of what isn't hidden."""
    hidden = {it for it, name in desk.replica.statuses().items() if name in ("candidate", "review")}
    seen = [it for it in resources(desk.replica).values() if it.number not in hidden]
    for it in seen:
        its = desk.public.resource(it.number)
        assert (its.labels, its.is_live, its.scheme) == (it.labels, it.is_live, it.scheme)
        assert (its.related, its.members) == (it.related - hidden, it.members - hidden)
        assert its.replaced == (None if it.replaced in hidden else it.replaced)
    assert not [it for it in hidden if desk.public.get(it) or desk.public.kind(it)]
    labels = Counter(tag for it in seen for kind, tag, _ in it.labels if kind == "pref")
    assert {tag: n for tag, n in desk.public.tags.items() if n} == labels
    live = [it.number for it in seen if it.kind == "concept" and it.is_live]
    assert desk.public.numbers("concept", 1, True) == sorted(live) and desk.public.count_concepts() == len(live)
    assert desk.public.tops(1) == [it for it in sorted(live) if not desk.public.resource(it).broader]


def thrown(dice: random.Random, desk: Desk) -> list[Request]:
    """A plan of one or two requests at random."""
    live = desk.replica.numbers("concept", 1, True)
    one, other = dice.sample(live, 2)
    above = sorted(desk.replica.resource(one).broader)
    turn = dice.random()
    if turn < 0.45:
        return [status(desk, one, dice.choice(["candidate", "review", "candidate", "revise", None]))]
    if turn < 0.55:
        return [new(f"Concept {dice.random()}"), link("link", dice.choice(KINDS), "$1", one)]
    if turn < 0.75 and above:
        return [link("unlink", dice.choice(desk.replica.link_types(one, above[0])), one, above[0])]
    if turn < 0.97:
        return [link("link", dice.choice(KINDS), one, other)]
    return [{"do": "merge", "source": one, "target": other}]


def test_what_is_kept_is_what_is_made_anew(desk: Desk, open_desk: Callable[[Path], Desk]) -> None:
    dice, states = random.Random(4), []
    for turn in range(250):
        states.append(desk.perform("anna", "test", thrown(dice, desk)).state)
        its = kept(desk)
        assert {it[:2] for it in its[1]} == plain_places(desk), turn
        if turn % 25 == 0:
            assert its == made_anew(desk), turn
            assert_as_filtered(desk)
    assert states.count("done") > 150 and len(kept(desk)[0]) > 5
    before = kept(desk)
    desk.stop()
    assert kept(open_desk(desk.db)) == before


def test_what_is_below_a_candidate_is_seen_below_the_nearest_approved(desk: Desk) -> None:
    bowed, strings = number(desk, "Bowed instruments"), number(desk, "String instruments")
    below = sorted(desk.replica.branch(bowed))
    assert desk.public.branch(strings) == desk.replica.branch(strings)
    done(desk, status(desk, bowed, "candidate"))
    assert bowed in desk.replica.branch(strings)
    its = desk.public.branch(strings)
    assert bowed not in its and set(below) <= set(its) and its[below[0]] == ("broader",)
    assert desk.public.kind(bowed) is None and desk.public.get(bowed) is None
    assert desk.public.search("Bowed instruments") == []
    assert desk.public.count_concepts() == desk.replica.count_concepts() - 1
    done(desk, status(desk, bowed, None))
    assert desk.public.branch(strings) == desk.replica.branch(strings)


def test_approving_below_a_candidate_is_refused(desk: Desk) -> None:
    bowed, violins = number(desk, "Bowed instruments"), number(desk, "Violins")
    done(desk, status(desk, bowed, "candidate"), status(desk, violins, "review"))
    outcome = desk.perform("anna", "test", [status(desk, violins, None)])
    assert (outcome.state, outcome.answer) == ("refused", {"no": "BelowCandidate"})
    done(desk, status(desk, violins, "candidate"))
    strings = number(desk, "String instruments")
    moved = [link("unlink", "broaderGeneric", violins, bowed), link("link", "broaderGeneric", violins, strings)]
    assert desk.perform("anna", "test", [*moved, status(desk, violins, None)]).is_done
    assert desk.perform("anna", "test", [link("link", "broader", violins, bowed)]).is_done
    both = [status(desk, violins, "candidate")], [status(desk, bowed, "revise")]
    assert all(desk.perform("anna", "test", it).is_done for it in both)
    assert desk.perform("anna", "test", [status(desk, violins, "revise")]).is_done


# --- every public address ---

TERM = "Zornographs"


@pytest.fixture
def candidate(desk: Desk) -> int:
    """A candidate with all that a page shows: terms, a note, values, links, a record, a collection."""
    bowed, violins = number(desk, "Bowed instruments"), number(desk, "Violins")
    made = done(
        desk,
        new(TERM),
        set_request("$1", "status", "", new="candidate"),
        link("link", "broaderGeneric", "$1", bowed),
        link("link", "related", "$1", number(desk, "Drums")),
        link("link", "broaderGeneric", violins, "$1"),
        label("addLabel", "$1", "alt", f"{TERM} alt"),
        label("addLabel", "$1", "pref", f"{TERM} xx", "xx"),
        label("addLabel", "$1", "hidden", f"{TERM} hidden"),
        label("addLabel", "$1", "scope", f"{TERM} scope"),
        set_request("$1", "definition", "en", new=f"{TERM} definition"),
        set_request("$1", "notation", "", new=f"{TERM}-1"),
        set_request("$1", "person", "", new="ben"),
        set_request("$1", "task", "", new=f"{TERM} task"),
        {"do": "post", "key": "z-1", "record": "Violin 1", "concept": "$1"},
        {"do": "collection", "scheme": 1, "tag": "en", "text": "A few"},
        link("link", "member", "$15", "$1"),
        set_request("$15", "superordinate", "", new=["$1"]),
        set_request("$15", "order", "", new=["$1"]),
        {"do": "outside", "iri": "https://elsewhere.example/7"},
        link("link", "exact", "$1", "$19"),
    )
    return int(made.made or 0)


def addresses(site: Site, number: int) -> Iterator[tuple[str, str]]:
    """Each route's endpoint with its addresses, with the number of a concept and with what asks for it."""
    iri = f"https://thesaurus.example/id/{number}"
    query, extend = {"q0": {"query": TERM}}, {"ids": [str(number)], "properties": [{"id": "broader"}]}
    asked: list[dict[str, str]] = [
        {},
        {"q": TERM, "query": TERM, "prefix": TERM.lower(), "lang": "en", "unique": "true", "label": TERM},
        {"uri": iri, "id": iri, "at": str(number), "letter": "z", "since": "2000", "in": "xx"},
        {"format": "csv", "letter": "z", "since": "2000"},
        {"form": "alphabetical", "queries": json.dumps(query), "since": "2000", "format": "nt"},
        {"extend": json.dumps(extend), "query": f"{TERM.lower()}*", "candidates": "1"},
        {"verb": "ListRecords", "metadataPrefix": "oai_dc"},
        {"verb": "GetRecord", "metadataPrefix": "rdf", "identifier": iri},
    ]
    for rule in site.app.url_map.iter_rules():
        if "GET" in (rule.methods or ()) and rule.endpoint != "static":
            path = path_of(rule)
            for its in dict.fromkeys((path, path.replace("/5", f"/{number}"), path.replace("/1", f"/{number}"))):
                yield from ((rule.endpoint, f"{its}?{urlencode(it)}") for it in asked)


def text_within(body: bytes) -> str:
    """The text of a file: of an archive that of its members, of a PDF that of its pages."""
    if body.startswith(b"PK"):
        with zipfile.ZipFile(io.BytesIO(body)) as archive:
            return " ".join(text_within(archive.read(name)) for name in archive.namelist())
    if body.startswith(b"%PDF"):
        words = ["pdftotext", "-", "-"]
        return subprocess.run(words, input=body, capture_output=True, check=True).stdout.decode("utf-8")
    return body.decode("utf-8", "replace")


def shown(client: Client, address: str) -> str:
    """What an address shows: with a redirection where it leads to."""
    answer = client.get(address)
    said = text_within(answer.data)
    assert answer.status_code < 500, (address, said)
    return f"{said} {answer.headers.get('Location', '')} {answer.headers.get('Link', '')}"


def named_in(said: str, address: str, number: int) -> list[str]:
    """What of the candidate is in what an address shows. (What was asked for is said again.)"""
    iri, its = f"https://thesaurus.example/id/{number}", ("alt", "xx", "scope", "hidden", "definition", "task")
    found = [f"{TERM}-1", "z-1", *(f"{TERM} {it}" for it in its)]
    found += [] if TERM in address else [TERM]
    # (an address with a number leads to its page, whether there is one or not)
    found += [] if str(number) in address else [f'{iri}"', f"{iri}>", f"/c/{number}", f"id:{number} "]
    return [it for it in found if it in said]


@pytest.mark.needs("pdftotext")
def test_no_public_address_shows_a_candidate(desk: Desk, users: Path, candidate: int) -> None:
    site = site_of(desk, users, is_public=True)
    assert "definition" in shown(site.client("rita"), f"/c/{candidate}")
    visitor, seen = site.client(), list(addresses(site, candidate))
    assert len(seen) > 400
    for _, address in seen:
        assert not named_in(shown(visitor, address), address, candidate), address


@pytest.mark.needs("pdftotext")
def test_no_interface_shows_a_candidate_to_a_user(desk: Desk, users: Path, candidate: int) -> None:
    site = site_of(desk, users)
    for endpoint, address in addresses(site, candidate):
        if endpoint.startswith("interfaces."):
            assert not named_in(shown(site.client("anna"), address), address, candidate), address


@pytest.mark.needs("pdftotext")
def test_no_public_address_shows_what_is_not_public_of_a_concept(desk: Desk, users: Path) -> None:
    """An editorial note, and a value of the office's own field: nowhere to a visitor, and in no interface to a user."""
    desk.values.write_field(Field("inner", "line", is_public=False, names={"en": "Inner"}, is_own=True))
    made = done(
        desk,
        new(TERM),
        set_request("$1", "editorialNote", "en", new=member_of(f"{TERM} editorial", f"{TERM} source")),
        set_request("$1", "inner", "", new=f"{TERM} inner"),
        set_request("$1", "definition", "en", new=f"{TERM} definition"),
        set_request(1, "changeNote", "en", new=f"{TERM} scheme"),
    ).made
    assert made is not None and make_release(desk, "anna", "2026.1", "2026-11-30", "").is_done
    hidden = [f"{TERM} {it}" for it in ("editorial", "source", "inner", "scheme")]
    site = site_of(desk, users, is_public=True)
    assert all(it in shown(site.client("rita"), f"/c/{made}") for it in hidden[:3])
    visitor, user, seen = site.client(), site.client("anna"), 0
    releases = [("releases", f"/releases/2026.1.{it}") for it in ("nt", "ttl", "rdf", "jsonld")]
    for endpoint, address in (*addresses(site, made), *releases):
        said = shown(visitor, address)
        said += shown(user, address) if endpoint.startswith("interfaces.") or endpoint == "releases" else ""
        assert not [it for it in hidden if it in said], address
        seen += f"{TERM} definition" in said
    assert seen > 10, "what is public is shown"


def test_a_concept_has_changed_once_it_is_approved(desk: Desk, users: Path, candidate: int) -> None:
    visitor = site_of(desk, users, is_public=True).client()
    before = visitor.get("/changed?since=2000").json or {}
    assert candidate not in [it["number"] for it in before["changed"]]
    done(desk, set_request(candidate, "task", "", old=f"{TERM} task"))
    assert not (visitor.get(f"/changed?after={before['next']}").json or {})["changed"], "a task is nobody else's"
    done(desk, status(desk, candidate, None))
    after = visitor.get(f"/changed?after={before['next']}").json or {}
    assert {candidate, number(desk, "Violins"), number(desk, "Drums")} <= {it["number"] for it in after["changed"]}


@pytest.mark.parametrize("point", ["before", "after", "finish"])
def test_killed(point: str, store: Path, program: str, open_desk: Callable[[Path], Desk]) -> None:
    plan = [set_request(4, "status", "", new="candidate"), label("addLabel", 4, "alt", "Fine ones")]
    run_killed(store, program, plan, point)
    desk = open_desk(store)
    is_done = point != "before"
    assert kept(desk)[0] == ([(4,)] if is_done else []) and desk.replica.hides is is_done
    assert kept(desk) == made_anew(desk)
    assert_as_filtered(desk)


def test_what_a_visitor_gets_in_its_place(desk: Desk, users: Path, candidate: int) -> None:
    visitor = site_of(desk, users, is_public=True).client()
    assert visitor.get(f"/c/{candidate}").status_code == 404
    assert visitor.get(f"/id/{candidate}", Accept="text/turtle").status_code == 404
    violins, bowed = number(desk, "Violins"), number(desk, "Bowed instruments")
    its = visitor.get(f"/id/{violins}?format=ttl").text
    assert f"skos:broader <https://thesaurus.example/id/{bowed}>" in its or f"id:{bowed}" in its
    assert "candidate" in text_of(site_of(desk, users).client("rita").get("/tree?at=%d" % violins))
    assert desk.public.tags.keys() == desk.replica.tags.keys() - {"xx"}
    assert view(desk, candidate).kind == "concept"


def test_what_a_tool_writes_beside_the_store(desk: Desk, users: Path, candidate: int, program: str) -> None:
    violins, bowed = number(desk, "Violins"), number(desk, "Bowed instruments")
    visitor = site_of(desk, users, is_public=True).client()
    public = set(visitor.get("/export.nt").text.splitlines())
    desk.stop()
    words: list[str | Path] = [
        "--db",
        desk.db,
        "--journal",
        desk.journal.path,
        "--types",
        "--format",
        "ntriples",
        "--program",
        program,
    ]
    ran = subprocess.run([ROOT / "tools/to-rdf", *words], capture_output=True, text=True, check=True)
    lines = set(ran.stdout.splitlines())
    assert TERM not in ran.stdout and f"/id/{candidate}>" not in ran.stdout
    base = "https://thesaurus.example/id/"
    assert f"<{base}{violins}> <{SKOS}broader> <{base}{bowed}> ." in lines
    assert {it for it in lines ^ public if "terms/creator" not in it} == set(), "it says what the desk's export says"


@pytest.mark.parametrize("tool", ["to-table", "to-print", "site", "to-marc"])
def test_what_other_tools_write_beside_the_store(
    tool: str, desk: Desk, candidate: int, tmp_path: Path, program: str
) -> None:
    violins, out = number(desk, "Violins"), tmp_path / "site"
    desk.stop()
    export = tmp_path / "export.nt"
    ran = subprocess.run([program, "--db", desk.db, "--existing", "export"], capture_output=True, check=True)
    export.write_bytes(ran.stdout)
    assert TERM.encode() in ran.stdout
    words: dict[str, list[str | Path]] = {
        "to-table": ["--columns", "number,pref@en,broader"],
        "to-print": ["--scheme", "1", "--lang", "en"],
        "site": [export, out, "--langs", "en"],
        "to-marc": ["--scheme", "1", "--lang", "en"],
    }
    asked: list[str | Path] = [ROOT / "tools" / tool, *words[tool], "--db", desk.db, "--journal", desk.journal.path]
    tried = subprocess.run(asked, capture_output=True, text=True, check=False)
    assert tried.returncode == 0, tried.stderr
    written = tried.stdout + "".join(it.read_text() for it in out.rglob("*") if it.is_file())
    assert "Violins" in written and TERM not in written and "exported" not in tried.stderr
    assert tool != "to-table" or f"{violins},Violins,Bowed instruments" in written
