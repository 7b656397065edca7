"""Definitions, notes and notations: set beside the store's changes, taken back with them, shown and found."""
from __future__ import annotations

import contextlib
import csv
import io
import json
import random
import sqlite3
import subprocess
import zipfile
from collections.abc import Callable, Iterator
from pathlib import Path
from typing import Any

import pytest
from asking import assert_as_store, done, label, link, new, number, undo, view
from clients import Client, Site, site_of, text_of
from rdflib import DCTERMS, RDF, SKOS, Graph, Literal, URIRef
from rdflib.term import Node
from reader import Reader
from test_arrays import array, collection, place
from test_bring_in import MANIFEST, perform, send
from test_killed import run_killed
from thesaurus_desk.importing.vocabularies import SkosOptions, perform_script, read_skos
from thesaurus_desk.journal.consistency import check, replayed_values
from thesaurus_desk.journal.schema import journal_of
from thesaurus_desk.journal.values import Request, Value, member_of, set_request
from thesaurus_desk.store.plan_execution import Desk
from thesaurus_tools.fields import Field

VIOLINS, VIOLAS, FIDDLES = 5, 6, 31
GLOSS = "A small bowed instrument,\nwith four strings."


def texts(desk: Desk, owner: int | None, field: str) -> list[str]:
    """The texts of a field of a resource, with their tags."""
    return [f"{it.text}@{it.tag}" for it in desk.values.held(owner or 0, field)]


def refused(desk: Desk, *requests: Request) -> str:
    """The name of what refuses a plan, which leaves nothing."""
    before, counts = list(desk.values.each()), desk.replica.counts()
    outcome = desk.perform("anna", "test", requests)
    assert (outcome.state, outcome.at) == ("refused", len(requests)) and outcome.answer is not None
    assert (list(desk.values.each()), desk.replica.counts()) == (before, counts)
    plan = desk.journal.plan(outcome.plan or 0)
    assert plan is not None and plan.state == "refused" and plan.steps[-1].answer == outcome.answer
    return str(outcome.answer["no"])


def test_values_are_added_changed_and_removed(desk: Desk) -> None:
    done(desk, set_request(VIOLINS, "definition", "en", new=GLOSS))
    done(desk, set_request(VIOLINS, "definition", "de", new=member_of("Streichinstrument", "Grove")))
    done(desk, set_request(VIOLINS, "definition", "en", old=GLOSS, new="A bowed instrument"))
    assert texts(desk, VIOLINS, "definition") == ["A bowed instrument@en", "Streichinstrument@de"]
    assert desk.values.held(VIOLINS, "definition")[1].source == "Grove"
    done(desk, set_request(VIOLINS, "definition", "en", old="A bowed instrument"))
    assert texts(desk, VIOLINS, "definition") == ["Streichinstrument@de"]
    assert_as_store(desk)


@pytest.mark.parametrize(
    ("requests", "name"),
    [
        ([set_request(VIOLINS, "colour", "", new="red")], "UnknownField"),
        ([set_request(999, "definition", "en", new="x")], "UnknownResource"),
        ([set_request(VIOLINS, "definition", "en", old="x", new="y")], "NoSuchValue"),
        ([set_request(VIOLINS, "definition", "", new="x")], "BadValue"),
        ([set_request(VIOLINS, "definition", "en", new="a\tb")], "BadValue"),
        ([set_request(VIOLINS, "definition", "en", new="x" * 20_001)], "BadValue"),
        ([set_request(VIOLINS, "notation", "", new=member_of("1", "Grove"))], "BadValue"),
        ([set_request(VIOLINS, "notation", "", new="1")] * 2, "ValueThere"),
        ([set_request(VIOLINS, "notation", "", new="1"), set_request(VIOLAS, "notation", "", new="1")], "ValueTaken"),
        (
            [
                {"do": "merge", "source": FIDDLES, "target": VIOLINS},
                set_request(FIDDLES, "definition", "en", new="x"),
            ],
            "NotLive",
        ),
    ],
)
def test_what_is_refused(desk: Desk, requests: list[Request], name: str) -> None:
    assert refused(desk, *requests) == name
    assert_as_store(desk)


def test_values_and_requests_are_one_plan(desk: Desk) -> None:
    made = done(
        desk, new("Nyckelharpas"), set_request("$1", "notation", "MIMO", new="$2"), label("addLabel", "$1", "alt", "x")
    )
    assert texts(desk, made.made, "notation") == ["$2@MIMO"], "a text isn't a reference"
    bowed = number(desk, "Bowed instruments")
    outcome = desk.perform(
        "anna", "x", [set_request(bowed, "notation", "", new="9"), link("link", "broader", bowed, VIOLINS)]
    )
    assert (outcome.state, outcome.at, outcome.answer) == ("refused", 2, {"no": "Cycle"})
    assert texts(desk, bowed, "notation") == [] and outcome.steps[0].state == "unsent"
    assert_as_store(desk)


def test_a_notation_is_free_where_a_concept_has_ended(desk: Desk) -> None:
    done(desk, set_request(FIDDLES, "notation", "", new="7"))
    done(desk, {"do": "merge", "source": FIDDLES, "target": VIOLINS}, set_request(VIOLINS, "notation", "", new="7"))
    assert (texts(desk, VIOLINS, "notation"), texts(desk, FIDDLES, "notation")) == (["7@"], ["7@"])


def test_they_are_there_after_a_start(desk: Desk, open_desk: Callable[[Path], Desk]) -> None:
    done(desk, set_request(VIOLINS, "definition", "en", new=GLOSS))
    desk.stop()
    again = open_desk(desk.db)
    assert texts(again, VIOLINS, "definition") == [f"{GLOSS}@en"] and again.found.changed == ()


@pytest.mark.parametrize(
    ("is_mixed", "point"), [(True, "before"), (True, "after"), (True, "finish"), (False, "finish")]
)
def test_killed(is_mixed: bool, point: str, store: Path, program: str, open_desk: Callable[[Path], Desk]) -> None:
    own = set_request(VIOLINS, "definition", "en", new=GLOSS)
    plan = [own, label("addLabel", VIOLINS, "alt", "Fine violins")] if is_mixed else [own]
    run_killed(store, program, plan, point)
    desk = open_desk(store)
    is_done = is_mixed and point != "before"
    (settled,) = desk.found.settled
    assert settled.state == ("done" if is_done else "lost")
    assert texts(desk, VIOLINS, "definition") == ([f"{GLOSS}@en"] if is_done else [])
    assert (("en", "Fine violins") in view(desk, VIOLINS).alt) is is_done


def test_a_restored_store_has_no_values_of_what_it_lacks(desk: Desk, open_desk: Callable[[Path], Desk]) -> None:
    before = desk.db.with_name("before.db")
    desk.stop()
    before.write_bytes(desk.db.read_bytes())
    again = open_desk(desk.db)
    made = done(again, new("Nyckelharpas"), set_request("$1", "definition", "en", new=GLOSS)).made
    again.stop()
    for it in desk.db.parent.glob("museum.db*"):
        it.unlink()
    desk.db.write_bytes(before.read_bytes())
    last = open_desk(desk.db)
    assert last.replica.kind(made or 0) is None and list(last.values.each()) == []
    assert last.history.recent(number=-(made or 0)), "the page of the number has it still"
    rebecs = done(last, new("Rebecs"))
    assert rebecs.made == made and texts(last, made, "definition") == []
    assert [it.id for it in last.history.recent(number=made)] == [rebecs.plan], "it has a history of its own"
    assert replayed_values(last.journal) == []


def test_a_number_that_something_else_has_taken_is_listed_for_the_head(
    site: Site, program: str, open_desk: Callable[[Path], Desk], store: Path
) -> None:
    """A store is restored, and another program gives the number to another concept before the desk starts."""
    before = store.with_name("before.db")
    site.desk.stop()
    before.write_bytes(store.read_bytes())
    again = open_desk(store)
    made = done(again, new("Nyckelharpas"), set_request("$1", "definition", "en", new=GLOSS)).made
    done(again, set_request(VIOLAS, "definition", "en", new="Kept"))
    again.stop()
    for it in store.parent.glob("museum.db*"):
        it.unlink()
    store.write_bytes(before.read_bytes())
    more = {"do": "addLabel", "owner": VIOLAS, "kind": "alt", "tag": "en", "text": "Big violins"}
    others = "".join(f"{json.dumps(it)}\n" for it in (new("Rebecs"), more))
    words = [program, "--db", str(store), "--existing", "script"]
    subprocess.run(words, input=others.encode(), check=True, capture_output=True)
    last = open_desk(store)
    assert last.replica.named("Rebecs")[0].number == made and texts(last, made, "definition") == [f"{GLOSS}@en"]
    assert last.history.taken_numbers() == {made: "Nyckelharpas"}
    client = site_of(last, site.entry.accounts.path).client("anna")
    page = client.get("/lists/taken-numbers").text
    assert "was: Nyckelharpas" in page and "Rebecs" in page and "Kept" not in page
    assert "/lists/taken-numbers" in client.get("/lists").text
    assert client.post(f"/c/{made}/values/taken", {"form": "taken", "do": "drop"}).status_code == 303
    assert texts(last, made, "definition") == [] and last.history.taken_numbers() == {}
    assert site_of(last, site.entry.accounts.path).client("ben").get("/lists/taken-numbers").status_code == 403


def test_what_ended_elsewhere_keeps_its_values_and_is_listed(
    site: Site, program: str, open_desk: Callable[[Path], Desk]
) -> None:
    done(
        site.desk, *(set_request(FIDDLES, name, tag, new="7") for name, tag in (("definition", "en"), ("notation", "")))
    )
    done(site.desk, set_request(VIOLAS, "definition", "en", new="Ended here"))
    site.desk.stop()
    merge = json.dumps({"do": "merge", "source": FIDDLES, "target": VIOLINS}).encode()
    words = [program, "--db", str(site.desk.db), "--existing", "script"]
    assert subprocess.run(words, input=merge + b"\n", capture_output=True, check=True).stdout.startswith(b'{"moved"')
    desk = open_desk(site.desk.db)
    done(desk, {"do": "merge", "source": VIOLAS, "target": VIOLINS})
    anna = site_of(desk, site.entry.accounts.path).client("anna")
    assert "/lists/ended-values" in anna.get("/lists").text
    page = anna.get("/lists/ended-values").text
    assert f'href="/c/{FIDDLES}"' in page and "Copy to Violins" in page and f'href="/c/{VIOLAS}"' not in page
    assert anna.post(f"/c/{FIDDLES}/values/copy", {"form": "copy"}).status_code == 303
    assert (texts(desk, VIOLINS, "definition"), texts(desk, VIOLINS, "notation")) == (["7@en"], ["7@"])
    assert texts(desk, FIDDLES, "notation") == ["7@"] and "Copy to" not in anna.get("/lists/ended-values").text
    assert anna.post(f"/c/{VIOLINS}/values/copy", {"form": "copy"}).status_code == 400


def test_what_is_not_public_has_no_date(site: Site) -> None:
    """But a line in the history, and in its CSV."""
    desk, anna = site.desk, site.client("anna")
    plan = done(desk, set_request(VIOLINS, "definition", "en", new=GLOSS)).plan
    modified = desk.history.dates(VIOLINS).modified
    assert modified and desk.history.changed_after((plan or 0) - 1) == [(VIOLINS, modified)]
    done(desk, set_request(VIOLINS, "editorialNote", "en", new="Zweifelhaft"))
    assert desk.history.dates(VIOLINS).modified == modified and desk.history.changed_after(plan or 0) == []
    rows = list(csv.DictReader(io.StringIO(anna.get(f"/changes.csv?concept={VIOLINS}").text)))
    asked = [json.loads(it["request"]) for it in rows[-2:]]
    assert [(it["field"], it["tag"], it["old"], it["new"]) for it in asked] == [
        ("definition", "en", None, GLOSS),
        ("editorialNote", "en", None, "Zweifelhaft"),
    ]


@pytest.mark.parametrize("form", ["ttl", "nt"])
def test_they_come_back_from_an_export(site: Site, form: str) -> None:
    """As after a journal was lost: only those that are lacking, for concepts that are there."""
    desk, anna = site.desk, site.client("anna")
    values = (
        *(("definition", "en", GLOSS), ("definition", "en", "Another | one"), ("notation", "MIMO", "321|322")),
        *(("notation", "", "V"), ("source", "", "https://grove.example/violin")),
    )
    requests = [set_request(VIOLINS, *key, new=text) for *key, text in values]
    done(desk, *requests)
    before, export = [it.text for it in desk.values.each()], anna.get(f"/export.{form}").data
    done(desk, *(set_request(VIOLINS, *key, old=text) for *key, text in values[1:]))
    assert send(anna, "/bring-in/skos", b"x y", f"museum.{form}", values="1").status_code == 409
    page = send(anna, "/bring-in/skos", export, f"museum.{form}", values="1")
    assert "1 row changes something." in said(page)
    assert "1 row was done." in said(perform(anna, page, "/bring-in/table/perform"))
    assert sorted(it.text for it in desk.values.each()) == sorted(before)
    assert desk.values.held(VIOLINS, "notation")[0].tag in ("", "MIMO")


def test_sources_and_places_come_back_from_an_export(site: Site) -> None:
    desk, anna = site.desk, site.client("anna")
    inner = done(desk, collection("by period"), link("link", "member", "$1", 10)).made
    outer = array(desk)
    assert inner is not None
    sourced = member_of(GLOSS, "New Grove, p. 7")
    done(desk, place(inner, "within", [outer]), set_request(VIOLINS, "definition", "en", new=sourced))
    before, export = list(desk.values.each()), anna.get("/export.ttl").data
    done(desk, *(set_request(it.owner, it.field, it.tag, old=it.member) for it in before if it.owner != VIOLINS))
    done(desk, set_request(VIOLINS, "definition", "en", old=sourced, new=GLOSS))
    page = send(anna, "/bring-in/skos", export, "museum.ttl", values="1")
    assert "3 rows change something." in said(page)
    assert "3 rows were done." in said(perform(anna, page, "/bring-in/table/perform"))
    after = list(desk.values.each())
    members = {10, VIOLINS, VIOLAS, *(it for one in before for it in one.numbers)}
    assert [it[:3] for it in map(plain, after) if it[1] != "order"] == [
        it[:3] for it in map(plain, before) if it[1] != "order"
    ]
    (order,) = (it for it in after if it.field == "order")
    (was,) = (it for it in before if it.field == "order")
    assert [it for it in order.numbers if it in was.numbers] == was.numbers and set(order.numbers) <= members | {inner}
    assert desk.values.held(VIOLINS, "definition")[0].source == "New Grove, p. 7"
    page = send(anna, "/bring-in/skos", export, "museum.ttl", values="1")
    assert "0 rows change something." in said(page), said(page)


def plain(it: Value) -> tuple[object, ...]:
    """A value by which values are compared."""
    return it.owner, it.field, it.text, it.source


# --- taking back ---


def take_back(desk: Desk, plan: int | None) -> list[str]:
    """Takes a plan back, and returns the remarks."""
    asked = desk.journal.plan(plan or 0)
    assert asked is not None
    back = desk.take_back(asked)
    if back.requests:
        assert undo(desk, "anna", back).is_done
    return [it.name for it in back.remarks]


def test_taking_back(desk: Desk) -> None:
    first = done(desk, set_request(VIOLINS, "definition", "en", new="A")).plan
    second = done(desk, set_request(VIOLINS, "definition", "en", old="A", new="B")).plan
    assert take_back(desk, first) == ["value changed"] and texts(desk, VIOLINS, "definition") == ["B@en"]
    assert take_back(desk, second) == [] and texts(desk, VIOLINS, "definition") == ["A@en"]
    assert take_back(desk, first) == [] and texts(desk, VIOLINS, "definition") == []


def test_taking_back_a_merge_gives_back_what_was_copied_and_what_moved(desk: Desk) -> None:
    done(desk, set_request(FIDDLES, "notation", "", new="7"), set_request(FIDDLES, "definition", "en", new=GLOSS))
    merged = done(
        desk,
        set_request(FIDDLES, "notation", "", old="7"),
        set_request(VIOLINS, "notation", "", new="7"),
        set_request(VIOLINS, "definition", "en", new=GLOSS),
        {"do": "merge", "source": FIDDLES, "target": VIOLINS},
    )
    assert "new number" in take_back(desk, merged.plan)
    back = number(desk, "Fiddles")
    assert (texts(desk, VIOLINS, "notation"), texts(desk, VIOLINS, "definition")) == ([], [])
    assert (texts(desk, back, "notation"), texts(desk, back, "definition")) == (["7@"], [f"{GLOSS}@en"])
    assert replayed_values(desk.journal) == [
        (it.owner, it.field, it.tag, it.text, it.source) for it in desk.values.each()
    ]


def generated(dice: random.Random, desk: Desk) -> Iterator[Request]:
    """Some requests at random: values come, change and go, and concepts are made and end."""
    owner, field = dice.choice([VIOLINS, VIOLAS, FIDDLES, *desk.replica.numbers("concept", None, True)]), dice.choice(
        ["definition", "notation"]
    )
    held = desk.values.held(owner, field)
    tag = "" if field == "notation" else dice.choice(["en", "de"])
    if held and dice.random() < 0.5:
        it = dice.choice(held)
        yield set_request(owner, field, it.tag, old=it.member, new=dice.choice([None, f"{dice.randrange(9)}"]))
    else:
        yield set_request(
            owner, field, tag, new=member_of(f"{dice.randrange(9)}", dice.choice(["", "Grove"]) if tag else "")
        )
    if dice.random() < 0.3:
        yield new(f"Concept {dice.random()}")
        yield set_request("$2", "definition", "en", new="new")
    if dice.random() < 0.1:
        yield {"do": "merge", "source": owner, "target": VIOLAS}


def test_the_table_is_what_the_journal_replays(desk: Desk) -> None:
    dice = random.Random(73)
    states = [desk.perform("anna", "test", list(generated(dice, desk))).state for _ in range(150)]
    assert states.count("done") > 60 and "refused" in states
    for plan in desk.history.recent(states=("done",), most=40)[::3]:
        take_back(desk, plan.id)
    assert replayed_values(desk.journal) == [
        (it.owner, it.field, it.tag, it.text, it.source) for it in desk.values.each()
    ]
    assert_as_store(desk)


def test_a_check_names_values_that_are_not_what_the_plans_set(desk: Desk) -> None:
    """Also if only their order differs, or one is there twice."""
    done(desk, *(set_request(VIOLINS, "definition", "en", new=it) for it in "ab"))
    done(desk, set_request(VIOLAS, "definition", "en", new="c"), set_request(FIDDLES, "definition", "en", new="d"))
    first, second = (it.id for it in desk.values.held(VIOLINS, "definition"))
    desk.stop()
    assert check(desk.db) == []
    wanted = [f"the values of resource {it} aren't those that the plans have set" for it in (VIOLINS, VIOLAS)]
    with contextlib.closing(sqlite3.connect(desk.journal.path)) as rows:
        rows.execute("UPDATE value SET id = 1000 WHERE id = ?", (first,))
        rows.execute("INSERT INTO value SELECT NULL, owner, field, tag, text, source, plan FROM value WHERE text = 'c'")
        rows.commit()
        assert check(desk.db) == wanted
        rows.execute("DELETE FROM value WHERE id = ?", (second,))
        rows.commit()
    assert check(desk.db) == wanted


# --- pages ---


def open_form(reader: Reader, number: int, field: str) -> Any:
    """The form that adds a value, which a link opens."""
    return reader.get(f"/c/{number}?add={field}").form(f"add-{field}")


def test_a_definition_is_added_changed_and_removed_on_the_page(reader: Reader, desk: Desk) -> None:
    page = reader.send(
        open_form(reader, VIOLINS, "definition"), tag="EN", new="A bowed\r\ninstrument. ", source="Grove"
    )
    assert page.status == 200 and "A bowed\ninstrument." in page.html and "(Grove)" in page.text
    assert texts(desk, VIOLINS, "definition") == ["A bowed\ninstrument.@en"]
    form = reader.get(f"/c/{VIOLINS}?change=value-definition-1").form("value-definition-1")
    assert form.value("new") == "A bowed\ninstrument." and form.value("source") == "Grove"
    reader.send(form, new="A fiddle.")
    assert texts(desk, VIOLINS, "definition") == ["A fiddle.@en"]
    page = reader.send(reader.get(f"/c/{VIOLINS}").form("remove-value"))
    assert page.status == 200 and texts(desk, VIOLINS, "definition") == []
    assert "definition (en)" in reader.get(f"/c/{VIOLINS}").text, "the history names it"


def test_a_notation_of_another_concept_is_refused_at_its_field(reader: Reader) -> None:
    reader.send(open_form(reader, VIOLINS, "notation"), new="321.3")
    page = reader.send(open_form(reader, VIOLAS, "notation"), new="321.3")
    form = page.form("add-notation")
    assert page.status == 409 and "already has the notation" in form.text
    assert form.invalid == {"new"} and form.value("new") == "321.3"


def test_who_saw_another_value_is_shown_both(reader: Reader, desk: Desk) -> None:
    done(desk, set_request(VIOLINS, "definition", "en", new="Old."))
    form = reader.get(f"/c/{VIOLINS}?change=value-definition-1").form("value-definition-1")
    done(desk, set_request(VIOLINS, "example", "en", new="Another field disturbs nobody."))
    done(desk, set_request(VIOLINS, "definition", "en", old="Old.", new="Theirs."))
    page = reader.send(form, new="Mine.")
    assert page.status == 409 and all(it in page.text for it in ("Old.", "Theirs.", "Mine."))
    assert texts(desk, VIOLINS, "definition") == ["Theirs.@en"]


def test_a_new_concept_has_them(reader: Reader, desk: Desk) -> None:
    form = reader.get("/new").form("new")
    page = reader.send(form, text="Nyckelharpas", tag="sv", definition=GLOSS, notation="321.322")
    assert page.status == 200 and "321.322" in page.text
    made = number(desk, "Nyckelharpas")
    assert texts(desk, made, "definition") == [f"{GLOSS}@sv"] and texts(desk, made, "notation") == ["321.322@"]


def test_a_merge_shows_what_becomes_of_them(reader: Reader, desk: Desk) -> None:
    done(desk, set_request(FIDDLES, "notation", "", new="7"), set_request(FIDDLES, "definition", "en", new=GLOSS))
    done(desk, set_request(VIOLINS, "definition", "en", new="A bowed instrument."))
    page = reader.get(f"/c/{FIDDLES}/merge?other_number={VIOLINS}")
    assert "no two concepts in use have the same one" in page.text and "beside the one that Violins has" in page.text
    ids = [str(it.id) for it in desk.values.select("owner = ?", FIDDLES)]
    assert reader.send(page.form("merge"), sure="1", value=ids).status == 200
    assert texts(desk, VIOLINS, "notation") == ["7@"] and texts(desk, FIDDLES, "notation") == []
    assert texts(desk, VIOLINS, "definition") == ["A bowed instrument.@en", f"{GLOSS}@en"]


def test_a_conflict_over_a_value_asks_with_what_is_there_now(reader: Reader, desk: Desk) -> None:
    """Both texts are shown, and the form again: what its author saw is there no more."""
    done(desk, *(set_request(VIOLINS, "definition", "en", new=it) for it in (GLOSS, "Second")))
    name = "value-definition-1"
    mine = reader.get(f"/c/{VIOLINS}?change={name}").form(name)
    gone = reader.get(f"/c/{VIOLINS}").form("remove-value")
    assert desk.perform("ben", "value", [set_request(VIOLINS, "definition", "en", old=GLOSS, new="By Ben")]).is_done
    page = reader.send(mine, new="By Anna,\r\nat last", source="Grove")
    assert page.status == 409 and "By Ben" in page.text and "By Anna" in page.text
    form = page.form(name)
    assert [form.value(it).strip() for it in ("old", "new")] == ["By Ben", "By Anna,\r\nat last"]
    assert reader.send(form, new="By both").status == 200
    assert texts(desk, VIOLINS, "definition") == ["By both@en", "Second@en"]
    assert desk.values.held(VIOLINS, "definition")[0].source == "Grove"
    page = reader.send(gone)
    assert page.status == 409 and page.form("remove-value").value("old").strip() == "By both"
    assert reader.send(page.form("remove-value")).status == 200
    assert texts(desk, VIOLINS, "definition") == ["Second@en"]


def test_a_value_that_somebody_removed_is_added_again(reader: Reader, desk: Desk) -> None:
    done(desk, set_request(VIOLINS, "definition", "en", new=GLOSS))
    name = "value-definition-1"
    mine = reader.get(f"/c/{VIOLINS}?change={name}").form(name)
    removed = [set_request(VIOLINS, "definition", "en", old=GLOSS), set_request(VIOLINS, "definition", "de", new="Neu")]
    assert desk.perform("ben", "value", removed[:1]).is_done
    page = reader.send(mine, new="By Anna")
    assert page.status == 409 and page.form(name).value("old").strip() == ""
    assert reader.send(page.form(name)).status == 200 and texts(desk, VIOLINS, "definition") == ["By Anna@en"]
    mine = reader.get(f"/c/{VIOLINS}?change={name}").form(name)
    moved = [set_request(VIOLINS, "definition", "en", old="By Anna"), removed[1]]
    assert desk.perform("ben", "value", moved).is_done
    page = reader.send(mine, new="By Anna again")
    assert [page.form(name).value(it).strip() for it in ("old_tag", "old")] == ["de", "Neu"]
    assert reader.send(page.form(name)).status == 200
    assert texts(desk, VIOLINS, "definition") == ["By Anna again@en"]


def test_the_list_of_concepts_without_a_definition(reader: Reader, desk: Desk) -> None:
    done(desk, set_request(VIOLINS, "definition", "en", new=GLOSS))
    links = reader.get("/lists").links()
    names = ("definition", "notation", "example", "historyNote", "source")
    assert {f"/lists/field/{it}" for it in names} <= set(links) and "/lists/field/title" not in links
    assert f"/c/{VIOLINS}" in reader.get("/lists/field/source").links()
    page = reader.get("/lists/field/definition")
    assert f"/c/{VIOLAS}" in page.links() and f"/c/{VIOLINS}" not in page.links()
    assert f"/c/{VIOLINS}" in reader.get("/lists/field/definition?have=yes").links()


# --- SKOS ---

SKOS_FILE = """@prefix skos: <http://www.w3.org/2004/02/skos/core#> .
@prefix dct: <http://purl.org/dc/terms/> .
@prefix rdf: <http://www.w3.org/1999/02/22-rdf-syntax-ns#> .
@prefix owl: <http://www.w3.org/2002/07/owl#> .
@prefix : <https://old.example/> .
:s a skos:ConceptScheme ; skos:prefLabel "Old thesaurus"@en ; skos:notation "OLD" .
:lutes a skos:Concept ; skos:inScheme :s ; skos:prefLabel "Lutes"@en ; skos:topConceptOf :s ;
  skos:definition "A plucked instrument,\\nwith a vaulted body."@en, "Zupfinstrument"@de ;
  skos:example "The Dieffopruchar lute"@en ; skos:historyNote "Before 1990: Lute"@en ;
  skos:editorialNote "To be checked"@en ; skos:changeNote "Moved in 2001"@en ;
  skos:notation "321.321", "L1"^^<https://codes.example/mimo> ; dct:source "New Grove", <https://grove.example/lute> .
:theorbos a skos:Concept ; skos:inScheme :s ; skos:prefLabel "Theorbos"@en ; skos:broader :lutes ;
  skos:definition [ rdf:value "A long lute"@en ; dct:source "Spencer 1976" ] ; skos:notation "321.322" .
:gone a skos:Concept ; skos:inScheme :s ; skos:prefLabel "Chitarrones"@en ; owl:deprecated true ;
  dct:isReplacedBy :theorbos ; skos:definition "Another name"@en ; skos:notation "321.322" .
"""


def test_skos_comes_in_and_goes_out_with_all_of_them(site: Site) -> None:
    desk, anna = site.desk, site.client("anna")
    run = read_skos(desk, "old.ttl", SKOS_FILE.encode(), SkosOptions("en"))
    assert (run.report, run.refused) == ([], [])
    assert perform_script(desk, "anna", run).is_done
    theorbos, dead = number(desk, "Theorbos"), desk.replica.named("Chitarrones")[0].number
    assert desk.values.held(theorbos, "definition")[0].source == "Spencer 1976"
    assert texts(desk, dead, "definition") == ["Another name@en"] and texts(desk, theorbos, "notation") == ["321.322@"]
    graph = Graph().parse(data=anna.get(f"/export.ttl?scheme={run.scheme}").text, format="turtle")
    wanted = Graph().parse(data=SKOS_FILE, format="turtle")
    (lutes,) = graph.subjects(SKOS.prefLabel, Literal("Lutes", "en"))
    for name in ("definition", "example", "historyNote", "notation"):
        assert {*graph.objects(lutes, SKOS[name])} == {*wanted.objects(URIRef("https://old.example/lutes"), SKOS[name])}
    assert len({*graph.objects(lutes, DCTERMS.source)}) == 2
    assert not {
        *graph.subject_objects(SKOS.editorialNote),
        *graph.subject_objects(SKOS.changeNote),
    }, "they aren't public"


OFFICES = """@prefix skos: <http://www.w3.org/2004/02/skos/core#> .
@prefix dct: <http://purl.org/dc/terms/> .
@prefix rdf: <http://www.w3.org/1999/02/22-rdf-syntax-ns#> .
@prefix xsd: <http://www.w3.org/2001/XMLSchema#> .
@prefix m: <https://museum.example/terms#> .
@prefix : <https://old.example/> .
:s a skos:ConceptScheme ; skos:prefLabel "Old thesaurus"@en ; dct:created "1990"^^xsd:gYear .
:lutes a skos:Concept ; skos:inScheme :s ; skos:prefLabel "Theorbos"@en ; skos:note "See also guitars"@en ;
  dct:created "2001-05-03"^^xsd:date ; dct:modified "2019-02-01T10:00:00Z"^^xsd:dateTime ;
  m:repertoire "folk", "court" ; m:tuned "In fourths"@en ; m:maker <https://makers.example/1> ; m:strings 13.0 ;
  skos:definition "A plucked instrument"@en .
:d a rdf:Statement ; rdf:subject :lutes ; rdf:predicate skos:definition ; rdf:object "A plucked instrument"@en ;
  dct:source "Spencer 1976" .
:rebecs a skos:Concept ; skos:inScheme :s ; skos:prefLabel "Rebecs"@en ; dct:created "yesterday" ; m:maker "nobody" .
"""


def test_dates_general_notes_sources_and_the_offices_fields_come_in_and_go_out(site: Site, tmp_path: Path) -> None:
    desk, anna = site.desk, site.client("anna")
    kinds = {"repertoire": "line", "tuned": "text", "maker": "link", "strings": "number"}
    for name, kind in kinds.items():
        tag = "language" if kind == "text" else ""
        its = Field(name, kind, tag=tag, property=f"https://museum.example/terms#{name}", is_own=True)
        desk.values.write_field(its)
    run = read_skos(desk, "old.ttl", OFFICES.encode(), SkosOptions("en"))
    lost = [(term, it.resource, it.what) for it, term in run.report]
    wrong = ("http://purl.org/dc/terms/created 'yesterday'", "https://museum.example/terms#maker 'nobody'")
    assert lost == [("Rebecs", "https://old.example/rebecs", it) for it in wrong], lost
    assert perform_script(desk, "anna", run).is_done
    lutes = number(desk, "Theorbos")
    path = f"/export.ttl?scheme={run.scheme}"
    graph = Graph().parse(data=anna.get(path).text, format="turtle")
    wanted = Graph().parse(data=OFFICES, format="turtle")
    mine, theirs = URIRef(f"https://thesaurus.example/id/{lutes}"), URIRef("https://old.example/lutes")
    of_vocabulary = {SKOS.inScheme, SKOS.topConceptOf}

    def said(graph: Graph, subject: URIRef) -> set[tuple[URIRef, Node]]:
        return {(name, it) for name, it in graph.predicate_objects(subject) if name not in of_vocabulary}

    def sources(graph: Graph, subject: URIRef) -> set[tuple[Node, ...]]:
        about = (RDF.predicate, RDF.object, DCTERMS.source)
        return {tuple(graph.value(it, name) for name in about) for it in graph.subjects(RDF.subject, subject)}

    assert said(graph, mine) == said(wanted, theirs) and sources(graph, mine) == sources(wanted, theirs) != set()
    made = tmp_path / "again.ttl"
    made.write_text(anna.get(path).text, encoding="utf-8")
    again = read_skos(desk, "again.ttl", made.read_bytes(), SkosOptions("en"))
    (new,) = [it["new"] for it in again.requests if it["do"] == "set" and it["field"] == "definition"]
    assert new == {"text": "A plucked instrument", "source": "Spencer 1976"}
    assert again.report == []
    done(desk, label("addLabel", lutes, "alt", "Lute", "en"))
    changed = Graph().parse(data=anna.get(path).text, format="turtle")
    assert changed.value(mine, DCTERMS.created) == graph.value(mine, DCTERMS.created)
    assert changed.value(mine, DCTERMS.modified) > graph.value(mine, DCTERMS.modified)


def test_a_notation_that_two_have_is_reported(desk: Desk) -> None:
    double = SKOS_FILE.replace('"321.322" .\n:gone', '"321.321" .\n:gone')
    run = read_skos(desk, "old.ttl", double.encode(), SkosOptions("en"))
    assert [it.rule for it, _ in run.report] == ["ValueTaken"]
    assert perform_script(desk, "anna", run).is_done


# --- search ---


def test_words_of_definitions_and_notations_are_found(reader: Reader, desk: Desk) -> None:
    done(desk, set_request(VIOLINS, "definition", "en", new="Ein Körper aus Fichtenholz"))
    done(
        desk,
        set_request(VIOLAS, "notation", "", new="321.322-71"),
        set_request(FIDDLES, "notation", "", new="321.322-72"),
    )
    page = reader.get("/search?q=FICHTEN+korper")
    assert page.status == 200 and f"/c/{VIOLINS}" in page.links() and "Fichtenholz" in page.text
    page = reader.get("/search?q=321.322")
    assert {f"/c/{VIOLAS}", f"/c/{FIDDLES}"} <= set(page.links())
    assert reader.get("/search?q=321.322-71").path == f"/c/{VIOLAS}"
    done(desk, set_request(VIOLINS, "definition", "en", old="Ein Körper aus Fichtenholz", new="x"))
    assert "Fichtenholz" not in reader.get("/search?q=fichtenholz").text


def test_what_is_within_words_of_definitions_is_found(
    desk: Desk, reader: Reader, tmp_path: Path, open_desk: Callable[[Path], Desk]
) -> None:
    """Also by a desk that has the journal of a backup, which lacks the index."""
    done(desk, set_request(VIOLINS, "definition", "en", new="Ein Körper aus Fichtenholz"))
    done(
        desk, set_request(VIOLAS, "definition", "en", new="Holz, und Körper"), label("addLabel", 4, "alt", "Holzkiste")
    )
    page = reader.get("/search?q=HOLZ+örpe")
    assert {f"/c/{VIOLINS}", f"/c/{VIOLAS}"} <= set(page.links()) and "Fichtenholz" in page.text
    assert [it.owner for it in desk.values.search("holz", ["definition"], 9)] == [VIOLAS, VIOLINS], "words come first"
    assert [it.owner for it in desk.values.search("ol", ["definition"], 9)] == [], "two letters are too common"
    done(desk, set_request(VIOLAS, "definition", "en", old="Holz, und Körper"))
    store = tmp_path / "again" / "museum.db"
    store.parent.mkdir()
    desk.copies.copy_to(store)
    desk.journal.copy_to(journal_of(store))
    with contextlib.closing(sqlite3.connect(journal_of(store))) as rows:
        assert not rows.execute("SELECT 1 FROM sqlite_schema WHERE name LIKE 'value_parts%'").fetchall()
    found = open_desk(store).values.search("chtenho", ["definition"], 9)
    assert [it.owner for it in found] == [VIOLINS]


def test_what_is_not_public_is_found_and_seen_by_users_alone(site: Site) -> None:
    done(site.desk, set_request(VIOLINS, "editorialNote", "en", new="Zweifelhaft"))
    visitor = site_of(site.desk, site.entry.accounts.path, is_public=True).client()
    for path in (f"/c/{VIOLINS}", "/search?q=zweifelhaft", f"/id/{VIOLINS}?format=ttl", "/export.nt"):
        assert "Zweifelhaft" not in visitor.get(path).text
    assert "Zweifelhaft" in site.client("rita").get(f"/c/{VIOLINS}").text


# --- the office's fields ---


def make_field(reader: Reader, **fields: str) -> Any:
    """Has the head make a field."""
    its = {
        "name": "repertoire",
        "name-en": "Repertoire",
        "kind": "choice",
        "choices": "folk\nart",
        "many": None,
        **fields,
    }
    return reader.send(reader.get("/fields").form("field"), **its)


def test_a_field_of_the_office(reader: Reader, desk: Desk) -> None:
    page = make_field(reader, property="https://museum.example/terms#repertoire", public="1")
    assert page.status == 200 and "Repertoire" in page.text
    page = reader.send(open_form(reader, VIOLINS, "repertoire"), new="folk")
    assert page.status == 200 and texts(desk, VIOLINS, "repertoire") == ["folk@"]
    assert refused(desk, set_request(VIOLINS, "repertoire", "", new="art")) == "OnlyOne"
    assert refused(desk, set_request(VIOLAS, "repertoire", "", new="jazz")) == "BadValue"
    for form in ("ttl", "rdf", "jsonld", "nt"):
        text = reader.get(f"/id/{VIOLINS}?format={form}").html
        assert "folk" in text and "https://museum.example/terms#" in text
        names = {"ttl": "turtle", "rdf": "xml", "jsonld": "json-ld", "nt": "nt"}
        graph = Graph().parse(data=text, format=names[form])
        assert {*graph.objects(None, URIRef("https://museum.example/terms#repertoire"))} == {Literal("folk")}
    reader.send(reader.get("/fields").form("", do="retire"))
    assert refused(desk, set_request(VIOLAS, "repertoire", "", new="art")) == "Retired"
    assert "folk" in reader.get(f"/c/{VIOLINS}").text


def test_a_head_changes_a_field_of_the_office(reader: Reader, desk: Desk) -> None:
    """Its names, choices, property and place; values of a choice that is there no more stay."""
    make_field(reader, property="https://museum.example/terms#repertoire", public="1")
    make_field(reader, name="tuning", kind="line", choices="", **{"name-en": "Tuning"})
    done(desk, set_request(VIOLINS, "repertoire", "", new="folk"))

    def own() -> list[str]:
        return [it.name for it in desk.values.fields().values() if it.is_own]

    assert own() == ["repertoire", "tuning"]
    reader.send(reader.get("/fields").form("", do="down"))
    assert own() == ["tuning", "repertoire"]
    page = reader.get("/fields?change=repertoire")
    form = page.form("change-field")
    assert (form.value("name-en"), form.value("choices").split()) == ("Repertoire", ["folk", "art"])
    wrong = reader.send(form, **{"name-en": "", "choices": "", "property": "http://purl.org/dc/terms/created"})
    assert wrong.status == 409 and desk.values.fields()["repertoire"].choices == ("folk", "art")
    assert wrong.form("change-field").invalid >= {"choices", "property"}
    changed = {
        "name-en": "Music",
        "name-de": "Musik",
        "choices": "court\nart",
        "property": "https://museum.example/m#x",
    }
    assert reader.send(wrong.form("change-field"), **changed).status == 200
    field = desk.values.fields()["repertoire"]
    assert (field.choices, field.names, field.place) == (("court", "art"), {"en": "Music", "de": "Musik"}, 1)
    assert refused(desk, set_request(VIOLAS, "repertoire", "", new="folk")) == "BadValue"
    text = reader.get(f"/c/{VIOLINS}").text
    assert "Music folk" in " ".join(text.split())
    assert "https://museum.example/m#x" in reader.get(f"/id/{VIOLINS}?format=nt").html
    assert "Change: definition" not in page.text and reader.get("/fields?change=definition").status == 200


@pytest.mark.parametrize(
    ("fields", "wrong"),
    [
        ({"name": "Repertoire"}, "name"),
        ({"name": "definition"}, "name"),
        ({"name-en": ""}, "names"),
        ({"choices": " "}, "choices"),
        ({"property": "https://museum.example/terms#1"}, "property"),
        ({"property": "http://www.w3.org/2004/02/skos/core#notation"}, "property"),
    ],
)
def test_a_field_that_cant_be_so(reader: Reader, desk: Desk, fields: dict[str, str], wrong: str) -> None:
    page = make_field(reader, **fields)
    assert page.status == 409 and "repertoire" not in desk.values.fields()
    assert f'id="field-{wrong}-why"' in page.html


def test_the_head_chooses_who_sees_a_field(site: Site) -> None:
    done(site.desk, set_request(VIOLINS, "editorialNote", "en", new="Zweifelhaft"))
    visitor = site_of(site.desk, site.entry.accounts.path, is_public=True).client()
    assert "Zweifelhaft" not in visitor.get(f"/c/{VIOLINS}").text
    assert site.client("ben").post("/fields/editorialNote", {"do": "publish"}).status_code == 403
    assert site.client("anna").post("/fields/editorialNote", {"do": "publish"}).status_code == 303
    assert "Zweifelhaft" in visitor.get(f"/c/{VIOLINS}").text
    assert site.client("anna").post("/fields/editorialNote", {"do": "retire"}).status_code == 404


# --- tables ---


def table(client: Client, text: str, **values: str) -> Any:
    """Sends a table, and returns its preview."""
    return send(client, "/bring-in/table", text.encode(), kind="", tag="en", **values)


def said(page: Any) -> str:
    """The text of a page, with single spaces."""
    return " ".join(text_of(page).split())


def test_a_table_of_new_concepts_has_them(site: Site) -> None:
    anna = site.client("anna")
    page = table(
        anna,
        "Term;Definition;Définition (fr);Notation;Notation@MIMO\n"
        'Kotos;"A long\nzither.\n|\nA second one.";Une cithare.;K1 | K2;M1\nSazes;A lute.;;K1;\nOuds;A lute.;;O;\n',
    )
    text = said(page)
    assert "definition (en) A long zither. added" in text and "notation (MIMO) M1 added" in text
    assert "already has the notation" in text, "an earlier row has it"
    assert "2 rows were done." in said(perform(anna, page, "/bring-in/table/perform"))
    kotos = number(site.desk, "Kotos")
    assert texts(site.desk, kotos, "definition") == ["A long\nzither.@en", "A second one.@en", "Une cithare.@fr"]
    assert texts(site.desk, kotos, "notation") == ["K1@", "K2@", "M1@MIMO"]
    its = view(site.desk, kotos)
    assert not its.scope and not its.hidden, "neither a scope note nor a hidden label"
    assert texts(site.desk, number(site.desk, "Ouds"), "notation") == ["O@"]


ODS = """<office:document-content xmlns:office="urn:oasis:names:tc:opendocument:xmlns:office:1.0"
 xmlns:table="urn:oasis:names:tc:opendocument:xmlns:table:1.0"
 xmlns:text="urn:oasis:names:tc:opendocument:xmlns:text:1.0">
 <office:body><office:spreadsheet><table:table table:name="a">{}</table:table></office:spreadsheet></office:body>
</office:document-content>"""


@pytest.mark.needs("odf")
def test_line_breaks_of_a_spreadsheet(site: Site) -> None:
    """A definition keeps them; a term, which has none, gets spaces."""
    rows = [("Term", "Definition"), ("Thumb<br>pianos", "A box.<br>With tongues.")]
    cells = [["".join(f"<text:p>{it}</text:p>" for it in cell.split("<br>")) for cell in row] for row in rows]
    lines = ["".join(f"<table:table-cell>{it}</table:table-cell>" for it in row) for row in cells]
    out = io.BytesIO()
    with zipfile.ZipFile(out, "w") as parts:
        parts.writestr("META-INF/manifest.xml", MANIFEST)
        parts.writestr("content.xml", ODS.format("".join(f"<table:table-row>{it}</table:table-row>" for it in lines)))
    anna = site.client("anna")
    page = send(anna, "/bring-in/table", out.getvalue(), "a.ods", kind="new", tag="en")
    perform(anna, page, "/bring-in/table/perform")
    assert texts(site.desk, number(site.desk, "Thumb pianos"), "definition") == ["A box.\nWith tongues.@en"]


def test_a_table_of_changes_changes_them(site: Site) -> None:
    """A filled cell has all of its field and language; a notation says which concept is meant."""
    desk, anna = site.desk, site.client("anna")
    done(desk, set_request(VIOLINS, "definition", "en", new=member_of("Old.", "Grove")))
    done(desk, set_request(VIOLINS, "example", "en", new="One"), set_request(VIOLINS, "example", "en", new="Two"))
    done(desk, set_request(VIOLAS, "notation", "", new="V2"))
    page = table(
        anna,
        f'Number;Definition;Example;Notation\n{VIOLINS};New.;"Two\n|\nThree";V1\n{VIOLAS};;;V2\n',
    )
    assert "definition (en) changed from Old. to New." in said(page)
    assert "1 row was done." in said(perform(anna, page, "/bring-in/table/perform"))
    assert [it.member for it in desk.values.held(VIOLINS, "definition")] == [member_of("New.", "Grove")]
    assert texts(desk, VIOLINS, "example") == ["Three@en", "Two@en"]
    assert texts(desk, VIOLINS, "notation") == ["V1@"]
    page = table(anna, "Notation;Definition@de\nV2;Bratsche\nV9;Nichts\n")
    assert "called “V9”" in said(page)
    perform(anna, page, "/bring-in/table/perform")
    assert texts(desk, VIOLAS, "definition") == ["Bratsche@de"]
    assert take_back(desk, desk.journal.last_plan()) == [] and texts(desk, VIOLAS, "definition") == []
