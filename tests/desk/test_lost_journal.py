"""A journal that was lost: the office's own fields, and all values, come back from an export or a release."""
from __future__ import annotations

from collections.abc import Callable
from dataclasses import replace
from pathlib import Path

import pytest
from asking import done
from clients import Site, text_of
from reader import Form, PageReader
from test_bring_in import perform, send
from thesaurus_desk.journal.values import member_of, set_request
from thesaurus_desk.store.plan_execution import Desk
from thesaurus_desk.store.release_export import make_release
from thesaurus_tools.fields import Field

VIOLINS, VIOLAS = 5, 6
TERMS = "https://museum.example/terms#"
# The fields that the office has made, with values of violins and of violas.
MADE = {
    "repertoire": ("line", False, ("folk", "court")),
    "tuned": ("text", True, ("In fifths,\nfrom G", "In fifths, from C")),
    "maker": ("link", True, ("https://makers.example/1", "https://makers.example/2")),
    "strings": ("number", False, ("4", "4")),
    "since": ("date", False, ("1550", "1535-06")),
    "Size": ("choice", False, ("small", "large")),
}


def make_fields(desk: Desk) -> None:
    """Makes the fields, and sets their values and others."""
    for name, (kind, is_many, _) in MADE.items():
        tag, choices = "language" if kind == "text" else "", ("small", "large") if kind == "choice" else ()
        its = Field(name.lower(), kind, ("concept",), is_many, tag, choices, property=TERMS + name, is_own=True)
        desk.values.write_field(its)
    for name, (kind, _, texts) in MADE.items():
        for number, text in zip((VIOLINS, VIOLAS), texts):
            done(desk, set_request(number, name.lower(), "en" if kind == "text" else "", new=text))
    done(desk, set_request(VIOLINS, "maker", "", new="https://makers.example/3"))
    done(desk, set_request(VIOLINS, "definition", "en", new=member_of("A bowed instrument.", "Grove")))


def plain(desk: Desk) -> list[tuple[object, ...]]:
    """All values but releases, in an order of their own."""
    found = (it for it in desk.values.each() if it.field != "release")
    return sorted((it.owner, it.field, it.tag, it.text, it.source) for it in found)


def forms_of(page: str) -> list[Form]:
    """The forms of a page that make fields."""
    reader = PageReader()
    reader.feed(page)
    return [it for it in reader.forms if it.action == "/fields"]


@pytest.mark.parametrize("path", ["/export.ttl", "/releases/2026.1.nt", "/releases/2026.1.rdf"])
def test_fields_and_values_come_back(site: Site, open_desk: Callable[[Path], Desk], path: str) -> None:
    make_fields(site.desk)
    assert make_release(site.desk, "anna", "2026.1", "2026-11-30", "").is_done
    before, kept = plain(site.desk), site.client("anna").get(path).data
    site.desk.stop()
    for it in site.desk.db.parent.glob(f"{site.desk.db.stem}-desk.sqlite*"):
        it.unlink()
    lost = replace(site, desk=open_desk(site.desk.db))
    assert plain(lost.desk) == []
    anna, name = lost.client("anna"), f"museum{Path(path).suffix}"
    page = send(anna, "/bring-in/skos", kept, name, values="1")
    assert f"{len(MADE)} fields of the file are lacking here" in text_of(page)
    assert "Create repertoire" not in text_of(send(lost.client("ben"), "/bring-in/skos", kept, name, values="1"))
    for it in forms_of(page.text):
        assert anna.post("/fields", {name: it.values(name) for name, _ in it.fields}).status_code == 303, it
    made = {name: it for name, it in lost.desk.values.fields().items() if it.is_own}
    # (which choices there were isn't known any more)
    wanted = {name.lower(): ("line" if kind == "choice" else kind) for name, (kind, _, _) in MADE.items()}
    assert {name: it.kind for name, it in made.items()} == wanted and made["maker"].is_many
    assert not made["strings"].is_many and made["tuned"].tag == "language"
    page = send(anna, "/bring-in/skos", kept, name, values="1")
    assert "lacking here" not in text_of(page)
    perform(anna, page, "/bring-in/table/perform")
    assert plain(lost.desk) == before
