"""Tests proposals and comments: a reader proposes, an editor decides, and both names are kept."""
from __future__ import annotations

import re
import sqlite3
import time
from collections.abc import Callable
from concurrent.futures import ThreadPoolExecutor
from pathlib import Path
from typing import Any

import pytest
from clients import Client, Site, hold_up_once, site_of, text_of
from reader import read_page
from test_changes import number, perform
from thesaurus_desk.store.plan_execution import Desk, Outcome
from thesaurus_tools.fields import TERM_SOURCE
from thesaurus_tools.values import set_request


@pytest.fixture
def rita(site: Site) -> Client:
    """A reader."""
    return site.client("rita")


def propose(client: Client, **values: str) -> int:
    """Proposes something, and returns the number of the proposal."""
    answer = client.post("/propose", {"form": "propose", "reason": "Visitors say so.", "tag": "en", **values})
    assert answer.status_code == 303, text_of(answer)
    found = re.search(r"/proposals/([0-9]+)", answer.headers["Location"])
    assert found
    return int(found[1])


def test_the_form_has_the_focus(site: Site, rita: Client) -> None:
    violins = number(site, "Violins")
    first = rita.get(f"/propose?concept={violins}").text
    assert re.findall("<[^>]* autofocus[^>]*>", first) == re.findall('<select id="propose-kind"[^>]*>', first) != []
    refused = rita.post("/propose", {"form": "propose", "concept": str(violins), "kind": "alt", "text": "Folk violins"})
    assert re.findall("<[^>]* autofocus[^>]*>", refused.text) == re.findall(
        '<textarea id="propose-reason"[^>]*>', refused.text
    )


def test_an_accepted_term_is_there_under_both_names(site: Site, rita: Client) -> None:
    violins = number(site, "Violins")
    made = propose(rita, concept=str(violins), kind="alt", text="Folk violins")
    ben = site.client("ben")
    assert "Folk violins" in text_of(ben.get("/proposals")) and "Visitors say so." in text_of(ben.get("/proposals"))
    assert rita.post(f"/proposals/{made}/accept", {"form": "accept"}).status_code == 403
    assert ben.post(f"/proposals/{made}/accept", {"form": "accept", "word": "Thanks"}).status_code == 303
    view = site.desk.replica.view(violins)
    assert view and ("en", "Folk violins") in view.alt
    page = text_of(ben.get("/changes"))
    assert "proposed by rita" in page and "ben" in page
    assert "Thanks" in text_of(rita.get(f"/proposals/{made}"))
    assert "Folk violins" in text_of(ben.get("/proposals?state=accepted"))


def sources(site: Site, owner: int) -> dict[str, str]:
    """The sources of the terms of a resource."""
    return {it.text: it.source for it in site.desk.values.held(owner, TERM_SOURCE)}


@pytest.mark.parametrize("typed", ["", "Village violins"])
def test_a_term_is_proposed_with_its_source(site: Site, rita: Client, typed: str) -> None:
    """An editor may accept it with another text: the source is of that."""
    violins = number(site, "Violins")
    made = propose(rita, concept=str(violins), kind="alt", text="Folk violins", source=" New  Grove ")
    ben = site.client("ben")
    page = text_of(ben.get(f"/proposals/{made}"))
    assert "Folk violins" in page and "New Grove" in page
    assert ben.post(f"/proposals/{made}/accept", {"form": "accept", "text": typed}).status_code == 303
    assert sources(site, violins) == {typed or "Folk violins": "New Grove"}
    assert "New Grove" in text_of(rita.get(f"/proposals/{made}"))


def test_a_new_concept_is_proposed_with_the_source_of_its_term(site: Site, rita: Client) -> None:
    below = number(site, "Violins")
    made = propose(rita, concept=str(below), kind="concept", text="Kit violins", source="Baines")
    assert site.client("ben").post(f"/proposals/{made}/accept", {"form": "accept"}).status_code == 303
    assert sources(site, number(site, "Kit violins")) == {"Kit violins": "Baines"}
    alone = propose(rita, kind="concept", scheme="1", text="Theorbos", source="Spencer 1976")
    site.client("ben").post(f"/proposals/{alone}/accept", {"form": "accept"})
    assert sources(site, number(site, "Theorbos")) == {"Theorbos": "Spencer 1976"}


def test_a_preferred_term_keeps_the_old_one(site: Site, rita: Client) -> None:
    violins = number(site, "Violins")
    made = propose(rita, concept=str(violins), kind="pref", text="Violins and others")
    site.client("anna").post(f"/proposals/{made}/accept", {"form": "accept"})
    view = site.desk.replica.view(violins)
    assert view and ("en", "Violins and others") in view.pref and ("en", "Violins") in view.alt
    page = re.sub(r"<[^>]*>", "", rita.get(f"/proposals/{made}").text)
    assert "“Violins” (en) renamed to “Violins and others” (en)" in page


def test_a_new_concept_below(site: Site, rita: Client) -> None:
    violins = number(site, "Violins")
    made = propose(rita, concept=str(violins), kind="concept", text="Baroque violins")
    site.client("anna").post(f"/proposals/{made}/accept", {"form": "accept"})
    view = site.desk.replica.view(number(site, "Baroque violins"))
    assert view and view.broader == (violins,)


def test_a_new_top_concept_and_a_link(site: Site, rita: Client) -> None:
    made = propose(rita, kind="concept", text="Lyres", scheme="1")
    assert site.client("anna").post(f"/proposals/{made}/accept", {"form": "accept"}).status_code == 303
    lyres, harps = number(site, "Lyres"), number(site, "Harps")
    made = propose(rita, concept=str(lyres), kind="related", other="Harps", other_number=str(harps))
    assert site.client("anna").post(f"/proposals/{made}/accept", {"form": "accept"}).status_code == 303
    view = site.desk.replica.view(lyres)
    assert view and view.is_top and view.related == (harps,)


def test_declined_with_a_word(site: Site, rita: Client) -> None:
    made = propose(rita, concept=str(number(site, "Harps")), kind="words", text="")
    ben = site.client("ben")
    assert ben.post(f"/proposals/{made}/decline", {"form": "decline", "word": " "}).status_code == 409
    assert ben.post(f"/proposals/{made}/decline", {"form": "decline", "word": "We have it."}).status_code == 303
    assert "We have it." in text_of(rita.get(f"/proposals/{made}"))
    assert ben.post(f"/proposals/{made}/accept", {"form": "accept"}).status_code == 303
    assert "declined" in text_of(rita.get(f"/proposals/{made}"))


def test_an_editor_changes_the_text(site: Site, rita: Client) -> None:
    """The concept gets it as it was accepted, and the proposal still says what was proposed."""
    violins = number(site, "Violins")
    made = propose(rita, concept=str(violins), kind="alt", text="Volk violins")
    ben = site.client("ben")
    assert 'name="text" value="Volk violins"' in ben.get(f"/proposals/{made}").text
    sent = {"form": "accept", "text": " Folk  violins "}
    assert ben.post(f"/proposals/{made}/accept", sent).status_code == 303
    view = site.desk.replica.view(violins)
    assert view and ("en", "Folk violins") in view.alt and ("en", "Volk violins") not in view.alt
    page = text_of(rita.get(f"/proposals/{made}"))
    assert "Folk violins" in page and "The proposal was “Volk violins”." in page
    below = propose(rita, concept=str(violins), kind="concept", text="Hardanger fiddle")
    ben.post(f"/proposals/{below}/accept", {"form": "accept", "text": "Hardanger fiddles"})
    made_one = site.desk.replica.view(number(site, "Hardanger fiddles"))
    assert made_one and made_one.broader == (violins,)


def test_a_definition_is_proposed_and_accepted_with_changes(site: Site, rita: Client) -> None:
    """With its line breaks and its source; another one in its place, too."""
    violins, ben = number(site, "Violins"), site.client("ben")
    assert f"/propose?concept={violins}&amp;kind=value-definition" in rita.get(f"/c/{violins}").text
    sent = {"concept": str(violins), "kind": "value-definition", "source": "Grove"}
    made = propose(rita, **sent, text="A bowed\r\ninstrumnt. ")
    page = ben.get(f"/proposals/{made}").text
    assert '<p class="note lines" dir="auto">A bowed\ninstrumnt.</p>' in page
    ben.post(f"/proposals/{made}/accept", {"form": "accept", "text": "A bowed\r\ninstrument."})
    (value,) = site.desk.values.held(violins, "definition")
    assert (value.tag, value.text, value.source) == ("en", "A bowed\ninstrument.", "Grove")
    assert "proposed by rita" in text_of(ben.get("/changes"))
    again = f"/propose?concept={violins}&amp;kind=value-definition&amp;value={value.id}"
    assert again in rita.get(f"/c/{violins}").text
    form = rita.get(again.replace("&amp;", "&")).text
    assert ">A bowed\ninstrument.</textarea>" in form and 'value="Grove"' in form
    made = propose(rita, **sent, text="Smallest of its family.", value=str(value.id))
    assert "changed from" in text_of(ben.get(f"/proposals/{made}"))
    ben.post(f"/proposals/{made}/accept", {"form": "accept"})
    assert [it.text for it in site.desk.values.held(violins, "definition")] == ["Smallest of its family."]


def test_what_would_be_refused_of_a_value(site: Site, rita: Client) -> None:
    violins, violas = number(site, "Violins"), number(site, "Violas")
    assert site.desk.perform("anna", "x", [set_request(violas, "notation", "", new="321")]).is_done
    about = {"form": "propose", "reason": "So it is.", "concept": str(violins), "tag": "en"}
    for more, said in (
        ({"kind": "value-notation", "text": "321"}, "already has the notation"),
        ({"kind": "value-definition", "text": " "}, "Write what you propose."),
        ({"kind": "value-definition", "text": "x", "value": "999"}, "has been changed meanwhile"),
        ({"kind": "scope", "text": "x", "source": "Grove"}, "has no source of its own"),
        ({"kind": "alt", "text": "x", "source": "g" * 1001}, "can’t be a value of"),
    ):
        answer = rita.post("/propose", {**about, **more})
        assert answer.status_code == 409 and said in " ".join(text_of(answer).split()), more
    assert rita.post("/propose", {**about, "kind": "value-colour", "text": "x"}).status_code == 400


def test_a_decision_has_the_name_of_who_decided(site: Site, rita: Client) -> None:
    """In the list, too, where its author looks."""
    made = propose(rita, concept=str(number(site, "Harps")), kind="words")
    site.client("ben").post(f"/proposals/{made}/decline", {"form": "decline", "word": "We have it."})
    for path in (f"/proposals/{made}", "/proposals?state=declined"):
        page = " ".join(text_of(rita.get(path)).split())
        assert re.search(r"declined [-0-9: ]+ UTC\S* ben: We have it\.", page), path
    assert re.search(r"rita</span></p>", rita.get(f"/proposals/{made}").text), "she hasn't declined it"


def navigation(client: Client) -> str:
    """Returns the text of the navigation."""
    found = re.search('<nav class="pages".*?</nav>', client.get("/").text, re.S)
    assert found
    return " ".join(re.sub("<[^>]*>", " ", found[0]).split())


DECIDED = "Decided since you last looked"


def test_an_author_reads_what_was_decided(site: Site, rita: Client) -> None:
    """The navigation counts it until its author has read it: who decided it, when and why."""
    ben, harps = site.client("ben"), str(number(site, "Harps"))
    term, words = propose(rita, concept=harps, kind="alt", text="Lyres"), propose(rita, concept=harps, kind="words")
    propose(rita, kind="words", reason="Still open.")
    own = propose(ben, kind="words", reason="Ben asks himself.")
    assert "decided" not in navigation(rita)
    ben.post(f"/proposals/{term}/accept", {"form": "accept", "word": "Thanks."})
    ben.post(f"/proposals/{words}/decline", {"form": "decline", "word": "We have it."})
    ben.post(f"/proposals/{own}/accept", {"form": "accept"})
    rita.ask("HEAD", "/proposals", None, {})
    assert "Proposals 2 decided" in navigation(rita) and "decided" not in navigation(ben)
    assert DECIDED not in ben.get("/proposals").text
    page = " ".join(text_of(rita.get("/proposals")).split()).partition(DECIDED)[2]
    assert re.search(
        r"declined [-0-9: ]+UTC\S* ben: We have it\..* accepted [-0-9: ]+UTC\S* ben: Thanks\..* withdrawn", page
    )
    assert "decided" not in navigation(rita) and DECIDED not in rita.get("/proposals").text


def test_an_author_reads_one_decision(site: Site, rita: Client) -> None:
    """On the page of its proposal; a withdrawn one is nothing to read."""
    one, other, withdrawn = (propose(rita, kind="words") for _ in range(3))
    for it in (one, other):
        site.client("ben").post(f"/proposals/{it}/decline", {"form": "decline", "word": "No."})
    rita.post(f"/proposals/{withdrawn}/withdraw")
    site.client("anna").get(f"/proposals/{one}")
    assert "2 decided" in navigation(rita)
    rita.get(f"/proposals/{one}")
    assert "1 decided" in navigation(rita)


def test_ones_own_proposals(site: Site, rita: Client) -> None:
    propose(rita, kind="words", reason="Open yet.")
    made = propose(rita, kind="words", reason="No more open.")
    propose(site.client("ben"), kind="words", reason="Of another one.")
    site.client("ben").post(f"/proposals/{made}/decline", {"form": "decline", "word": "No."})
    rita.get("/proposals")
    page = text_of(rita.get("/proposals?state=own"))
    assert "Open yet." in page and "No more open." in page and "Of another one." not in page


def test_a_decision_is_read_on_a_full_disk(site: Site, rita: Client, monkeypatch: pytest.MonkeyPatch) -> None:
    made = propose(rita, kind="words")
    site.client("ben").post(f"/proposals/{made}/decline", {"form": "decline", "word": "No."})

    def full() -> None:
        raise sqlite3.OperationalError("database or disk is full")

    monkeypatch.setattr(site.desk.journal, "writing", full)
    for path in ("/proposals", f"/proposals/{made}"):
        assert rita.get(path).status_code == 200
    monkeypatch.undo()
    assert "1 decided" in navigation(rita)


@pytest.mark.parametrize(
    ("kind", "field"), [("words", "text"), ("broader", "text"), ("alt", "other"), ("words", "other")]
)
def test_what_a_proposal_has_no_use_for_is_kept(site: Site, rita: Client, kind: str, field: str) -> None:
    sent = {"text": "Gigues", "other": "Drums"} if kind not in ("words", "alt") else {"text": "", "other": ""}
    sent = {**sent, **({"text": "Gigues"} if kind == "alt" else {}), field: "Drums"}
    asked = {"form": "propose", "concept": str(number(site, "Harps")), "kind": kind, "reason": "r", "tag": "en", **sent}
    answer = rita.post("/propose", asked)
    assert answer.status_code == 409 and f'id="propose-{field}-why"' in answer.text
    is_kept = 'value="Drums"' in answer.text or ">Drums</textarea>" in answer.text
    assert f'name="{field}"' in answer.text and is_kept
    assert site.desk.proposals.count_open() == 0


def test_a_proposal_that_is_refused_stays_open(site: Site, rita: Client) -> None:
    """As what refuses it came after it."""
    made = propose(rita, concept=str(number(site, "Harps")), kind="pref", text="Lyres")
    perform(site, {"do": "concept", "scheme": 1, "tag": "en", "text": "Lyres"})
    answer = site.client("ben").post(f"/proposals/{made}/accept", {"form": "accept"})
    assert answer.status_code == 409 and "Lyres has the preferred term" in " ".join(text_of(answer).split())
    proposal = site.desk.proposals.get(made)
    assert proposal and proposal.state == "open"


@pytest.mark.parametrize(
    ("concept", "values", "field", "part"),
    [
        ("Violins", {"kind": "alt", "text": " "}, "text", "The field is empty. Write a term."),
        ("Violins", {"kind": "scope"}, "text", "The field is empty. Write a note."),
        ("Violins", {"kind": "alt", "text": "x" * 257}, "text", "is one character too long"),
        ("Violins", {"kind": "alt", "text": "Fine violins", "tag": ""}, "tag", "isn’t a language tag"),
        ("Violins", {"kind": "alt", "text": "Fine violins", "tag": "x1y2z3w4q5"}, "tag", "isn’t a language tag"),
        ("Violins", {"kind": "alt", "text": "Fine violins", "tag": "english"}, "tag", "isn’t a language tag"),
        ("Violins", {"kind": "alt", "text": "Violins"}, "text", "is already the preferred term of Violins"),
        ("Violins", {"kind": "alt", "text": "Violinen", "tag": "de"}, "text", "already has “Violinen” (de)"),
        ("Violins", {"kind": "pref", "text": "Violins"}, "text", "is already the preferred term of Violins"),
        ("Violins", {"kind": "pref", "text": "Violas"}, "text", "Violas has the preferred term “Violas” (en)"),
        ("Violins", {"kind": "concept", "text": "Violas"}, "text", "Use that concept, or add a qualifier"),
        ("", {"kind": "concept", "text": "Violas", "scheme": "1"}, "text", "Use that concept, or add a qualifier"),
        ("Violins", {"kind": "broader", "other": "Violins"}, "other", "can’t be linked with itself"),
        ("String instruments", {"kind": "broader", "other": "Violins"}, "other", "because it is already below it"),
        ("Violins", {"kind": "related", "other": "String instruments"}, "other", "is already broader than Violins"),
        ("Violins", {"kind": "related", "other": "Fiddles"}, "other", "is already linked with"),
    ],
)
def test_a_proposal_that_would_be_refused(
    site: Site, rita: Client, concept: str, values: dict[str, str], field: str, part: str
) -> None:
    """Its author sees why beside the field, and nothing that was typed is lost."""
    about = {"concept": str(number(site, concept)), "other": ""} if concept else {}
    sent = {"form": "propose", "reason": "Visitors say so.", "tag": "en", "text": "", **about, **values}
    answer = rita.post("/propose", sent)
    page = read_page(answer.text)
    (form,) = [it for it in page.forms if it.name == "propose"]
    assert answer.status_code == 409 and form.invalid == {field}
    assert part in form.text and " ".join("".join(page.words).split()).count(part) == 1
    assert [form.value(name) for name in sent] == [*sent.values()]
    assert site.desk.proposals.count_open() == 0


def test_a_new_concept_that_is_alike(site: Site, rita: Client) -> None:
    """Its author sees which concept has the term, and may mean another one."""
    sent = {
        "form": "propose",
        "kind": "concept",
        "scheme": "1",
        "tag": "en",
        "text": "VIOLÍNS",
        "reason": "They say so.",
    }
    answer = rita.post("/propose", sent)
    page = read_page(answer.text)
    (form,) = [it for it in page.forms if it.name == "propose"]
    assert answer.status_code == 409 and form.invalid == {"text"} and form.value("text") == "VIOLÍNS"
    assert f'href="/c/{number(site, "Violins")}"' in answer.text
    assert form.text.count("differs only in case or accents") == 1
    assert rita.post("/propose", {**sent, "sure": "1"}).status_code == 303


def test_a_proposal_about_a_concept_that_has_ended(site: Site, rita: Client) -> None:
    """What was typed stays, and the form says what there is in place of the concept."""
    fiddles = number(site, "Fiddles")
    perform(site, {"do": "merge", "source": fiddles, "target": number(site, "Violins")})
    asked = {"form": "propose", "reason": "They say so.", "concept": str(fiddles), "kind": "alt", "tag": "en"}
    for concept, part in (
        (str(fiddles), "Fiddles was merged into Violins"),
        ("999", "No concept has the identifier 999"),
    ):
        answer = rita.post("/propose", {**asked, "concept": concept, "text": "Folk fiddles"})
        (form,) = [it for it in read_page(answer.text).forms if it.name == "propose"]
        assert answer.status_code == 409 and part in form.text
        assert (form.value("text"), form.value("reason")) == ("Folk fiddles", "They say so.")
    assert rita.post("/propose", {**asked, "concept": "", "text": "x"}).status_code == 400
    assert site.desk.proposals.count_open() == 0


def test_withdrawn_by_its_author_alone(site: Site, rita: Client) -> None:
    made = propose(rita, concept=str(number(site, "Harps")), kind="words")
    assert site.client("anna").post(f"/proposals/{made}/withdraw").status_code == 403
    assert rita.post(f"/proposals/{made}/withdraw").status_code == 303
    assert "withdrawn" in text_of(rita.get(f"/proposals/{made}"))


@pytest.mark.parametrize(
    ("values", "status"),
    [
        ({"kind": "alt", "text": "x", "reason": " "}, 409),
        ({"kind": "alt", "text": " "}, 409),
        ({"kind": "fly", "text": "x"}, 400),
        ({"kind": "broader", "other": "nothing is called so"}, 409),
    ],
    ids=["no reason", "no text", "no kind", "no concept"],
)
def test_incomplete_proposals(site: Site, rita: Client, values: dict[str, str], status: int) -> None:
    sent = {"form": "propose", "concept": str(number(site, "Harps")), "reason": "r", "tag": "en", **values}
    answer = rita.post("/propose", sent)
    assert answer.status_code == status
    if status == 409:
        assert 'role="alert"' in answer.text


def test_a_colon_in_french_has_a_space_before_it(site: Site, rita: Client) -> None:
    made = propose(rita, concept=str(number(site, "Harps")), kind="words")
    rita.http.set_cookie("localhost", "pages", "fr")
    for path in (f"/proposals/{made}", "/proposals", "/propose?concept=5", "/changes?concept=5", "/tree"):
        page = rita.get(path).text.split("<main")[1].split("<footer")[0]
        assert re.search(r" : (<a|\w)", page) and not re.search(r"\w(</a>)?: ", page), path


def test_comments(site: Site, rita: Client) -> None:
    harps = number(site, "Harps")
    assert rita.post(f"/c/{harps}/comments", {"text": "See <b>Lyres</b>, too"}).status_code == 303
    page = rita.get(f"/c/{harps}")
    assert "See &lt;b&gt;Lyres&lt;/b&gt;, too" in page.text
    found = re.search(rf"/c/{harps}/comments/([0-9]+)/remove", page.text)
    assert found
    assert site.client("ben").post(found[0]).status_code == 403
    assert rita.post(found[0]).status_code == 303
    assert "Lyres" not in rita.get(f"/c/{harps}").text
    assert rita.post("/c/99999/comments", {"text": "x"}).status_code == 404


def test_two_who_accept_at_once(site: Site, rita: Client, monkeypatch: pytest.MonkeyPatch) -> None:
    """One of them performs it, and both find it accepted."""
    made = propose(rita, concept=str(number(site, "Violins")), kind="pref", text="Violins and others")
    perform = site.desk.perform

    def perform_slowly(*given: Any, **named: Any) -> Outcome:
        time.sleep(0.3)
        return perform(*given, **named)

    monkeypatch.setattr(site.desk, "perform", perform_slowly)
    with ThreadPoolExecutor(2) as pool:
        both = [pool.submit(site.client(it).post, f"/proposals/{made}/accept") for it in ("anna", "ben")]
        assert [it.result().status_code for it in both] == [303, 303]
    assert len(site.desk.history.recent()) == 1


@pytest.mark.parametrize("what", ["accept", "decline", "withdraw"])
def test_nothing_is_decided_while_the_desk_is_busy(
    site: Site, rita: Client, monkeypatch: pytest.MonkeyPatch, what: str
) -> None:
    """Whoever waited in vain is told so, and decides later."""
    made = propose(rita, concept=str(number(site, "Violins")), kind="alt", text="Folk violins")
    path, who = f"/proposals/{made}/{what}", rita if what == "withdraw" else site.client("ben")
    sent = {"form": what, "word": "We have it."} if what == "decline" else {"form": what}
    hold_up_once(site.desk, monkeypatch)
    page = who.post(path, sent)
    assert page.status_code == 409 and "Something long is under way" in text_of(page)
    assert site.desk.proposals.count_open() == 1 and site.desk.history.recent() == []
    assert who.post(path, sent).status_code == 303 and site.desk.proposals.count_open() == 0


def test_texts_that_are_too_long_are_not_cut(site: Site, rita: Client) -> None:
    long = "x" * 2001
    answer = rita.post("/propose", {"form": "propose", "kind": "words", "reason": long})
    assert answer.status_code == 409 and "has 2,001 characters, and 2,000 is the limit" in text_of(answer)
    assert long in answer.text
    made = propose(rita, kind="words")
    for what in ("accept", "decline"):
        answer = site.client("ben").post(f"/proposals/{made}/{what}", {"form": what, "word": long})
        assert answer.status_code == 409 and "2,000 is the limit" in text_of(answer)
    assert rita.post("/c/5/comments", {"text": long}).status_code == 413
    assert site.desk.proposals.comments(5) == []


def test_proposals_in_pages(site: Site, rita: Client) -> None:
    for it in range(52):
        site.desk.proposals.propose("rita", "proposals.kind.words", [], f"Reason {it:02}.")
    page = rita.get("/proposals")
    assert "Reason 51." in page.text and "Reason 02." in page.text and "Reason 01." not in page.text
    assert 'href="/proposals?state=open&amp;before=3"' in page.text
    assert "Reason 01." in rita.get("/proposals?state=open&before=3").text


def test_editors_see_what_waits(site: Site, rita: Client) -> None:
    """Proposals are named on the first page, and comments after the proposals."""
    propose(rita, kind="words")
    rita.post("/c/5/comments", {"text": "Is this right?"})
    assert "1 proposal waits for an answer." in text_of(site.client("ben").get("/"))
    assert "waits for an answer" not in text_of(rita.get("/"))
    page = site.client("ben").get("/proposals")
    assert "Is this right?" in page.text and 'href="/c/5#comments"' in page.text


def test_a_proposal_that_was_performed_but_not_closed(
    site: Site, rita: Client, open_desk: Callable[[Path], Desk], users: Path, monkeypatch: pytest.MonkeyPatch
) -> None:
    """The next start closes it, and its author is told: the desk was killed after the program had answered."""
    desk, violins = site.desk, number(site, "Violins")
    made = propose(rita, concept=str(violins), kind="alt", text="Folk violins")

    def die(*given: Any, **named: Any) -> None:
        raise SystemExit("killed")

    monkeypatch.setattr(desk.journal, "finish", die)
    with pytest.raises(SystemExit):
        site.client("ben").post(f"/proposals/{made}/accept", {"form": "accept", "word": "Thanks"})
    monkeypatch.undo()
    found = desk.proposals.get(made)
    assert found and found.state == "open"
    desk.stop()
    again = site_of(open_desk(desk.db), users)
    assert ("en", "Folk violins") in again.desk.replica.view(violins).alt  # type: ignore[union-attr]
    found = again.desk.proposals.get(made)
    assert found and (found.state, found.decided_by, found.word) == ("accepted", "ben", "Thanks") and found.plan
    assert [it.id for it in again.desk.proposals.unread("rita")] == [made]
    assert "Thanks" in text_of(again.client("rita").get("/proposals"))


def test_a_proposal_that_was_performed_while_the_journal_could_not_be_written(
    site: Site, rita: Client, monkeypatch: pytest.MonkeyPatch
) -> None:
    """It isn't performed again: it is closed as soon as the disk has room."""
    made, finish = propose(rita, concept=str(number(site, "Violins")), kind="alt", text="Folk violins"), []
    its, ben = site.desk.journal.finish, site.client("ben")

    def full(*given: Any, **named: Any) -> None:
        finish.append(given)
        if len(finish) == 1:
            raise sqlite3.OperationalError("database or disk is full")
        its(*given, **named)

    monkeypatch.setattr(site.desk.journal, "finish", full)
    assert ben.post(f"/proposals/{made}/accept", {"form": "accept"}).status_code == 303
    assert ben.post(f"/proposals/{made}/accept", {"form": "accept"}).status_code == 303
    found = site.desk.proposals.get(made)
    assert found and found.state == "accepted" and len(site.desk.history.recent()) == 1


def test_what_was_changed_since_a_proposal_was_looked_at(site: Site, rita: Client) -> None:
    """The editor sees it before the proposal is performed over it."""
    violins, ben = number(site, "Violins"), site.client("ben")
    made = propose(rita, concept=str(violins), kind="pref", text="Violins and others")
    renamed = {"do": "relabel", "owner": violins, "tag": "en", "text": "Violins of all kinds", "keep": False}
    last = perform(site, renamed, user="anna")
    perform(site, {"do": "addLabel", "owner": violins, "kind": "scope", "tag": "en", "text": "Bowed."}, user="anna")
    answer = ben.post(f"/proposals/{made}/accept", {"form": "accept"})
    page = text_of(answer)
    assert answer.status_code == 409 and "changed again after what you saw" in page
    assert "Changed since it was proposed" in page and "Violins of all kinds" in page and "Bowed." not in page
    assert f'name="last" value="{last}"' in answer.text
    assert ben.post(f"/proposals/{made}/accept", {"form": "accept", "last": str(last)}).status_code == 303
    view = site.desk.replica.view(violins)
    assert view and ("en", "Violins and others") in view.pref
