"""What people watch: the page with what has happened, feeds, and mail once a day, which is never sent twice."""
from __future__ import annotations

import re
import stat
import xml.etree.ElementTree as ET
from datetime import UTC, datetime, timedelta
from pathlib import Path

import pytest
from asking import done, label, link, new, post
from clients import Client, Site, site_of, text_of
from reader import Reader
from test_public_view import status
from thesaurus_desk.auth.accounts import Accounts
from thesaurus_desk.journal.schema import time_text
from thesaurus_desk.store.plan_execution import Desk
from thesaurus_desk.web import watch_mail
from thesaurus_desk.web.watch_mail import WatchMail

VIOLINS, BOWED, STRINGS, HARPS = 5, 4, 3, 11
ATOM = "{http://www.w3.org/2005/Atom}"


@pytest.fixture
def rita(site: Site) -> Client:
    """The browser of a reader."""
    return site.client("rita")


def watch(client: Client, kind: str, number: int, do: str = "watch") -> None:
    """Presses the button of a page."""
    assert client.post("/watch", {"kind": kind, "number": number, "do": do, "next": "/"}).status_code == 303


def rename(desk: Desk, number: int, text: str, user: str = "ben") -> None:
    """Changes a concept."""
    assert desk.perform(user, "term", [label("addLabel", number, "alt", text)]).is_done


# --- the page ---


def test_what_others_did_to_a_concept(desk: Desk, rita: Client) -> None:
    rename(desk, VIOLINS, "Before")
    assert "You aren’t watching anything" in text_of(rita.get("/for-me"))
    assert 'aria-pressed="false"' in rita.get(f"/c/{VIOLINS}").text
    watch(rita, "concept", VIOLINS)
    assert 'aria-pressed="true"' in rita.get(f"/c/{VIOLINS}").text
    assert "Nothing has happened" in text_of(rita.get("/for-me"))
    rename(desk, VIOLINS, "After")
    rename(desk, HARPS, "Elsewhere")
    done(desk, post("k1", VIOLINS, "A record"))
    page = text_of(rita.get("/for-me"))
    assert "After" in page and "ben" in page
    assert not [it for it in ("Before", "Elsewhere", "A record") if it in page]
    at = re.search(r'name="at" value="([^"]*)"', rita.get("/for-me").text)
    rename(desk, VIOLINS, "Later")
    assert at and rita.post("/for-me/read", {"at": at[1]}).status_code == 303
    page = text_of(rita.get("/for-me"))
    assert "Later" in page and "After" not in page, "what came behind the page isn't read"
    watch(rita, "concept", VIOLINS, "leave")
    assert "Later" not in text_of(rita.get("/for-me"))


def test_ones_own_changes_are_no_news(site: Site, desk: Desk) -> None:
    ben = site.client("ben")
    watch(ben, "concept", VIOLINS)
    rename(desk, VIOLINS, "Mine")
    assert "Nothing has happened" in text_of(ben.get("/for-me"))
    rename(desk, VIOLINS, "Hers", "anna")
    page = text_of(ben.get("/for-me"))
    assert "Hers" in page and "Mine" not in page


def test_a_branch(desk: Desk, rita: Client) -> None:
    watch(rita, "branch", BOWED)
    rename(desk, VIOLINS, "Below")
    rename(desk, STRINGS, "Above")
    made = desk.perform("ben", "new", [new("Rebecs"), link("link", "broader", "$1", BOWED)]).made
    page = text_of(rita.get("/for-me"))
    assert "Below" in page and "Rebecs" in page and "Above" not in page and made
    assert "Watch with all below" not in text_of(rita.get(f"/c/{made}")), "nothing is below it"


def test_a_proposal_and_comments(site: Site, desk: Desk, rita: Client) -> None:
    number = desk.proposals.propose(
        "ina", "proposals.kind.alt", [label("addLabel", HARPS, "alt", "Lyras")], "so", HARPS
    )
    assert 'name="number" value="1"' in rita.get(f"/proposals/{number}").text
    watch(rita, "proposal", number)
    watch(rita, "concept", HARPS)
    desk.proposals.decide(number, "declined", "ben", "No, since ..")
    site.client("ina").post(f"/c/{HARPS}/comments", {"text": "But why?"})
    page = text_of(rita.get("/for-me"))
    assert "declined" in page and "No, since .." in page and "But why?" in page
    assert rita.post("/watch", {"kind": "proposal", "number": 99, "do": "watch"}).status_code == 404
    assert rita.post("/watch", {"kind": "scheme", "number": 1, "do": "watch"}).status_code == 400


def test_a_time_that_hasnt_come_is_not_read(desk: Desk, rita: Client) -> None:
    watch(rita, "concept", VIOLINS)
    rename(desk, VIOLINS, "After")
    for at in ("9999-01-01T00:00:00.000Z", "0", "x"):
        rita.post("/for-me/read", {"at": at})
    assert "After" in text_of(rita.get("/for-me"))


# --- feeds ---


def entries(text: str) -> list[str]:
    """Returns the titles of a feed, which is well formed and has what Atom asks for."""
    feed = ET.fromstring(text)
    assert all(feed.find(f"{ATOM}{it}") is not None for it in ("id", "title", "updated", "author"))
    found = feed.findall(f"{ATOM}entry")
    for it in found:
        assert all(it.find(f"{ATOM}{name}") is not None for name in ("id", "title", "updated", "link"))
    ids = [it.findtext(f"{ATOM}id") for it in found]
    assert len(ids) == len(set(ids))
    return [it.findtext(f"{ATOM}title") or "" for it in found]


def test_the_public_feed(desk: Desk, users: Path, site: Site) -> None:
    assert site.client().get("/feed.xml").status_code in (303, 401)
    public = site_of(desk, users, is_public=True).client()
    rename(desk, VIOLINS, "Fidd <b> & les")
    hidden = done(desk, new("Secret rebecs")).made or 0
    done(desk, status(desk, hidden, "candidate"))
    answer = public.get("/feed.xml")
    assert answer.mimetype == "application/atom+xml"
    assert entries(answer.text) == ["Violins"]
    assert "ben" not in answer.text and "Secret" not in answer.text and f"/c/{VIOLINS}" in answer.text


def test_a_feed_is_xml_whatever_terms_have(desk: Desk, users: Path, site: Site) -> None:
    """And says what it leaves out."""
    done(desk, {"do": "relabel", "owner": VIOLINS, "tag": "en", "text": "Violins\ufffe", "keep": False})
    text = site_of(desk, users, is_public=True).client().get("/feed.xml").text
    assert entries(text) == ["Violins"] and "XML doesn't have are left out: 1 U+FFFE -->" in text


def test_the_feed_of_a_watch_has_a_secret_address(site: Site, desk: Desk, rita: Client) -> None:
    watch(rita, "concept", VIOLINS)
    rename(desk, VIOLINS, "After <b>")
    site.client("ina").post(f"/c/{VIOLINS}/comments", {"text": "Why <i>?"})

    def address() -> str:
        found = re.search(r'href="http://localhost(/feed/[\w-]+\.xml)"', rita.get("/for-me").text)
        assert found
        return found[1]

    first = address()
    assert len(first) > 30
    answer = site.client().get(first)
    assert answer.status_code == 200 and entries(answer.text) == ["Violins", "Violins"]
    assert "ben" in answer.text and "Why" in answer.text
    assert rita.post("/for-me/address").status_code == 303
    assert address() != first and site.client().get(first).status_code == 404
    assert site.client().get(address()).status_code == 200
    assert site.entry.accounts
    site.entry.accounts.remove("rita")
    assert site.client().get(address_of(desk, "rita")).status_code == 404, "who has gone reads no more"


def address_of(desk: Desk, user: str) -> str:
    watcher = desk.watches.watcher(user)
    assert watcher
    return f"/feed/{watcher.secret}.xml"


# --- mail ---


@pytest.fixture
def machine(tmp_path: Path, monkeypatch: pytest.MonkeyPatch) -> Path:
    """A folder with a `sendmail` that keeps what it is given; its exit status is in a file."""
    program, folder = tmp_path / "bin" / "sendmail", tmp_path / "sent"
    program.parent.mkdir()
    folder.mkdir()
    (tmp_path / "status").write_text("0")
    program.write_text(
        f'#!/bin/sh\n[ "$(cat {tmp_path}/status)" = 0 ] || {{ echo "no route" >&2; exit 75; }}\n'
        f'echo "$@" > {folder}/args\ncat > {folder}/$(ls {folder} | wc -l)\n'
    )
    program.chmod(program.stat().st_mode | stat.S_IEXEC)
    monkeypatch.setattr(watch_mail, "find_sendmail", lambda: str(program))
    monkeypatch.setattr(watch_mail, "HOUR", 0)
    monkeypatch.setattr(watch_mail, "SETTLED", timedelta())
    return tmp_path


def sent(machine: Path) -> list[str]:
    """Returns the mails that were sent."""
    return [it.read_text() for it in sorted((machine / "sent").iterdir()) if it.name != "args"]


def yesterday(desk: Desk, user: str) -> None:
    """Has the last mail be that of yesterday."""
    desk.watches.note_mailed(user, time_text(datetime.now(UTC) - timedelta(days=1)))


def mailer(desk: Desk, site: Site) -> WatchMail:
    """Returns a sender as at the desk's start."""
    assert isinstance(site.entry.accounts, Accounts)
    return WatchMail(desk, site.entry.accounts, "https://desk.example")


def test_mail_is_sent_once_a_day(site: Site, desk: Desk, rita: Client, machine: Path) -> None:
    watch(rita, "concept", VIOLINS)
    anna = site.client("anna")
    for address in ("-oQ/tmp@x", "a b@c", "x"):
        assert anna.post("/users", {"do": "mail", "name": "rita", "mail": address}).status_code == 422
    answer = anna.post("/users", {"do": "mail", "name": "rita", "mail": "rita@museum.example"})
    assert answer.status_code == 303 and 'value="rita@museum.example"' in anna.get("/users").text
    rename(desk, VIOLINS, "After")
    mailer(desk, site).send_if_due()
    assert sent(machine) == [], "the first one is of the day after"
    yesterday(desk, "rita")
    one = mailer(desk, site)
    one.send_if_due()
    one.send_if_due()
    mailer(desk, site).send_if_due()
    (mail,) = sent(machine)
    assert "To: rita@museum.example" in mail and "https://desk.example/c/5" in mail and "Violins: ben" in mail
    assert "Auto-Submitted: auto-generated" in mail
    assert (machine / "sent" / "args").read_text() == "-i -- rita@museum.example\n"
    yesterday_mail = desk.watches.watcher("rita")
    assert yesterday_mail and "rita@museum.example" in text_of(rita.get("/for-me"))


def test_nothing_is_sent_if_nothing_has_happened(site: Site, desk: Desk, rita: Client, machine: Path) -> None:
    watch(rita, "concept", VIOLINS)
    desk.watches.set_mail("rita", "rita@museum.example", "en")
    yesterday(desk, "rita")
    mailer(desk, site).send_if_due()
    assert sent(machine) == [] and desk.watches.failure == ""


def test_a_mail_that_fails_is_sent_later_and_state_names_it(
    site: Site, desk: Desk, rita: Client, machine: Path, monkeypatch: pytest.MonkeyPatch
) -> None:
    watch(rita, "concept", VIOLINS)
    desk.watches.set_mail("rita", "rita@museum.example", "de")
    yesterday(desk, "rita")
    rename(desk, VIOLINS, "After")
    (machine / "status").write_text("75")
    one = mailer(desk, site)
    one.send_if_due()
    anna = site.client("anna")
    page = text_of(anna.get("/state"))
    assert sent(machine) == [] and "No mail could be sent:" in page and "no route" in page
    assert "mail" in anna.get("/healthz").json["problems"]
    (machine / "status").write_text("0")
    one.send_if_due()
    assert sent(machine) == [], "not at once"
    one.not_before = 0
    one.send_if_due()
    assert len(sent(machine)) == 1 and "No mail could be sent:" not in text_of(anna.get("/state"))
    monkeypatch.setattr(watch_mail, "find_sendmail", lambda: None)
    yesterday(desk, "rita")
    mailer(desk, site).send_if_due()
    assert "there is no sendmail" in text_of(anna.get("/state"))


def test_a_mail_that_may_have_been_sent_is_not_sent_again(
    site: Site, desk: Desk, rita: Client, machine: Path, monkeypatch: pytest.MonkeyPatch
) -> None:
    watch(rita, "concept", VIOLINS)
    desk.watches.set_mail("rita", "rita@museum.example", "en")
    yesterday(desk, "rita")
    rename(desk, VIOLINS, "After")
    (machine / "bin" / "sendmail").write_text(f"#!/bin/sh\ncat > {machine}/sent/0\nexec sleep 60\n")
    monkeypatch.setattr(watch_mail, "PATIENCE", 1.0)
    one = mailer(desk, site)
    one.send_if_due()
    one.not_before = 0
    one.send_if_due()
    assert len(sent(machine)) == 1 and desk.watches.failure == ""


def test_a_user_who_goes_watches_nothing(site: Site, desk: Desk, rita: Client) -> None:
    watch(rita, "concept", VIOLINS)
    desk.watches.set_mail("rita", "rita@museum.example", "en")
    assert site.client("anna").post("/users", {"do": "remove", "name": "rita"}).status_code == 303
    assert desk.watches.of("rita") == [] and desk.watches.with_mail() == []


def test_the_page_by_its_buttons(site: Site, desk: Desk) -> None:
    """As a browser sends its forms."""
    site.app.testing = True
    reader = Reader(site.app, site.client("rita").http)
    form = next(it for it in reader.get(f"/c/{VIOLINS}").forms if it.action == "/watch")
    page = reader.send(form, ("do", "watch"))
    assert page.status == 200 and 'aria-pressed="true"' in page.html
