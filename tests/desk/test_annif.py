"""A service of Annif suggests concepts beside the page's own; a page never waits for it, and works without it."""
from __future__ import annotations

import json
import threading
import time
from collections.abc import Iterator
from dataclasses import dataclass, field
from http.server import BaseHTTPRequestHandler, ThreadingHTTPServer
from typing import Any
from urllib.parse import parse_qs

import pytest
from clients import Client, Site, text_of
from hands import HANDS, SAY, address_of, come_in_as
from processes import Running
from reader import read_page
from selenium.webdriver.chrome.webdriver import WebDriver
from selenium.webdriver.common.keys import Keys
from thesaurus_desk.journal.record_texts import RecordText
from thesaurus_desk.web import annif

VIOLINS, HARPS = 5, 11
BASE = "https://thesaurus.example/id/"
# As Annif's REST interface has it.
RESULTS = [
    {"label": "Violins", "notation": None, "score": 0.8123, "uri": f"{BASE}{VIOLINS}"},
    {"label": "harps", "notation": None, "score": 0.25, "uri": f"{BASE}{HARPS}"},
    {"label": "paintings", "notation": None, "score": 0.1, "uri": "http://www.yso.fi/onto/yso/p4"},
]


@dataclass
class Service:
    """A service that notes what it is asked."""

    address: str = ""
    answer: bytes = json.dumps({"results": RESULTS}).encode()
    seconds: float = 0.0
    asked: list[tuple[str, dict[str, list[str]]]] = field(default_factory=list)


@pytest.fixture
def service() -> Iterator[Service]:
    """A service that answers as Annif does."""
    found = Service()

    class Handler(BaseHTTPRequestHandler):
        """Answers one request."""

        def do_POST(self) -> None:
            """Answers a text with suggestions."""
            body = self.rfile.read(int(self.headers["Content-Length"])).decode()
            found.asked.append((self.path, parse_qs(body)))
            time.sleep(found.seconds)
            self.send_response(200)
            self.end_headers()
            self.wfile.write(found.answer)

        def log_message(self, *words: Any) -> None:
            """Says nothing."""

    server = ThreadingHTTPServer(("127.0.0.1", 0), Handler)
    threading.Thread(target=server.serve_forever, daemon=True).start()
    found.address = f"http://127.0.0.1:{server.server_port}/v1/projects/museum-en"
    yield found
    server.shutdown()
    server.server_close()


def settle(site: Site, address: str) -> None:
    assert site.client("anna").post("/index/settings", {"annif": address}).status_code == 303


def ask(client: Client) -> Any:
    return client.post("/index/more", {"record": "M 1", "title": "A violin", "text": "from Absam"})


def test_the_service_is_asked_for_a_text(site: Site, service: Service) -> None:
    settle(site, service.address)
    answer = ask(site.client("ina"))
    assert answer.json == {
        "found": [
            {"number": VIOLINS, "term": "Violins", "why": "suggested by the service (81 %)"},
            {"number": HARPS, "term": "Harps", "why": "suggested by the service (25 %)"},
        ],
        "said": "1 suggestion of the service isn’t a concept of this thesaurus.",
    }
    ((path, fields),) = service.asked
    assert path == "/v1/projects/museum-en/suggest" and fields["text"] == ["A violin\nfrom Absam"]


@pytest.mark.parametrize("wrong", ["slow", "gone", "html", "shape"])
def test_a_service_without_an_answer(site: Site, service: Service, wrong: str, monkeypatch: pytest.MonkeyPatch) -> None:
    monkeypatch.setattr(annif, "PATIENCE", 0.5)
    service.seconds = 1.0 if wrong == "slow" else 0.0
    service.answer = {"html": b"<html>", "shape": b'{"results": [{"uri": 1}]}'}.get(wrong, service.answer)
    settle(site, "http://127.0.0.1:1/v1/projects/x" if wrong == "gone" else service.address)
    start = time.monotonic()
    answer = ask(site.client("ina"))
    assert answer.status_code == 502 and answer.json["said"] == "The service offers no suggestions now."
    assert time.monotonic() - start < 10


def test_a_page_never_waits_for_the_service(site: Site, service: Service) -> None:
    settle(site, service.address)
    site.desk.record_texts.keep([RecordText("M 1", "A violin")])
    page = site.client("ina").get("/index?record=M+1")
    assert 'data-more="/index/more"' in page.text and service.asked == []
    assert "data-more" not in site.client("ina").get("/index?record=M+2").text


def test_without_a_service(site: Site) -> None:
    assert ask(site.client("ina")).status_code == 404
    answer = site.client("anna").post("/index/settings", {"annif": "file:///etc/passwd"})
    assert answer.status_code == 409 and "An address begins with https://" in text_of(answer)
    site.desk.record_texts.keep([RecordText("M 1", "A violin")])
    page = site.client("ina").get("/index?record=M+1").text
    assert "data-more" not in page
    assert not any(it.name == "settings" for it in read_page(site.client("ina").get("/index").text).forms)


@pytest.mark.needs("chromedriver", "selenium")
def test_its_suggestions_are_ticked_by_keys(driver: WebDriver, shared_desk: Running, service: Service) -> None:
    hand = come_in_as(HANDS["keyboard"](driver, address_of(shared_desk)), "anna")
    hand.open("/index")
    hand.fill(SAY("indexing.annif"), service.address)
    hand.type_keys(Keys.ENTER)
    hand.open("/index?record=M+7")
    hand.fill(SAY("indexing.title_field"), "A violin from Absam")
    hand.type_keys(Keys.ENTER)
    hand.sees("“Violins” is in the text · suggested by the service (81 %)")
    hand.sees("Harps 2")
    hand.type_keys(Keys.ESCAPE, "1", "2", "s")
    hand.sees("M 7: indexed with Harps")
    hand.sees("M 7: indexed with Violins")
