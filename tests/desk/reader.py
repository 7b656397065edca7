"""A reader of pages without script: follows links and fills in forms as a browser does."""
from __future__ import annotations

import re
from dataclasses import dataclass, field
from html.parser import HTMLParser
from typing import Any

from flask import Flask
from flask.testing import FlaskClient
from thesaurus_desk.auth.authentication import SingleUserEntry
from thesaurus_desk.settings import Settings
from thesaurus_desk.store.health import Health
from thesaurus_desk.store.plan_execution import Desk
from thesaurus_desk.web.app import create_app


BLOCKS = ("p", "li", "dt", "dd", "div", "h1", "h2", "section", "button", "label", "option", "summary", "br", "nav")


@dataclass
class Form:
    """A form of a page: where it is sent, and what it holds."""

    action: str
    method: str
    fields: list[tuple[str, str]] = field(default_factory=list)
    # The names of all fields, those that send nothing among them; buttons with their names and values.
    names: set[str] = field(default_factory=set)
    buttons: list[tuple[str, str]] = field(default_factory=list)
    invalid: set[str] = field(default_factory=set)
    text: str = ""
    # Its id, by which fields elsewhere on the page are its own.
    id: str = ""

    def value(self, name: str) -> str | None:
        """Returns what a field holds."""
        return next((value for its, value in self.fields if its == name), None)

    def values(self, name: str) -> list[str]:
        """Returns what the fields of a name hold: the boxes that are ticked."""
        return [value for its, value in self.fields if its == name]

    @property
    def name(self) -> str:
        """The name of the form."""
        return self.value("form") or ""


class PageReader(HTMLParser):
    """Reads the forms, the links and the text of a page."""

    def __init__(self) -> None:
        super().__init__()
        self.forms: list[Form] = []
        self.form: Form | None = None
        self.area: str | None = None
        self.select: str | None = None
        self.options: list[tuple[str, bool]] = []
        self.words: list[str] = []
        self.area_text = ""

    def handle_starttag(self, tag: str, attrs: list[tuple[str, str | None]]) -> None:
        given = {name: value or "" for name, value in attrs}
        if tag in BLOCKS:
            self.handle_data(" ")
        name = given.get("name", "")
        if tag == "form":
            self.form = Form(given.get("action", ""), given.get("method", "get"), id=given.get("id", ""))
            self.forms.append(self.form)
        elif tag == "input" and name:
            self.add_input(name, given)
        elif self.form is None:
            return
        elif tag == "button":
            self.form.buttons.append((name, given.get("value", "")))
        elif tag == "textarea":
            self.area, self.area_text = name, ""
        elif tag == "select":
            self.select, self.options = name, []
        elif tag == "option" and self.select:
            self.options.append((given.get("value", ""), "selected" in given))
        if self.form is not None and given.get("aria-invalid") == "true":
            self.form.invalid.add(name)

    def add_input(self, name: str, given: dict[str, str]) -> None:
        """Adds a field to the form in which it is, or whose id it names."""
        form = next(it for it in self.forms if it.id == given["form"]) if "form" in given else self.form
        if form is None:
            return
        form.names.add(name)
        is_box = given.get("type") in ("checkbox", "radio")
        if not is_box or "checked" in given:
            form.fields.append((name, given.get("value", "on" if is_box else "")))

    def handle_endtag(self, tag: str) -> None:
        if self.form is None:
            return
        if tag == "form":
            self.form.text = " ".join(self.form.text.split())
            self.form = None
        elif tag == "textarea" and self.area:
            self.form.names.add(self.area)
            self.form.fields.append((self.area, self.area_text))
            self.area = None
        elif tag == "select" and self.select:
            self.form.names.add(self.select)
            chosen = next(
                (value for value, is_chosen in self.options if is_chosen), self.options[0][0] if self.options else ""
            )
            self.form.fields.append((self.select, chosen))
            self.select = None

    def handle_data(self, data: str) -> None:
        self.words.append(data)
        if self.form is not None:
            self.form.text += data
        if self.area is not None:
            self.area_text += data


@dataclass
class Page:
    """A page that was answered."""

    path: str
    status: int
    html: str
    forms: list[Form]
    # Its text, with single spaces.
    text: str
    # Who reads it.
    reader: Reader

    def form(self, name: str, at: int = 0, **holding: str) -> Form:
        """Returns the form of a name; of several ones that holds some values. One that a link opens is on the page to
        which that leads."""
        if link := re.search(rf'data-form href="([^"?]*\?open={name})#', self.html):
            return self.reader.get(link[1]).form(name, at, **holding)
        found = [
            it for it in self.forms if it.name == name and all(it.value(key) == text for key, text in holding.items())
        ]
        assert len(found) > at, f"{self.path}: no form {name} {holding} among {[it.name for it in self.forms]}"
        return found[at]

    def has_form(self, name: str) -> bool:
        """Whether there is a form of a name."""
        return any(it.name == name for it in self.forms) or name in self.opened_by_links()

    def opened_by_links(self) -> set[str]:
        """Returns the names of the forms that its links open."""
        return opened_by_links(self.html)

    @property
    def alerts(self) -> str:
        """What the page says is wrong."""
        return " ".join(
            strip(it) for it in re.findall(r'<(?:div|p) class="why".*?</(?:div|p)>\s', self.html + " ", re.S)
        )

    def links(self) -> list[str]:
        """Returns where its links lead."""
        return re.findall(r'<a [^>]*href="([^"]*)"', self.html)

    def dead_links(self) -> set[str]:
        """Returns the links that lead to no part of the page, and should."""
        return {it for it in self.links() if it[:1] == "#" and f'id="{it[1:]}"' not in self.html}


def opened_by_links(html: str) -> set[str]:
    """Returns the names of the forms that links of a page open."""
    return set(re.findall(r'data-form href="[^"?]*\?open=([^"#]*)#', html))


def read_page(html: str) -> PageReader:
    """Reads a page."""
    reader = PageReader()
    reader.feed(html)
    return reader


def strip(html: str) -> str:
    """Returns the text of markup."""
    return " ".join("".join(read_page(html).words).split())


class Reader:
    """Someone who reads pages, sends forms, and follows redirections."""

    def __init__(self, app: Flask, client: FlaskClient | None = None) -> None:
        self.client = client or app.test_client()

    def read(self, answer: Any) -> Page:
        """Returns the page of an answer, after its redirections; its links to its own parts lead there."""
        while answer.status_code in (302, 303):
            answer = self.client.get(answer.headers["Location"].partition("#")[0])
        shown = answer.get_data(as_text=True)
        found = read_page(shown)
        text = " ".join("".join(found.words).split())
        page = Page(answer.request.path, answer.status_code, shown, found.forms, text, self)
        assert not page.dead_links(), f"{page.path}: {page.dead_links()}"
        return page

    def get(self, path: str) -> Page:
        """Returns the page of a path."""
        return self.read(self.client.get(path))

    def send(self, form: Form, button: tuple[str, str] | None = None, **fields: str | list[str] | None) -> Page:
        """Sends a form with some fields filled in otherwise (None: left out), by a button."""
        data = [(name, value) for name, value in form.fields if name not in fields]
        for name, value in fields.items():
            assert name in form.names, f"{form.action}: no field {name} among {sorted(form.names)}"
            data += [(name, it) for it in (value if isinstance(value, list) else [] if value is None else [value])]
        if button is not None:
            assert button in form.buttons, f"{form.action}: no button {button} among {form.buttons}"
            data.append(button)
        sent: dict[str, list[str]] = {}
        for name, text in data:
            sent.setdefault(name, []).append(text)
        if form.method == "post":
            return self.read(self.client.post(form.action, data=sent))
        return self.read(self.client.get(form.action, query_string=sent))


def come_in(desk: Desk) -> Reader:
    """Returns someone alone at a desk, who has come in."""
    entry = SingleUserEntry("anna")
    app = create_app(desk, entry, Settings(frozenset({"localhost"})), Health(desk, None))
    app.testing = True
    found = Reader(app)
    found.get(f"/enter?key={entry.key}")
    return found
