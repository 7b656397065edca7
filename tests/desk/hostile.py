"""Texts that try to break a page, and what a page must not have once they are in it."""
from __future__ import annotations

import re
from html.parser import HTMLParser

# What is put where a term, a note, a record, a user or a file is named. The word PWNED marks what would run.
TEXTS = (
    "<script>PWNED()</script>",
    '"><img src=x onerror=PWNED()>',
    "' onmouseover='PWNED()' x='",
    "</title></textarea></option><svg onload=PWNED()>",
    "{{ PWNED }} {% PWNED %} ${PWNED} #{PWNED}",
    "javascript:PWNED()",
    "&lt;script&gt;PWNED()&lt;/script&gt;",
    "\u202eDENWP\u2066 right to left",
    "W" * 200,
    "=PWNED()",
    "{0.__class__} {n} %s %(PWNED)s",
)
# Elements that a page of the desk has.
ELEMENTS = set(
    "html head meta title link script body a header div nav span form input button main footer p label ul "
    "li h1 h2 dl h3 dt dd small details summary abbr b i br aside section select option textarea fieldset "
    "legend datalist table thead tbody tr th td time kbd code output figure img ol hr strong em caption "
    "optgroup svg path bdi progress".split()
)
HANDLER = re.compile(r"on\w+")
LEADS = ("/", "#", "?", "http://", "https://")


class Checker(HTMLParser):
    """Reads a page, and notes what a text has brought into its markup."""

    def __init__(self) -> None:
        super().__init__(convert_charrefs=True)
        self.faults: list[str] = []
        self.open: list[str] = []

    def handle_starttag(self, tag: str, attributes: list[tuple[str, str | None]]) -> None:
        if tag not in ELEMENTS:
            self.faults.append(f"<{tag}>")
        for name, value in attributes:
            if HANDLER.fullmatch(name) or name in ("style", "srcdoc") or not re.fullmatch(r"[a-z][a-z0-9-]*", name):
                self.faults.append(f"<{tag} {name}>")
            if name in ("href", "src", "action", "formaction") and not (value or "").startswith(LEADS):
                self.faults.append(f"<{tag} {name}={value}>")
        if tag == "script" and dict(attributes).get("src") is None:
            self.faults.append("<script> without an address")
        if tag == "img" and not (dict(attributes).get("src") or "").startswith("/"):
            self.faults.append("<img>")

    def handle_data(self, data: str) -> None:
        if "PWNED" in data and self.cdata_elem:
            self.faults.append(f"a text in <{self.cdata_elem}>")


def faults_of(page: str) -> list[str]:
    """Returns what is wrong with a page."""
    checker = Checker()
    checker.feed(page)
    checker.close()
    return checker.faults
