"""Talks to a triple store: SPARQL 1.1 Query and Update, and the Graph Store HTTP Protocol."""
from __future__ import annotations

import http.client
import json
import urllib.error
import urllib.parse
import urllib.request
from collections.abc import Iterable
from dataclasses import dataclass
from typing import Any

from thesaurus_tools.command_line import USAGE, ToolError, without_password
from thesaurus_tools.ntriples import XSD, Iri, Literal, Node

# The seconds that an answer may take, and the most characters of an error that are shown.
PATIENCE, SHOWN = 600, 300
TRUE = {"1", "true"}


@dataclass
class TripleStore:
    """A triple store with a graph. Its methods raise ToolError if it can't be reached, or refuses."""

    query_url: str
    update_url: str
    graph: str
    # Where many triples are added at a time; without it that is done by updates.
    graph_store_url: str = ""
    user: str = ""
    password: str = ""

    def __post_init__(self) -> None:
        passwords = urllib.request.HTTPPasswordMgrWithDefaultRealm()
        for url in filter(None, (self.query_url, self.update_url, self.graph_store_url)):
            check_url(url)
            passwords.add_password(None, url, self.user, self.password)
        handlers = [urllib.request.HTTPDigestAuthHandler(passwords), urllib.request.HTTPBasicAuthHandler(passwords)]
        self.opener = urllib.request.build_opener(*(handlers if self.user else ()))

    def send(self, method: str, url: str, data: bytes | None, headers: dict[str, str]) -> bytes:
        """Sends a request, and returns the body of the answer."""
        request = urllib.request.Request(url, data, headers, method=method)
        try:
            with self.opener.open(request, timeout=PATIENCE) as answer:
                return bytes(answer.read())
        except urllib.error.HTTPError as error:
            said = error.read().decode(errors="replace").strip()[:SHOWN]
            raise ToolError(f"{url}: {error.code} {error.reason}: {said}") from None
        except (OSError, ValueError, http.client.HTTPException) as error:
            raise ToolError(f"{url}: {getattr(error, 'reason', error)}") from None

    def update(self, text: str) -> None:
        """Performs a SPARQL Update."""
        form = urllib.parse.urlencode({"update": text}).encode()
        self.send("POST", self.update_url, form, {"Content-Type": "application/x-www-form-urlencoded"})

    def select(self, query: str) -> list[dict[str, Node]]:
        """Returns the rows of a query."""
        form = urllib.parse.urlencode({"query": query}).encode()
        headers = {
            "Content-Type": "application/x-www-form-urlencoded",
            "Accept": "application/sparql-results+json",
        }
        body = self.send("POST", self.query_url, form, headers)
        try:
            rows = json.loads(body)["results"]["bindings"]
            return [{name: node_of(it) for name, it in row.items()} for row in rows]
        except (ValueError, KeyError, TypeError):
            raise ToolError(f"{self.query_url}: no answer to a query of SPARQL: {body[:SHOWN]!r}") from None

    def post(self, triples: bytes, graph: str) -> None:
        """Adds triples, in N-Triples, to a graph, by the Graph Store HTTP Protocol."""
        url = f"{self.graph_store_url}?{urllib.parse.urlencode({'graph': graph})}"
        self.send("POST", url, triples, {"Content-Type": "application/n-triples"})

    def count(self, subject: str = "") -> int:
        """Returns the number of triples in the graph, or of those about a subject."""
        about = f"<{subject}>" if subject else "?s"
        (row,) = self.select(f"SELECT (COUNT(*) AS ?n) WHERE {{ GRAPH <{self.graph}> {{ {about} ?p ?o }} }}")
        found = row["n"]
        return int(found.text if isinstance(found, Literal) else found)

    def about(self, subjects: Iterable[str]) -> set[tuple[str, str, Node]]:
        """Returns what the graph says of some subjects."""
        names = " ".join(f"<{it}>" for it in subjects)
        rows = self.select(f"SELECT ?s ?p ?o WHERE {{ GRAPH <{self.graph}> {{ ?s ?p ?o VALUES ?s {{ {names} }} }} }}")
        return {(str(row["s"]), str(row["p"]), plain(row["o"])) for row in rows}


def check_url(url: str) -> None:
    """Raises ToolError for what is no URL of a server, or has a password in it."""
    try:
        parts = urllib.parse.urlsplit(url)
        is_right = parts.scheme in ("http", "https") and bool(parts.hostname) and parts.port != 0
    except ValueError:
        is_right = False
    if not is_right:
        raise ToolError(f"{without_password(url)} is no URL of a server", USAGE)
    if parts.username is not None:
        raise ToolError(f"{without_password(url)}: name the user by --user and --password-file", USAGE)


def node_of(value: dict[str, Any]) -> Node:
    """Returns a node of an answer in JSON."""
    if value["type"] == "uri":
        return Iri(value["value"])
    return Literal(value["value"], value.get("xml:lang", "").lower(), value.get("datatype", ""))


def plain(node: Node) -> Node:
    """Returns a node without the ways in which stores write the same: a truth as true, a text without a type."""
    if not isinstance(node, Literal):
        return node
    if node.datatype in (f"{XSD}boolean", f"{XSD}integer") and node.text in TRUE:
        return Literal("true", "", f"{XSD}boolean")
    return Literal(node.text, node.tag.lower(), "" if node.datatype == f"{XSD}string" else node.datatype)
