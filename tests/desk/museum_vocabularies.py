"""Two small vocabularies with all that the interfaces for other programs speak of, without a program or a store."""
from __future__ import annotations

from typing import Any

from flask import Flask
from flask.testing import FlaskClient
from made_replica import MadeReplica
from thesaurus_desk.interfaces import Changes, Source, interfaces_of
from thesaurus_desk.store.replica import Replica

BASE = "https://museum.example/id/"
GETTY = "http://vocab.getty.edu/aat/300041620"
# The numbers of the schemes, of concepts, of the collection, and of the concept elsewhere.
INSTRUMENTS, PLACES, STRINGS, VIOLINS, HARPS, OLD, CREMONA, QUARTET, ELSEWHERE = range(1, 10)
MADE = {VIOLINS: "2026-11-01T10:00:00Z", HARPS: "2026-11-02T10:00:00Z"}
CHANGED = [(OLD, "2026-11-29T10:00:00Z"), (VIOLINS, "2026-11-28T10:00:00Z"), (CREMONA, "2026-11-27T10:00:00Z")]


def concept(scheme: int, text: str) -> dict[str, Any]:
    return {"do": "concept", "scheme": scheme, "tag": "en", "text": text}


def label(owner: int, kind: str, tag: str, text: str) -> dict[str, Any]:
    return {"do": "addLabel", "owner": owner, "kind": kind, "tag": tag, "text": text}


def link(kind: str, a: int, b: int) -> dict[str, Any]:
    return {"do": "link", "kind": kind, "a": a, "b": b}


REQUESTS = [
    {"do": "scheme", "tag": "en", "text": "Instruments"},
    {"do": "scheme", "tag": "en", "text": "Places"},
    *(concept(INSTRUMENTS, it) for it in ("String instruments", "Violins", "Harps", "Fiddles of old")),
    concept(PLACES, "Cremona"),
    {"do": "collection", "scheme": INSTRUMENTS, "tag": "en", "text": "String quartet"},
    {"do": "outside", "iri": GETTY},
    label(VIOLINS, "pref", "de", "Geigen"), label(VIOLINS, "alt", "de", "Violinen"),
    label(VIOLINS, "alt", "en", "Fiddles"), label(VIOLINS, "hidden", "en", "Violns"),
    label(HARPS, "alt", "en", "18-string harps"), label(CREMONA, "pref", "de-at", "Cremona (Stadt)"),
    link("broaderGeneric", VIOLINS, STRINGS), link("broaderGeneric", HARPS, STRINGS),
    link("related", VIOLINS, HARPS), link("member", QUARTET, VIOLINS), link("exact", VIOLINS, ELSEWHERE),
    link("close", VIOLINS, CREMONA), {"do": "merge", "source": OLD, "target": VIOLINS},
]  # fmt: skip


def museum() -> Replica:
    """Returns a replica of both vocabularies."""
    return MadeReplica(*REQUESTS, base=BASE)


def museum_client() -> FlaskClient:
    """Returns a client of the interfaces over both vocabularies."""
    return client_of(museum())


def client_of(replica: Replica) -> FlaskClient:
    """Returns a client of the interfaces over a replica."""
    app = Flask("publish")
    changes = Changes(lambda time: [it for it in CHANGED if it[1] >= time])
    app.register_blueprint(
        interfaces_of(Source(lambda: replica, lambda it: (MADE.get(it), dict(CHANGED).get(it)), changes))
    )
    return app.test_client()


def iri(number: int) -> str:
    return f"{BASE}{number}"
