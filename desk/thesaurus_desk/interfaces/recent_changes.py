"""What has changed since a time: as a list in JSON, or as the triples of the resources that changed."""
from __future__ import annotations

import re

from flask import Blueprint, Response, abort, request
from thesaurus_desk.auth.route_roles import interface
from thesaurus_desk.interfaces.linked_data import MEDIA, wanted_form
from thesaurus_desk.interfaces.source import Source
from thesaurus_tools.rdf_writer import WRITERS
from werkzeug.wrappers import Response as AnyResponse

TIME = re.compile(r"\d{4}(-\d\d(-\d\d(T\d\d(:\d\d(:\d\d(\.\d+)?)?)?Z?)?)?)?")


def add_changed(blueprint: Blueprint, source: Source) -> None:
    """Adds /changed to the routes."""

    @blueprint.get("/changed")
    @interface
    def changed() -> AnyResponse | dict[str, object]:
        """Returns what has changed since the time that the parameter since gives, as 2026-11 or 2026-11-28T10:04Z; or
        after the change that the parameter after gives: the `next` of an earlier answer."""
        # (read before the changes: what ends meanwhile is listed twice rather than never)
        last, replica = source.changes.last(), source.replica()
        found = [(it, at) for it, at in asked_changes(source) if replica.kind(it) not in (None, "outside")]
        if "format" not in request.args:
            items = [
                {"uri": replica.iri(it), "number": it, "modified": at, "term": replica.term(it)[1]} for it, at in found
            ]
            return {"since": request.args.get("since", ""), "changed": items, "next": last}
        form = wanted_form(has_pages=False) or abort(400, "format is ttl, jsonld, rdf or nt")
        text = "".join(WRITERS[form]((triple for it, _ in found for triple in source.triples(it)), replica.base))
        return Response(text, content_type=f"{MEDIA[form]}; charset=utf-8")


def asked_changes(source: Source) -> list[tuple[int, str]]:
    """Returns the resources that the request asks for, with the times of their last changes."""
    since, after = request.args.get("since", ""), request.args.get("after", "")
    if after.isascii() and after.isdigit() and len(after) < 16:
        return source.changes.after(int(after))
    if not TIME.fullmatch(since):
        abort(400, "since is a time such as 2026-11-28 or 2026-11-28T10:04Z, and after a number: next of an answer")
    return source.changes.since(since.rstrip("Z"))
