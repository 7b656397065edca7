"""A resource at its address: as a page, Turtle, JSON-LD, RDF/XML or N-Triples, by content negotiation."""
from __future__ import annotations

import hashlib
import re
from collections.abc import Iterator
from datetime import datetime
from functools import partial

from flask import Blueprint, Response, abort, redirect, request
from thesaurus_desk.auth.route_roles import interface
from thesaurus_desk.interfaces.source import Source
from thesaurus_desk.interfaces.whole_thesaurus import WholeAnswers
from thesaurus_tools.rdf_writer import WRITERS, Names, prefix_lines, turtle_parts, write_ntriples
from thesaurus_tools.texts import fold
from werkzeug.datastructures import MIMEAccept
from werkzeug.wrappers import Response as AnyResponse

# The media types, in the order in which one is preferred where a client takes all, with the forms that are written.
FORMS = {
    "text/html": "html", "application/xhtml+xml": "html", "text/turtle": "turtle", "application/ld+json": "jsonld",
    "application/json": "jsonld", "application/rdf+xml": "rdfxml", "application/n-triples": "ntriples",
}  # fmt: skip
MEDIA = {form: media for media, form in reversed(FORMS.items())} | {"jsonld": "application/ld+json"}
# What a parameter `format` may be, beside a media type.
SHORT = {"html": "html", "ttl": "turtle", "turtle": "turtle", "jsonld": "jsonld", "rdf": "rdfxml", "nt": "ntriples"}


def wanted_form(has_pages: bool) -> str | None:
    """Returns the form that a request asks for by its parameter `format` or its header Accept, or None."""
    forms = {media: form for media, form in FORMS.items() if has_pages or form != "html"}
    if given := request.args.get("format"):
        form = SHORT.get(given) or FORMS.get(without_parameters(given))
        return form if form in forms.values() else None
    if not request.accept_mimetypes.provided:
        return next(iter(forms.values()))
    # (a charset or a profile asks for nothing else than the type: all is UTF-8, and there is one JSON-LD)
    accepted = MIMEAccept([(without_parameters(media), quality) for media, quality in request.accept_mimetypes])
    best = accepted.best_match(list(forms))
    return forms[best] if best else None


def without_parameters(media: str) -> str:
    """Returns a media type without what follows it."""
    return media.partition(";")[0].strip().lower()


def write_resource(source: Source, number: int, form: str) -> Response:
    """Returns the triples of a resource in a form, or 304 if the client has them."""
    replica = source.replica()
    text = "".join(WRITERS[form](source.triples(number), replica.base))
    response = Response(text, content_type=f"{MEDIA[form]}; charset=utf-8")
    response.set_etag(hashlib.blake2b(text.encode(), digest_size=12).hexdigest())
    response.headers["Link"] = ", ".join(links(source, number, form))
    if modified := instant_of(source.dates(number)[1] or ""):
        response.last_modified = modified
    response.make_conditional(request)
    return response


def instant_of(date: str) -> datetime | None:
    """Returns a date as a moment; None, if it has no day."""
    try:
        return datetime.fromisoformat(date)
    except ValueError:
        return None


def links(source: Source, number: int, form: str = "") -> list[str]:
    """Returns the values of the header Link: the resource itself, its other forms, and what replaces it."""
    replica = source.replica()
    found = [f'<{replica.iri(number)}>; rel="describes"']
    found += [
        f'<?format={short}>; rel="alternate"; type="{MEDIA[other]}"'
        for short, other in SHORT.items()
        if other not in (form, "html") and short != "turtle"
    ]
    final = replica.final(number)
    if final and final != number:
        found.append(f'<{replica.iri(final)}>; rel="successor-version"')
    return found


def numbers_of_export(source: Source, scheme: int | None) -> list[int]:
    """Returns the numbers of all resources, or those of a scheme, in their order."""
    replica = source.replica()
    numbers = [it for kind in ("scheme", "concept", "collection") for it in replica.numbers(kind, scheme)]
    return sorted(numbers if scheme is None else [scheme, *numbers])


def export_ntriples(source: Source, scheme: int | None) -> Iterator[str]:
    """Yields the triples of all resources, or of those of a scheme, as N-Triples."""
    for number in numbers_of_export(source, scheme):
        yield from write_ntriples(source.triples(number), source.replica().base)


def export_turtle(source: Source, scheme: int | None) -> Iterator[str]:
    """Yields the same in Turtle. Its prefixes come first, whether or not they are used."""
    names = Names(source.replica().base)
    yield from prefix_lines(names, names.prefixes)
    for number in numbers_of_export(source, scheme):
        yield from turtle_parts(source.triples(number), names)


def export_in(form: str, source: Source, scheme: int | None) -> Iterator[str]:
    """Yields the same in a form that is written as a whole."""
    triples = (it for number in numbers_of_export(source, scheme) for it in source.triples(number))
    yield from WRITERS[form](triples, source.replica().base)


EXPORTS = {"ntriples": export_ntriples, "turtle": export_turtle}
ENDINGS = {"nt": "ntriples", "ttl": "turtle"}


def whole_vocabulary(whole: WholeAnswers, scheme: int | None, form: str) -> Response:
    """Returns the triples of all resources, or of those of a scheme."""
    write = EXPORTS.get(form) or partial(export_in, form)
    make = partial(write, whole.source, scheme)
    return whole.response(("export", form, scheme), make, f"{MEDIA[form]}; charset=utf-8")


def file_name(source: Source, part: int | None, lang: str = "") -> str:
    """Returns the name of a file that a reader saves, without its ending: of plain letters, digits and hyphens."""
    replica = source.replica()
    title = replica.term(part, [lang, *replica.languages()])[1] if part else source.name()
    return "-".join(re.findall("[a-z0-9]+", fold(title)))[:60] or "thesaurus"


def add_linked_data(blueprint: Blueprint, source: Source, whole: WholeAnswers) -> None:
    """Adds /id/N, /id?uri=, /export.nt and /export.ttl to the routes."""

    @blueprint.get("/export.<any(nt,ttl):ending>")
    @interface
    def export(ending: str) -> AnyResponse:
        """Returns all triples, or those of the scheme that is asked for, with the dates that are known."""
        asked = request.args.get("scheme", "")
        scheme = source.number_of(asked) if asked else None
        if asked and (scheme is None or source.replica().kind(scheme) != "scheme"):
            abort(404, "no such thesaurus")
        name = f"{file_name(source, scheme)}.{ending}"
        response = whole_vocabulary(whole, scheme, ENDINGS[ending])
        response.headers["Content-Disposition"] = f'attachment; filename="{name}"'
        return response

    @blueprint.get("/id")
    @interface
    def named() -> AnyResponse:
        """Leads to the resource that the parameter uri names: by its own address, or by that of its exact match."""
        number = source.number_of(request.args.get("uri") or abort(400, "uri parameter missing"))
        return redirect(f"/id/{number}", 303) if number is not None else abort(404)

    @blueprint.get("/id/<int:number>")
    @interface
    def resource(number: int) -> AnyResponse:
        """Sends a reader to the page of a resource, a program its triples: those of a dead concept say what replaces
        it."""
        replica = source.replica()
        form = wanted_form(source.page is not None)
        # (the page of a number that nothing has says so to a reader)
        if replica.kind(number) in (None, "outside") and (form != "html" or source.page is None):
            abort(404)
        if form is None:
            forms = sorted({it for it in FORMS if source.page or FORMS[it] != "html"})
            return Response(f"There are {', '.join(forms)}.\n", 406, content_type="text/plain; charset=utf-8")
        if form != "html" or source.page is None:
            return write_resource(source, number, form)
        # (the page of a dead concept says what to use)
        response = redirect(source.page(number), 303)
        if replica.kind(number) not in (None, "outside"):
            response.headers["Link"] = ", ".join(links(source, number))
        return response
