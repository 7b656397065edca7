"""The blueprint of all interfaces for other programs."""
from __future__ import annotations

from flask import Blueprint, abort, request
from werkzeug.exceptions import HTTPException
from werkzeug.wrappers import Response

from thesaurus_desk.auth.route_roles import Number
from thesaurus_desk.interfaces.linked_data import add_linked_data
from thesaurus_desk.interfaces.oai import add_oai
from thesaurus_desk.interfaces.recent_changes import add_changed
from thesaurus_desk.interfaces.reconciliation import add_reconciliation
from thesaurus_desk.interfaces.skosmos import add_skosmos
from thesaurus_desk.interfaces.source import Source
from thesaurus_desk.interfaces.whole_thesaurus import WholeAnswers


def interfaces_of(source: Source) -> Blueprint:
    """Returns the routes /id, /changed, /rest/v1, /reconcile and /oai over a thesaurus. They change nothing."""
    blueprint = Blueprint("interfaces", __name__)
    blueprint.record_once(lambda state: state.app.url_map.converters.update(int=Number))
    whole = WholeAnswers(source)
    add_linked_data(blueprint, source, whole)
    add_changed(blueprint, source)
    add_skosmos(blueprint, source, whole)
    add_reconciliation(blueprint, source)
    add_oai(blueprint, source)

    @blueprint.before_request
    def refuse_scripts() -> None:
        """Refuses JSONP, which would have a page of another site run what this server sends."""
        if "callback" in request.args and request.path.startswith(("/rest/", "/reconcile")):
            abort(400, "there is no JSONP (callback): pages of other sites may read the JSON")

    @blueprint.after_request
    def let_read(response: Response) -> Response:
        """Lets pages of other sites read the answers, which are the same for everybody who may read."""
        response.headers["Access-Control-Allow-Origin"] = "*"
        if request.method == "OPTIONS":
            # (a browser asks so before a page of another site sends more than a plain form)
            response.headers["Access-Control-Allow-Methods"] = "GET, HEAD, POST, OPTIONS"
            response.headers["Access-Control-Allow-Headers"] = "Accept, Content-Type"
            response.headers["Access-Control-Max-Age"] = "86400"
        response.headers["Cross-Origin-Resource-Policy"] = "cross-origin"
        response.headers.add("Vary", "Accept")
        response.headers.setdefault("Cache-Control", "no-cache")
        return response

    @blueprint.errorhandler(HTTPException)
    def explain(error: HTTPException) -> tuple[dict[str, str], int]:
        """Says in JSON what is wrong with a request."""
        return {"error": error.description or error.name}, error.code or 500

    return blueprint
