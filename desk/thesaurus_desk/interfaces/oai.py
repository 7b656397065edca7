"""OAI-PMH 2.0, by which catalogues and portals harvest what has changed: its requests and their errors."""
from __future__ import annotations

import re
from collections.abc import Callable, Iterable
from dataclasses import dataclass
from datetime import UTC, datetime
from xml.etree.ElementTree import Element, SubElement, tostring

from flask import Blueprint, Response, request
from thesaurus_desk.auth.route_roles import interface, role
from thesaurus_desk.interfaces.oai_records import FORMATS, SCHEMA_INSTANCE, metadata, plain
from thesaurus_desk.interfaces.source import Source

OAI = "http://www.openarchives.org/OAI/2.0/"
PLACE = f"{OAI} {OAI}OAI-PMH.xsd"
# How many records an answer has.
PAGE = 100
# The date of a record that is older than all that is known of changes.
EARLIEST = "1970-01-01T00:00:00Z"
DAY, SECOND = re.compile(r"\d{4}-\d\d-\d\d"), re.compile(r"\d{4}-\d\d-\d\dT\d\d:\d\d:\d\dZ")
# The arguments of each verb: those that it needs, and those that it may have.
ARGUMENTS: dict[str, tuple[set[str], set[str]]] = {
    "Identify": (set(), set()),
    "ListMetadataFormats": (set(), {"identifier"}),
    "ListSets": (set(), set()),
    "ListIdentifiers": ({"metadataPrefix"}, {"from", "until", "set"}),
    "ListRecords": ({"metadataPrefix"}, {"from", "until", "set"}),
    "GetRecord": ({"identifier", "metadataPrefix"}, set()),
}
WITH_TOKEN = ("ListSets", "ListIdentifiers", "ListRecords")


class OaiError(Exception):
    """An error of the protocol, with its code."""

    def __init__(self, code: str, text: str) -> None:
        super().__init__(text)
        self.code = code


@dataclass(frozen=True)
class Selection:
    """What a list has: its form, the first and the last time (or nothing), a set, the number after which it goes on,
    and how many records came before."""

    prefix: str
    first: str = ""
    last: str = ""
    scheme: str = ""
    after: int = 0
    cursor: int = 0

    def token(self, after: int, cursor: int) -> str:
        """Returns the token by which the list goes on."""
        return "!".join((self.prefix, self.first, self.last, self.scheme, str(after), str(cursor)))


def selection_of(token: str) -> Selection:
    """Returns the list of a token. Raises OaiError for a text that is none."""
    parts = token.split("!")
    try:
        prefix, first, last, scheme, after, cursor = parts
        check_times(first, last)
        if prefix not in FORMATS or not re.fullmatch(r"\d{0,10}", scheme):
            raise ValueError
        if not (re.fullmatch(r"\d{1,10}", after) and re.fullmatch(r"\d{1,10}", cursor)):
            raise ValueError
    except (ValueError, OaiError):
        raise OaiError("badResumptionToken", "this token isn't one of this repository") from None
    return Selection(prefix, first, last, scheme, int(after), int(cursor))


def check_times(first: str, last: str) -> None:
    """Raises OaiError for what is no time of the protocol, and for two of which the first is the later one."""
    for it in filter(None, (first, last)):
        try:
            if not (DAY.fullmatch(it) or SECOND.fullmatch(it)):
                raise ValueError
            datetime.fromisoformat(it)
        except ValueError:
            raise OaiError("badArgument", "a time is 2026-11-28 or 2026-11-28T10:04:00Z") from None
    if first and last and (len(first) != len(last) or first > last):
        raise OaiError("badArgument", "from and until have one granularity, and from isn't the later one")


def check_prefix(prefix: str) -> None:
    """Raises OaiError for a form that there isn't."""
    if prefix not in FORMATS:
        raise OaiError("cannotDisseminateFormat", f"there are {', '.join(FORMATS)}")


def stamp(at: str | None) -> str:
    """Returns a time of the journal as the protocol has it: to the second."""
    return f"{at[:19]}Z" if at else EARLIEST


class Repository:
    """The concepts of a thesaurus as items; its schemes are their sets."""

    def __init__(self, source: Source) -> None:
        self.source, self.replica = source, source.replica()

    # --- what there is ---

    def number(self, identifier: str) -> int:
        """Returns the number of a concept. Raises OaiError if it has none."""
        found = self.replica.by_iri(identifier)
        if found is None or self.replica.kind(found) != "concept":
            raise OaiError("idDoesNotExist", "no concept has this identifier")
        return found

    def numbers(self, its: Selection) -> list[int]:
        """Returns the numbers of the concepts of a list, whole, in their order. Raises OaiError if there are none."""
        scheme = int(its.scheme) if its.scheme.isdigit() and len(its.scheme) < 11 else None
        if its.scheme and (scheme is None or self.replica.kind(scheme) != "scheme"):
            raise OaiError("noRecordsMatch", "there is no such set")
        found = sorted(self.replica.numbers("concept", scheme))
        if its.first or its.last:
            size = len(its.first or its.last)
            times = dict(self.source.changes.since(its.first.rstrip("Z") if its.first > EARLIEST[:size] else ""))
            dated = ((it, stamp(times.get(it))[:size]) for it in found)
            found = [it for it, at in dated if its.first <= at and (not its.last or at <= its.last)]
        if not found:
            raise OaiError("noRecordsMatch", "no record is so")
        return found

    # --- answers ---

    def identify(self, given: dict[str, str]) -> Element:
        """Says what the repository is."""
        answer = Element("Identify")
        texts = (
            *(("repositoryName", self.source.name()), ("baseURL", request.base_url), ("protocolVersion", "2.0")),
            *(("adminEmail", f"webmaster@{request.host.partition(':')[0]}"), ("earliestDatestamp", EARLIEST)),
            *(("deletedRecord", "transient"), ("granularity", "YYYY-MM-DDThh:mm:ssZ")),
        )
        for name, text in texts:
            SubElement(answer, name).text = plain(text)
        return answer

    def list_formats(self, given: dict[str, str]) -> Element:
        """Lists the forms of records, which each concept has."""
        if "identifier" in given:
            self.number(given["identifier"])
        answer = Element("ListMetadataFormats")
        for prefix, it in FORMATS.items():
            form = SubElement(answer, "metadataFormat")
            for name, text in zip(("metadataPrefix", "schema", "metadataNamespace"), (prefix, it.schema, it.space)):
                SubElement(form, name).text = text
        return answer

    def list_sets(self, given: dict[str, str]) -> Element:
        """Lists the schemes. They are in one answer, so that no token is one of them."""
        if "resumptionToken" in given:
            raise OaiError("badResumptionToken", "the sets are in one answer")
        answer = Element("ListSets")
        schemes = self.replica.numbers("scheme")
        if not schemes:
            raise OaiError("noSetHierarchy", "there is no scheme yet")
        for number in schemes:
            its = SubElement(answer, "set")
            SubElement(its, "setSpec").text = str(number)
            SubElement(its, "setName").text = plain(self.replica.term(number, self.replica.languages())[1])
        return answer

    def list_identifiers(self, given: dict[str, str]) -> Element:
        """Lists the headers of records."""
        return self.listed("ListIdentifiers", given, lambda it, prefix: self.header(it))

    def list_records(self, given: dict[str, str]) -> Element:
        """Lists records."""
        return self.listed("ListRecords", given, self.record)

    def get_record(self, given: dict[str, str]) -> Element:
        """Returns a record."""
        number = self.number(given["identifier"])
        check_prefix(given["metadataPrefix"])
        answer = Element("GetRecord")
        answer.append(self.record(number, given["metadataPrefix"]))
        return answer

    def listed(self, name: str, given: dict[str, str], write: Callable[[int, str], Element]) -> Element:
        """Returns a part of a list, and the token by which it goes on."""
        its = self.selection(given)
        found = self.numbers(its)
        left = [it for it in found if it > its.after]
        if not left:
            raise OaiError("badResumptionToken", "nothing follows this token any more")
        answer = Element(name)
        answer.extend(write(it, its.prefix) for it in left[:PAGE])
        if its.cursor or len(left) > PAGE:
            token = SubElement(answer, "resumptionToken", completeListSize=str(len(found)), cursor=str(its.cursor))
            token.text = its.token(left[PAGE - 1], its.cursor + PAGE) if len(left) > PAGE else ""
        return answer

    def selection(self, given: dict[str, str]) -> Selection:
        """Returns what a request asks a list of. Raises OaiError."""
        if "resumptionToken" in given:
            return selection_of(given["resumptionToken"])
        first, last = given.get("from", ""), given.get("until", "")
        for name in ("from", "until", "set"):
            if given.get(name) == "":
                raise OaiError("badArgument", f"{name} is empty")
        check_times(first, last)
        check_prefix(given["metadataPrefix"])
        return Selection(given["metadataPrefix"], first, last, given.get("set", ""))

    def header(self, number: int) -> Element:
        """Returns the header of a record: that of a deprecated concept is of a deleted one."""
        header = Element("header", {} if self.replica.is_live(number) else {"status": "deleted"})
        SubElement(header, "identifier").text = self.replica.iri(number)
        created, modified = self.source.dates(number)
        SubElement(header, "datestamp").text = stamp(modified or created)
        view = self.replica.view(number)
        if view and view.scheme is not None:
            SubElement(header, "setSpec").text = str(view.scheme)
        return header

    def record(self, number: int, prefix: str) -> Element:
        """Returns a record: its header, and what it says unless it is deleted."""
        record = Element("record")
        record.append(self.header(number))
        if self.replica.is_live(number):
            SubElement(record, "metadata").append(metadata(self.source, number, prefix))
        return record


VERBS: dict[str, Callable[[Repository, dict[str, str]], Element]] = {
    "Identify": Repository.identify,
    "ListMetadataFormats": Repository.list_formats,
    "ListSets": Repository.list_sets,
    "ListIdentifiers": Repository.list_identifiers,
    "ListRecords": Repository.list_records,
    "GetRecord": Repository.get_record,
}


def read_arguments(pairs: Iterable[tuple[str, str]]) -> dict[str, str]:
    """Returns the arguments of a request. Raises OaiError for those that its verb doesn't have, or that are lacking."""
    given = list(pairs)
    names = [name for name, _ in given]
    verb = dict(given).get("verb", "")
    if verb not in VERBS or names.count("verb") > 1:
        raise OaiError("badVerb", f"verb is one of {', '.join(VERBS)}")
    needed, allowed = ARGUMENTS[verb]
    if "resumptionToken" in names and verb in WITH_TOKEN:
        needed, allowed = {"resumptionToken"}, set()
    there = set(names) - {"verb"}
    if len(names) != len(set(names)) or not needed <= there <= needed | allowed:
        raise OaiError("badArgument", f"{verb} needs {sorted(needed)} and may have {sorted(allowed)}, each once")
    return dict(given)


def answer_of(source: Source, pairs: Iterable[tuple[str, str]], moment: datetime) -> bytes:
    """Returns the answer to a request."""
    root = Element("OAI-PMH", {"xmlns": OAI, f"{{{SCHEMA_INSTANCE}}}schemaLocation": PLACE})
    SubElement(root, "responseDate").text = f"{moment:%Y-%m-%dT%H:%M:%SZ}"
    asked = SubElement(root, "request")
    asked.text = request.base_url
    try:
        given = read_arguments(pairs)
        content = VERBS[given["verb"]](Repository(source), given)
        is_of_request = True
    except OaiError as error:
        content = Element("error", code=error.code)
        content.text = plain(str(error))
        is_of_request = error.code not in ("badVerb", "badArgument")
    if is_of_request:
        asked.attrib.update({name: plain(text) for name, text in read_arguments(pairs).items()})
    root.append(content)
    return b'<?xml version="1.0" encoding="UTF-8"?>\n' + tostring(root, encoding="utf-8")


def add_oai(blueprint: Blueprint, source: Source) -> None:
    """Adds /oai to the routes."""

    @blueprint.route("/oai", methods=["GET", "POST"])
    @interface
    @role("reader")
    def oai() -> Response:
        """Answers a request of OAI-PMH."""
        # (read before the store is: what changes meanwhile is in the next harvest)
        moment = datetime.now(UTC)
        given = request.form if request.method == "POST" else request.args
        return Response(
            answer_of(source, list(given.items(multi=True)), moment), content_type="text/xml; charset=utf-8"
        )
