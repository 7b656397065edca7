"""What the methods of Skosmos' interface share: the vocabularies asked about, contexts and parameters."""
from __future__ import annotations

from collections.abc import Iterable
from typing import Any

from flask import abort, request
from thesaurus_desk.interfaces.source import Source
from thesaurus_desk.store.replica import Replica
from thesaurus_desk.store.text_keys import has_language
from thesaurus_tools.ntriples import DCTERMS, SKOS

Json = dict[str, Any]
ISO_THES = "http://purl.org/iso25964/skos-thes#"
CONTEXT: Json = {
    "skos": SKOS, "isothes": ISO_THES, "onki": "http://schema.onki.fi/onki#",
    "dct": DCTERMS, "uri": "@id", "type": "@type", "lang": "@language",
}  # fmt: skip
MOST, USUAL = 1000, 100
PREF = "skos:prefLabel"
OTHERS = {"altLabel": "skos:altLabel", "hiddenLabel": "skos:hiddenLabel"}
LONGEST_TAG = 100


class Vocabulary:
    """A scheme that a request asks about, or all of them (`scheme` is None), in a language."""

    def __init__(self, source: Source, scheme: int | None, lang: str) -> None:
        self.replica: Replica = source.replica()
        self.source, self.scheme, self.lang = source, scheme, lang
        self.languages = self.replica.languages() or ["en"]
        self.langs = [it for it in (lang, *self.languages) if it]

    @property
    def name(self) -> str:
        """The name by which clients call it."""
        return str(self.scheme or "")

    @property
    def default_lang(self) -> str:
        """The language in which terms are, where there is a choice."""
        return self.lang or self.languages[0]

    def context(self, **names: Any) -> Json:
        """Returns the context of an answer, with the language of its terms."""
        return {**CONTEXT, "prefLabel": PREF, "notation": "skos:notation", **names, "@language": self.default_lang}

    def term(self, number: int, lang: str = "") -> tuple[str, str]:
        """Returns the tag and the text of the term by which a resource is shown."""
        return self.replica.term(number, [it for it in (lang, *self.langs) if it])

    def own_terms(self, number: int, kind: str) -> list[str]:
        """Returns the labels of a kind in the language that is asked for, and in no other."""
        view = self.replica.view(number)
        return [text for tag, text in (view.terms(kind) if view else ()) if has_language(tag, self.default_lang)]

    def asked(self, *kinds: str) -> int:
        """Returns the number of the resource of this vocabulary that the parameter uri names: of one of some kinds.

        Ends with 400 without the parameter, and with 404."""
        return self.find(required_parameter("uri"), kinds or ("concept", "collection", "scheme"))

    def find(self, uri: str, kinds: Iterable[str]) -> int:
        """Returns the number of a resource of this vocabulary. Ends with 404 if there is none."""
        number = self.source.number_of(uri)
        found = self.replica.get(number) if number is not None else None
        if found is None or found.kind not in kinds:
            abort(404, f"could not find {' or '.join(kinds)} <{uri[:300]}>")
        if self.scheme not in (None, found.scheme, found.number):
            abort(404, f"<{uri[:300]}> isn't of this vocabulary")
        return found.number

    def one(self, number: int) -> Json:
        """Returns a concept as lists have it."""
        return {"uri": self.replica.iri(number), "prefLabel": self.term(number)[1], **self.notation(number)}

    def notation(self, number: int) -> Json:
        """Returns the notation of a resource as a member of an answer, if it has one."""
        found = self.source.notation(number)
        return {"notation": found} if found else {}

    def ordered(self, numbers: Iterable[int]) -> list[int]:
        """Returns resources in the order of their terms."""
        return self.replica.ordered(numbers, self.langs)

    def many(self, numbers: Iterable[int]) -> list[Json]:
        """Returns concepts as lists have them, in the order of their terms."""
        return [self.one(it) for it in self.ordered(numbers)]


def language_asked(name: str = "lang") -> str:
    """Returns the language that a parameter names, or nothing."""
    return request.args.get(name, "").lower()[:LONGEST_TAG]


def vocabulary_of(source: Source, name: str) -> Vocabulary:
    """Returns the vocabulary of a name, in the language that the request names. Ends with 404."""
    scheme = source.number_of(name)
    if scheme is None or source.replica().kind(scheme) != "scheme":
        abort(404, f"there is no vocabulary {name[:100]!r}")
    return Vocabulary(source, scheme, language_asked())


def all_of_them(source: Source) -> Vocabulary:
    """Returns all vocabularies as one, in the language that the request names."""
    return Vocabulary(source, None, language_asked())


def required_parameter(name: str) -> str:
    """Returns a parameter. Ends with 400 if it is missing."""
    return request.args.get(name) or abort(400, f"{name} parameter missing")


def integer(name: str, default: int, most: int, least: int = 0) -> int:
    """Returns a number up to a bound that a parameter gives. Ends with 400 for another text."""
    text = request.args.get(name, "")
    if not text:
        return default
    if not (text.isascii() and text.isdigit() and len(text) < 11 and int(text) >= least):
        abort(400, f"{name} parameter is invalid")
    return min(int(text), most)


def flag(name: str) -> bool:
    """Returns whether a parameter is true. Ends with 400 for what is neither true nor false."""
    text = request.args.get(name, "").lower()
    if text not in ("", "0", "1", "true", "false", "on", "off", "yes", "no"):
        abort(400, f"{name} parameter is invalid")
    return text in ("1", "true", "on", "yes")


def words(name: str) -> list[str]:
    """Returns the words of a parameter, each once."""
    return list(dict.fromkeys(request.args.get(name, "").split()))
