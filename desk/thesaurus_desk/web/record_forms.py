"""The form for all concepts of a record: what its author saw, what is ticked, and the plan that makes it so."""
from __future__ import annotations

import re
from collections.abc import Iterable
from dataclasses import dataclass, field
from urllib.parse import quote, urlencode

from flask import request
from markupsafe import Markup

from thesaurus_desk.journal.entries import Request
from thesaurus_desk.journal.queue import KEY, read_indexing
from thesaurus_desk.web.concept_choice import is_number
from thesaurus_desk.web.context import link, say, the_desk, the_replica
from thesaurus_desk.web.paths import path_to
from thesaurus_desk.web.posting_keys import new_key

SEEN = re.compile(r"([0-9]{1,10})-([0-9]{1,10})")

# The standing postings of a record: their numbers, each with the concept to which it is assigned.
Standing = dict[int, int]


@dataclass(frozen=True)
class RecordForm:
    """The concepts of a record as a form has them."""

    record: str
    # The postings that there are now.
    now: Standing
    ticked: frozenset[int]
    # The concepts that colleagues have added since, and those that they have withdrawn.
    added: frozenset[int] = field(default=frozenset())
    gone: frozenset[int] = field(default=frozenset())

    @property
    def is_stale(self) -> bool:
        """Whether the record isn't indexed with what the author of the form saw."""
        return bool(self.added or self.gone)

    def requests(self) -> list[Request]:
        """Returns the requests that post what is ticked, and then withdraw what isn't any more."""
        had = set(self.now.values())
        posts: list[Request] = [post(self.record, it) for it in sorted(self.ticked - had)]
        return posts + [withdrawal(number) for number, place in self.now.items() if place not in self.ticked]

    def changes(self) -> Markup:
        """Returns what colleagues have changed since the form was made, for its author."""
        parts = [Markup("+ {}").format(link(it)) for it in sorted(self.added)]
        parts += [Markup("− {}").format(link(it)) for it in sorted(self.gone)]
        return Markup("{} {}").format(say("indexing.changed"), Markup(", ").join(parts))


def standing_of(record: str) -> Standing:
    """Returns the standing postings of a record."""
    return {it.number: it.place for it in the_replica().postings.of_record(record) if not it.is_withdrawn}


def opened_record(record: str) -> RecordForm:
    """Returns the form for a record that somebody opens: what it has is ticked."""
    now = standing_of(record)
    return RecordForm(record, now, frozenset(now.values()))


def sent_record(record: str, chosen: Iterable[int] = ()) -> RecordForm:
    """Returns the form that was sent, with what else its author has chosen. What colleagues have added or withdrawn
    since it was made is so here, too."""
    seen, now = seen_of(request.form.get("was", "")), standing_of(record)
    numbers = {int(it) for it in request.form.getlist("concept") if is_number(it)}
    ticked = {the_replica().final(it) or it for it in numbers.union(chosen)}
    before = {the_replica().final(it) or it for it in seen.values()}
    added, gone = frozenset(now.values()) - before, before.difference(now.values())
    return RecordForm(record, now, frozenset(ticked | added) - gone, added, frozenset(gone))


def seen_of(text: str) -> Standing:
    """Returns the postings that a form says its author saw."""
    return {int(number): int(place) for number, place in SEEN.findall(text)}


def text_of(seen: Standing) -> str:
    """Returns postings as a form carries them."""
    return ",".join(f"{number}-{place}" for number, place in seen.items())


def page_to_index(name: str) -> str:
    """Returns the path of the page on which a record is indexed."""
    return f"{path_to('indexing.open_record')}?{urlencode({'record': name})}"


def catalogue_link(record: str) -> str:
    """Returns where a record is in the catalogue: by its own link, or by the head's template; nothing if neither is."""
    text = the_desk().record_texts.get(record)
    template = read_indexing(the_desk().journal).catalogue
    return text.link if text and text.link else template.replace(KEY, quote(record, safe=""))


def post(record: str, concept: int, key: str = "") -> Request:
    """Returns the request that indexes a record with a concept."""
    return {"do": "post", "key": key or new_key(), "record": record, "concept": concept}


def withdrawal(posting: int) -> Request:
    """Returns the request that withdraws a posting."""
    return {"do": "withdraw", "posting": posting}
