"""What pages show of records: those that a search finds, and the concepts of one."""
from __future__ import annotations

from thesaurus_desk.web.context import tags, the_desk, the_replica


def records_found(query: str, most: int) -> list[str]:
    """Returns the records that have a text in their names, and those whose titles have its words."""
    named = the_replica().postings.records_like(query, most)
    titled = [it for it in the_desk().record_texts.titled(query, most) if it not in named]
    return [*named, *titled][:most]


def concepts_of(record: str) -> list[int]:
    """Returns the concepts with which a record is indexed, in the order of their terms."""
    standing = {it.place for it in the_replica().postings.of_record(record) if not it.is_withdrawn}
    return the_replica().ordered(standing, tags())
