"""Keys of postings that no person has given."""
from __future__ import annotations

import re
import secrets

from thesaurus_desk.store.model import Posting
from thesaurus_desk.web.context import say

# Those that the desk makes, and those that are a hash of a record and a concept, as tools make them.
MADE = re.compile(r"d-[0-9a-f]{12}|[0-9a-f]{32}")


def new_key() -> str:
    """Returns a key for a posting that no other has."""
    return f"d-{secrets.token_hex(6)}"


def posting_name(posting: Posting) -> str:
    """Returns what a page calls a posting beside its record: the key, or the number if a program has made the key."""
    return say("concept.posting", n=posting.number) if MADE.fullmatch(posting.key) else posting.key
