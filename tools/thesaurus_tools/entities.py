"""Addresses of things elsewhere, as people copy them, and as they are meant."""
from __future__ import annotations

import re

WIKIDATA = "http://www.wikidata.org/entity/"
# An item of Wikidata: its number, or the address of its page in a browser.
PAGE = r"(?:https?://)?(?:www\.|m\.)?wikidata\.org/(?:wiki|entity)/(?:Special:EntityPage/)?"
ITEM = re.compile(rf"(?:{PAGE})?(Q[1-9][0-9]{{0,11}})/?")


def entity_address(text: str) -> str:
    """Returns the address of the thing that a text means: of an item of Wikidata that of the item, not of its page."""
    found = ITEM.fullmatch(text.strip())
    return WIKIDATA + found[1] if found else text.strip()
