"""Asks a service of Annif for concepts of a text, by its REST interface."""
from __future__ import annotations

import http.client
import json
from concurrent.futures import ThreadPoolExecutor
from typing import NamedTuple
from urllib.parse import urlencode
from urllib.request import Request, urlopen

# How many seconds an answer may take, and how many are waited for at a time: others wait for no place.
PATIENCE, MOST_AT_ONCE = 3.0, 2
MOST_BYTES, MOST_TEXT, MOST = 1 << 20, 20_000, 10
POOL = ThreadPoolExecutor(MOST_AT_ONCE, "annif")


class NoService(Exception):
    """The service gives no answer in time, or none that can be understood."""


class AnnifConcept(NamedTuple):
    """A concept that the service suggests, by its URI, and how sure it is."""

    uri: str
    score: float


def ask_annif(project: str, text: str) -> list[AnnifConcept]:
    """Returns what a project of Annif suggests for a text. Raises NoService."""
    asked = POOL.submit(fetch, project, text[:MOST_TEXT])
    try:
        return asked.result(PATIENCE)
    except TimeoutError:
        asked.cancel()
        raise NoService("no answer in time") from None
    except (OSError, ValueError, TypeError, KeyError, http.client.HTTPException) as error:
        raise NoService(f"{type(error).__name__}: {error}") from None


def fetch(project: str, text: str) -> list[AnnifConcept]:
    """Sends a text to a project, and reads its answer."""
    body = urlencode({"text": text, "limit": MOST}).encode()
    request = Request(f"{project.rstrip('/')}/suggest", body, {"Accept": "application/json"})
    with urlopen(request, timeout=PATIENCE) as answer:
        found = json.loads(answer.read(MOST_BYTES))["results"]
    return [AnnifConcept(str(it["uri"]), float(it["score"])) for it in found[:MOST]]
