"""Answers about a whole thesaurus: each is made once for each state, kept in a file, and sent in pieces."""
from __future__ import annotations

import hashlib
import os
import tempfile
import threading
from collections import OrderedDict
from collections.abc import Callable, Hashable, Iterable, Iterator
from dataclasses import dataclass, field
from typing import IO

from flask import Response, abort, request
from thesaurus_desk.interfaces.source import Source

# How many answers are kept, and the bytes of a piece.
MOST_KEPT, PIECE = 12, 1 << 16
# How many seconds a request waits while another one makes its answer, and how many may wait so.
PATIENCE, MOST_WAITING = 20.0, 2


@dataclass
class Answer:
    """An answer in a file without a name, which goes with the last who reads it. `is_made` is set when it is whole."""

    file: IO[bytes]
    size: int = 0
    tag: str = ""
    is_made: threading.Event = field(default_factory=threading.Event)

    def write(self, parts: Iterable[str | bytes]) -> None:
        """Writes texts or bytes, and notes their size and their digest."""
        digest = hashlib.blake2b(digest_size=12)
        for part in parts:
            data = part.encode() if isinstance(part, str) else part
            digest.update(data)
            self.size += self.file.write(data)
        self.file.flush()
        self.tag = digest.hexdigest()

    def pieces(self) -> Iterator[bytes]:
        """Yields what was written."""
        for at in range(0, self.size, PIECE):
            yield os.pread(self.file.fileno(), PIECE, at)


class WholeAnswers:
    """Makes answers, and keeps the last ones of the present state."""

    def __init__(self, source: Source) -> None:
        self.source = source
        self.lock, self.waiting = threading.Lock(), threading.Semaphore(MOST_WAITING)
        self.version: object = None
        self.kept: OrderedDict[Hashable, Answer] = OrderedDict()

    def answer(self, name: Hashable, make: Callable[[], Iterable[str]]) -> Answer:
        """Returns the answer of a name, which a function makes if no other request has, or does. Ends with 503 if that
        takes too long, or if others wait for it already: who waits holds the place of a reader."""
        found, is_new = self.find(name)
        if is_new:
            self.make(name, found, make)
        elif not found.is_made.is_set():
            self.wait(found)
        return found

    def find(self, name: Hashable) -> tuple[Answer, bool]:
        """Returns the answer of a name for the present state, and whether it is yet to be made."""
        version = self.source.version()
        with self.lock:
            if version != self.version:
                self.kept, self.version = OrderedDict(), version
            found = self.kept.get(name)
            if found is not None:
                self.kept.move_to_end(name)
                return found, False
            # (a file without a name goes when nothing has it open)
            found = self.kept[name] = Answer(tempfile.TemporaryFile())
            while len(self.kept) > MOST_KEPT:
                self.kept.popitem(last=False)
            return found, True

    def make(self, name: Hashable, answer: Answer, make: Callable[[], Iterable[str]]) -> None:
        """Makes an answer; if that fails, the next request tries again."""
        try:
            answer.write(make())
        except BaseException:
            with self.lock:
                if self.kept.get(name) is answer:
                    del self.kept[name]
            raise
        finally:
            answer.is_made.set()

    def wait(self, answer: Answer) -> None:
        """Waits until another request has made an answer."""
        has_place = self.waiting.acquire(blocking=False)
        try:
            is_made = has_place and answer.is_made.wait(PATIENCE)
        finally:
            if has_place:
                self.waiting.release()
        if not is_made or not answer.tag:
            abort(503, "this answer is being made for another client: try again in some seconds")

    def response(self, name: Hashable, make: Callable[[], Iterable[str]], media: str) -> Response:
        """Returns an answer in pieces, or 304 to who has it."""
        return response_of(self.answer(name, make), media)


def response_of(answer: Answer, media: str) -> Response:
    """Returns an answer that is made in pieces, or 304 to who has it."""
    response = Response(answer.pieces(), content_type=media)
    response.content_length = answer.size
    response.set_etag(answer.tag)
    response.make_conditional(request)
    return response
