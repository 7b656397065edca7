"""Reads files of RDF: N-Triples by itself, other forms by Python's rdflib; and files of Zthes."""
from __future__ import annotations

import contextlib
import gzip
import logging
import mmap
import zlib
from collections.abc import Iterator
from pathlib import Path
from typing import Any

from thesaurus_tools.command_line import REFUSED, USAGE, ToolError
from thesaurus_tools.ntriples import BOM, QUAD, STATEMENT, Blank, Iri, Literal, Triple, parse_ntriples
from thesaurus_tools.ntriples import read_document as read_lines
from thesaurus_tools.parse_places import place_in, text_of_place
from thesaurus_tools.parser_bounds import BoundReached, limit_run, guard_opens
from thesaurus_tools.system_python import run_by_system_python
from thesaurus_tools.zthes import HEAD_BYTES, is_zthes, zthes_triples

# The forms of files by the ends of their names, as rdflib calls them.
FORMATS = {
    ".nt": "nt",
    ".nq": "nquads",
    ".ttl": "turtle",
    ".turtle": "turtle",
    ".n3": "n3",
    ".rdf": "xml",
    ".xml": "xml",
    ".owl": "xml",
    ".skos": "xml",
    ".jsonld": "json-ld",
    ".json": "json-ld",
}
# The end of the name of a file in gzip, and its first bytes.
PACKED, MAGIC = ".gz", b"\x1f\x8b"
# The most bytes of a file that rdflib is given, which takes a multiple of them.
MOST_BYTES = 256 << 20
# Memory that is given back where it has run out, so that there is some to say so.
RESERVE = 4 << 20
# The time of a processor and the memory that rdflib may take for a file: these, and as much again for its size.
SECONDS, SECONDS_FOR_MEGABYTE = 10, 10
MEMORY, MEMORY_FOR_BYTE = 1 << 30, 300
# How much of a parser's message is printed.
LONGEST_ERROR = 300
TOO_LARGE = f"more than {MOST_BYTES >> 20} megabytes"
OTHER_WAY = "make N-Triples of it by another program, such as rapper"
STOPPED = f"rdflib took more than {{most}} for it, and was stopped; {OTHER_WAY}"
NO_RDFLIB = """Python's rdflib isn't installed, which reads all forms but N-Triples.
  Install it: `sudo apt install python3-rdflib`, or `python3 -m pip install rdflib`;
  or make N-Triples of the file: `rapper -g -o ntriples {path} > {stem}.nt`"""


class TooLargeError(ToolError):
    """That a file is larger than those that are read as a whole."""

    def __init__(self, path: Path, is_packed: bool = False, way: str = "") -> None:
        super().__init__(f"{path}: {'unpacked ' if is_packed else ''}{TOO_LARGE}{way and f'; {way}'}", USAGE)
        self.is_packed = is_packed


def parse_by_rdflib(path: Path, form: str, may_fetch: bool) -> Any:
    """Returns the graph of a file. Raises ToolError if it isn't parsed within bounds, or refers to something else."""
    import rdflib

    logging.getLogger("rdflib").setLevel(logging.CRITICAL)
    watch = None
    try:
        if path.stat().st_size > MOST_BYTES:
            raise TooLargeError(path, way=OTHER_WAY)
        data = read_document(path)
        size = len(data)
        seconds, memory = SECONDS + SECONDS_FOR_MEGABYTE * size / 1e6, MEMORY + MEMORY_FOR_BYTE * size
        with contextlib.ExitStack() as stack:
            reserve = stack.enter_context(contextlib.closing(mmap.mmap(-1, RESERVE)))
            stack.enter_context(limit_run(seconds, memory))
            if not may_fetch:
                watch = stack.enter_context(guard_opens(path))
            try:
                graph = rdflib.Graph().parse(data=data, format=form, publicID=path.absolute().as_uri())
            except MemoryError:
                reserve.close()
                raise
        failure: Exception | None = None
    except ToolError:
        raise
    except Exception as error:  # each parser of rdflib has errors of its own
        failure = error
    if watch and watch.refused:
        raise ToolError(f"{path}: it refers to {watch.refused}, which is read only with --fetch", REFUSED) from None
    if isinstance(failure, BoundReached):
        raise ToolError(f"{path}: {STOPPED.format(most=f'{seconds:.0f} seconds')}", REFUSED) from None
    if isinstance(failure, MemoryError):
        raise ToolError(f"{path}: {STOPPED.format(most=f'{memory >> 20} MB of memory')}", REFUSED) from None
    if isinstance(failure, OSError):
        raise ToolError(f"{path}: {failure.strerror or failure}") from None
    if failure:
        raise ToolError(f"{path}{text_of_place(place_in(str(failure)))[:LONGEST_ERROR]}", REFUSED) from None
    return graph


def read_by_rdflib(path: Path, form: str, may_fetch: bool) -> Iterator[Triple]:
    """Yields the triples of a file in a form that rdflib reads."""
    try:
        import rdflib
    except ImportError:
        run_by_system_python("rdflib")
        raise ToolError(f"{path}: {NO_RDFLIB.format(path=path, stem=path.stem)}") from None
    graph = parse_by_rdflib(path, form, may_fetch)

    def node(it: Any) -> Any:
        if isinstance(it, rdflib.Literal):
            return Literal(str(it), it.language or "", str(it.datatype or ""))
        return Blank(f"_:{it}") if isinstance(it, rdflib.BNode) else Iri(it)

    for triple in graph:
        yield Triple(*map(node, triple))


def read_triples(path: Path, form: str, may_fetch: bool = False) -> Iterator[Triple]:
    """Yields the triples of a file in the given form, or in that of its name; `may_fetch` if also what it refers to."""
    form = form or form_of(path.name)
    if not form and not path.is_dir() and path.exists():
        raise ToolError(f"{path}: its name ends with none of {' '.join(FORMATS)}; --form says what it is", USAGE)
    if form == "xml" and path.is_file() and is_zthes(beginning_of(path)):
        if path.stat().st_size > MOST_BYTES:
            raise TooLargeError(path)
        return zthes_triples(str(path), read_document(path))
    if form not in ("", "nt", "nquads"):
        return read_by_rdflib(path, form, may_fetch)
    return parse_ntriples(read_document(path, is_lines=True), str(path), QUAD if form == "nquads" else STATEMENT)


def form_of(name: str) -> str:
    """Returns the form of a file by its name, which may end with .gz; "" if the name shows none."""
    return FORMATS.get(Path(name.lower().removesuffix(PACKED)).suffix, "")


def beginning_of(path: Path) -> bytes:
    """Returns the first bytes of a file, unpacked if it is in gzip; nothing if it can't be read."""
    try:
        with open(path, "rb") as file:
            found = file.read(HEAD_BYTES)
        if not found.startswith(MAGIC):
            return found
        with gzip.open(path) as unpacked:
            return unpacked.read(HEAD_BYTES)
    except (OSError, EOFError, zlib.error):
        return b""


def read_document(path: Path, is_lines: bool = False) -> bytes:
    """Returns the bytes of a file, unpacked if it is in gzip, without the mark of UTF-8. Raises ToolError if it can't
    be read, or is too large once it is unpacked."""
    try:
        with open(path, "rb") as file:
            is_packed = file.read(len(MAGIC)) == MAGIC
        if not is_packed:
            return (read_lines(path) if is_lines else path.read_bytes()).removeprefix(BOM)
        with gzip.open(path) as unpacked:
            data = unpacked.read(MOST_BYTES + 1)
    except (EOFError, gzip.BadGzipFile, zlib.error):
        raise ToolError(f"{path}: it is cut short, or damaged: it can't be unpacked", REFUSED) from None
    except OSError as error:
        raise ToolError(f"{path}: {error.strerror or error}") from None
    if len(data) > MOST_BYTES:
        raise TooLargeError(path, is_packed=True)
    return data.removeprefix(BOM)
